# RangeI-S knows the entry, and not the gap below it: others may insert there.
seed 10=1 20=2
client 0
settle
lock 0 5 RangeI-S
settle
scan 0 10 11
scan 0 0 11
scan 0 9 11
hold 0 5
hold 0 10
