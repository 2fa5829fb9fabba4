# A server that starts again serves nobody until each client has reported, or has started over.
seed 10=1 20=2
client 0
client 1
client 2
settle
lock 0 5 RangeS-S
settle
lock 1 15 RangeS-S
settle
crash server
start server
tick 0
tick 2
settle
missing
lock 2 25 RangeI-N
settle
status 2
crash 1
client 1
settle
missing
tick 2
settle
status 2
scan 0 0 11
hold 1 15
