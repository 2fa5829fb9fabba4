# A key stands twice: the world has no entries, and the script continues.
seed 10=1 10=2
client 0
settle
lock 0 5 RangeS-S
settle
scan 0 0 11
