# A lock request that is lost is sent again with the next tick.
seed 10=1 20=2
client 0
settle
lock 0 5 RangeS-S
next 1
drop
status 0
tick 0
settle
status 0
