# A grant that a client receives after it has joined a later epoch is passed over. Message 8 is that grant.
seed 10=1 20=2
client 0
client 1
settle
lock 0 5 RangeS-S
next 1
crash server
drop
start server
tick 0
settle
deliver 8
hold 0 5
status 0
missing
crash server
start server
tick 0
tick 1
settle
missing
status 0
deliver 8
hold 0 5
lock 1 5 RangeX-X
settle
status 1
