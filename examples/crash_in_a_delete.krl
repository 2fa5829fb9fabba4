# The server crashes when it has applied a delete and before the client learns it. Until the client learns it,
# it keeps the gap across the deleted key, and another client waits.
seed 10=1 20=2
client 0
client 1
settle
lock 0 5 RangeX-X
settle
lock 0 11 RangeX-X
settle
delete 0 10
next 1
crash server
drop
start server
tick 0
tick 1
settle
index
lock 1 3 RangeS-S
settle
status 1
hold 0 10
tick 0
settle
status 1
hold 0 10
scan 1 0 21
writes
