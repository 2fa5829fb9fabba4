# The server crashes when it has applied an insert and before the client learns it. The next server takes
# both reports, and answers the insert from its record.
seed 10=1 20=2
client 0
client 1
settle
lock 0 15 RangeI-N
settle
insert 0 15 5
next 1
crash server
drop
start server
tick 0
tick 1
settle
missing
status 0
lock 1 15 X
settle
put 1 15 6
settle
status 1
tick 0
settle
status 0
hold 0 15
scan 0 15 16
index
writes
