# The server crashes again while the next one gathers; the one after it takes the reports of both clients.
seed 10=1 20=2
client 0
client 1
settle
lock 0 15 RangeI-N
lock 1 15 RangeI-N
settle
crash server
start server
tick 0
crash server
start server
tick 0
tick 1
settle
missing
check
insert 0 15 5
settle
status 0
index
