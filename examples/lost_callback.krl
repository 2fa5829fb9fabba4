# Client 0 reads the entries below 11. Client 1 wants to insert among them, and so the server calls client 0 back.
seed 10=1 20=2
client 0
client 1
settle
lock 0 0 RangeS-S 11
settle
scan 0 0 11
lock 1 5 RangeI-N
next 1
# The callback is lost. Client 0 still reads its copy, which is still right: client 1 waits.
drop
scan 0 0 11
status 1
# Client 1 asks again, and the server calls back again.
tick 1
settle
hold 1 5
scan 0 0 11
insert 1 5 7
settle
index
check
