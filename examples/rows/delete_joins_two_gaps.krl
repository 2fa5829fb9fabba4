# The third client takes the entry and the gap after it, and deletes the entry. Its gap then reaches up
# to the next one.
seed 10=1 20=2
client 0
client 1
settle
lock 0 15 RangeI-N
lock 1 15 RangeI-N
settle
insert 0 15 5
settle
insert 1 17 7
settle
status 0
status 1
scan 1 15 18
hold 1 17
index
client 2
settle
lock 2 12 RangeS-S
settle
insert 1 13 3
hold 0 15
hold 1 15
hold 2 12
scan 2 11 16
lock 2 15 RangeX-X
settle
lock 2 17 RangeX-X
settle
delete 2 15
settle
status 2
hold 0 15
hold 1 15
hold 2 15
hold 1 18
scan 2 11 18
index
