# A client that holds nothing inserts and puts in one trip each: the server grants the lock that the write needs with
# the write. `next 2` delivers the write and its answer, and `next 3` the acknowledgement of that answer before them.
seed 10=1 20=2
client 0
settle
insert 0 15 5
take insert 0 15 5
next 2
status 0
hold 0 15
hold 0 20
take put 0 10 7
next 3
status 0
hold 0 10
index
writes
check
