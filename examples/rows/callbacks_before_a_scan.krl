# A third client asks for a range that the two hold for inserts. Both are called back and give up what
# is in its way, and then it scans.
seed 10=1 20=2
client 0
client 1
settle
lock 0 15 RangeI-N
lock 1 15 RangeI-N
settle
insert 0 15 5
settle
insert 1 17 7
settle
status 0
status 1
scan 1 15 18
hold 1 17
index
client 2
settle
lock 2 12 RangeS-S
settle
insert 1 13 3
hold 0 15
hold 1 15
hold 2 12
scan 2 11 16
