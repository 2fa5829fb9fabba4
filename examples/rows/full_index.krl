# An index has at most 65,536 entries.
fill 65536
client 0
settle
lock 0 70000 RangeI-N
settle
insert 0 70000 1
settle
status 0
hold 0 70000
scan 0 0 1
