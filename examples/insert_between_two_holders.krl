# Two clients hold RangeI-N on one slot, and each inserts an entry there. The one that did not insert
# keeps its range part on the new slot. A gap that is held so is not known to be empty.
seed 10=1 20=2
client 0
client 1
settle
lock 0 15 RangeI-N
lock 1 15 RangeI-N
settle
insert 0 15 5
settle
insert 1 17 7
settle
status 0
status 1
scan 1 15 18
hold 1 17
index
