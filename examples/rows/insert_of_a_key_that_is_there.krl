# An insert of a key that is there is answered by Exists.
seed 10=1 20=2
client 0
settle
lock 0 5 RangeI-N
settle
insert 0 10 9
settle
status 0
hold 0 10
