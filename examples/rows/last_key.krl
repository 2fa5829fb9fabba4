client 0
settle
lock 0 9223372036854775806 RangeX-X
settle
insert 0 9223372036854775806 7
settle
lock 0 END RangeX-X
settle
delete 0 9223372036854775806
settle
index
lock 0 END X
settle
status 0
insert 0 END 1
scan 0 9 3
client 64
lock 0 5 RangeS-N
