# A request that is refused changes nothing.
client 0
client 0
scan 3 0 5
lock 0 5 RangeX-X
deliver 99
settle
lock 0 5 RangeX-X
lock 0 5 S
settle
put 0 4 1
insert 0 5 1
insert 0 6 1
forget 0 0 9
settle
pin 0 0 9
forget 0 8 20
unpin 0 3
crash server
nudge 0
