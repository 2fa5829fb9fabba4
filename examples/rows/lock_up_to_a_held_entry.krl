# Another client holds the second entry for itself: the grant ends before it, and nobody is called back for it.
seed 10=1 20=2
client 0
client 1
settle
lock 1 20 X
settle
lock 0 5 RangeS-S 22
settle
status 0
scan 0 0 12
hold 1 20
