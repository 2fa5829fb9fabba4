# Another client's lock bars the third of five slots that are asked for: the grant ends before it, the slots after it stay
# free, and nobody is called back. A mode that is compatible with that lock is granted on it, and on the slots after it.
seed 10=1 20=2 30=3 40=4
client 0
client 1
client 2
settle
lock 1 30 X
settle
lock 0 0 RangeS-S TOP
settle
status 0
hold 0 10
hold 0 20
hold 0 30
hold 0 40
hold 0 END
hold 1 30
scan 0 0 TOP
lock 2 21 RangeI-N TOP
settle
status 2
hold 2 20
hold 2 30
hold 2 40
hold 2 END
