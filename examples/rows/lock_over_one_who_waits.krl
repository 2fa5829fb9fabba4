# A client waits at the second of four slots that are asked for: the grant ends before that slot, though those after it
# are free. It ends there too once that client holds the entry, and goes over all of them once it is given back.
seed 10=1 20=2 30=3
client 0
client 1
client 2
settle
lock 1 20 S
settle
pin 1 20 21
lock 0 20 X
settle
status 0
lock 2 0 RangeS-S TOP
settle
status 2
hold 2 10
hold 2 20
hold 2 30
hold 2 END
scan 2 0 TOP
unpin 1 0
nudge 0
settle
status 0
hold 0 20
hold 1 20
lock 2 0 RangeS-S TOP
settle
status 2
hold 0 20
hold 2 30
scan 2 0 TOP
forget 0 11 21
settle
lock 2 0 RangeS-S TOP
settle
status 2
scan 2 0 TOP
