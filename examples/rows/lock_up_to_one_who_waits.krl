# A client waits at the second slot, for what a pin keeps from it: the grant ends before that slot, though its mode could
# be granted there. That client gets what it wants once the pin is gone.
seed 10=1 20=2
client 0
client 1
client 2
settle
lock 0 11 RangeS-S
settle
pin 0 11 21
lock 1 11 RangeX-X
settle
lock 2 5 RangeS-S 21
settle
scan 2 0 12
unpin 0 0
nudge 1
settle
status 1
