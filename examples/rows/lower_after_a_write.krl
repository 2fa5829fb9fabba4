# A client that has written gives back what it needed only for that. It continues to read the row from its cache, and
# another client reads it too without a callback. What a pin keeps can't be lowered.
seed 10=1 20=2
client 0
client 1
settle
lock 0 10 RangeX-X
settle
put 0 10 5
settle
pin 0 0 11
lower 0 0 11 RangeS-S
unpin 0 0
lower 0 0 11 RangeS-S
hold 0 10
scan 0 0 11
settle
lock 1 10 RangeS-S
settle
scan 1 0 11
hold 0 10
put 0 10 6
lower 0 0 11 X
hold 0 5
hold 0 10
lower 0 0 11 N
hold 0 10
lower 0 11 11 S
lower 1 TOP 12 S
crash 1
lower 1 0 11 S
