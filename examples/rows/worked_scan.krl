# The worked scan of docs/PROTOCOL.md: each lock that is granted makes more of the span known.
seed 10=1 20=2
client 0
settle
scan 0 0 11
scan 0 0 12
scan 0 0 100
lock 0 5 RangeS-S
settle
scan 0 0 11
scan 0 0 12
scan 0 0 100
lock 0 11 RangeS-S
settle
scan 0 0 11
scan 0 0 12
scan 0 0 21
scan 0 0 100
lock 0 21 RangeS-S
settle
scan 0 0 11
scan 0 0 12
scan 0 0 100
scan 0 11 20
scan 0 0 TOP
