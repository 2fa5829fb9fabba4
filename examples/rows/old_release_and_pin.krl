# A release that comes again, after the client has locked the slot again, is passed over. While a span is
# pinned no callback lowers it; a nudge calls back again. Message 10 is the release.
seed 10=1 20=2
client 0
client 1
settle
lock 0 5 RangeS-S
settle
forget 0 0 11
settle
lock 0 5 RangeS-S
settle
deliver 10
pin 0 0 11
lock 1 10 X
settle
status 1
scan 0 0 11
unpin 0 0
nudge 1
settle
status 1
hold 0 5
