# While a put is not answered a scan across its key is pending, though the index has changed already.
# A scan next to it answers.
seed 10=1 20=2
client 0
settle
lock 0 5 RangeX-X
settle
lock 0 11 RangeS-S
settle
put 0 10 9
next 1
scan 0 0 11
scan 0 11 21
index
status 0
settle
scan 0 0 21
status 0
