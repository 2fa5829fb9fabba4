# A grant that comes again is acknowledged again and changes nothing. Message 5 is the grant.
seed 10=1 20=2
client 0
settle
lock 0 5 RangeS-S
next 1
deliver 5
deliver 5
status 0
settle
lock 0 11 RangeS-S
settle
forget 0 0 11
settle
deliver 5
hold 0 5
status 0
scan 0 11 21
