# A release overtakes the delete that was sent before it. The delete needs the gap after its key, so it
# is answered NotHeld and nothing changes. Message 11 is the release.
seed 10=1 20=2
client 0
settle
lock 0 5 RangeX-X
settle
lock 0 11 RangeX-X
settle
delete 0 10
forget 0 11 21
deliver 11
settle
status 0
index
hold 0 10
