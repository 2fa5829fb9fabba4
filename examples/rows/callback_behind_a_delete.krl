# A delete needs the range part X one past its key as well. That point lies in the next slot, and client 1 reads there:
# the callback of the next slot takes it from client 0 while the delete is on its way. So the delete is judged NotHeld.
# Client 0 asks for the lock again, and its second delete is applied.
seed 10=1 20=2
client 0
client 1
settle
lock 0 10 RangeX-X 12
settle
hold 0 11
delete 0 10
# The delete is message 10, and the next ones are client 1's request, the callback, and client 0's release.
lock 1 15 RangeS-S
deliver 11
deliver 12
hold 0 10
hold 0 11
deliver 13
deliver 10
settle
status 0
lock 0 11 RangeX-X
settle
delete 0 10
settle
status 0
