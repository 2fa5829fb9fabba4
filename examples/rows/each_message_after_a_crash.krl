# What each message causes, one at a time: a delete that was applied before the server crashed is answered again, and then a
# lock that waited after it is granted. A delivery of a number that was not sent yet is refused, and so shows how many
# messages there are.
seed 10=1 20=2
client 0
client 1
settle
lock 0 5 RangeX-X
settle
lock 0 11 RangeX-X
settle
delete 0 10
next 1
crash server
drop
start server
tick 0
tick 1
settle
lock 1 3 RangeS-S
# Message 23 is that lock request. It waits at slot 20, and 24 calls back client 0.
deliver 23
deliver 25
# The outstanding write lies in the span, so nothing is sent.
deliver 24
deliver 25
# A report, 25, and the write, 26.
tick 0
deliver 27
# Client 0 is not missing, so nothing is sent.
deliver 25
deliver 27
# The write is answered, 27, and client 0 is called back, 28.
deliver 26
deliver 29
# The answer is acknowledged, 29: the entry at 10 is gone.
deliver 27
deliver 30
status 0
hold 0 10
hold 0 20
# The callback lowers what client 0 holds, and 30 releases it.
deliver 28
deliver 31
hold 0 10
hold 0 20
# Client 1 is still blocked when the acknowledgement comes, so 31 calls back again.
deliver 29
deliver 32
status 1
# The release lets the server grant, 32.
deliver 30
deliver 33
# The second callback is heeded again, 33, and changes nothing.
deliver 31
deliver 34
hold 0 20
# The grant is acknowledged, 34.
deliver 32
deliver 35
status 1
hold 1 20
scan 1 0 21
# What is left causes nothing.
deliver 33
deliver 34
deliver 35
settle
deliver 35
