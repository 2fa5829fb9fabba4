# A client leaves and starts again. The Hello and the Bye of its first incarnation, messages 1 and 7,
# come again and are passed over.
seed 10=1 20=2
client 0
settle
lock 0 5 RangeX-X
settle
leave 0
settle
client 0
settle
lock 0 5 RangeX-X
settle
status 0
deliver 1
deliver 7
pin 0 0 11
client 1
settle
lock 1 10 S
settle
status 1
