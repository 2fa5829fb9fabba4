# One client at a time holds U. A client that has it before it pins may ask to change the entry: the other one, which asks for
# U too, holds nothing there, and waits after it.
seed 10=1 20=2
client 0
client 1
settle
lock 1 10 U
settle
pin 1 10 11
lock 0 10 U
settle
status 0
lock 1 10 X
settle
status 1
hold 1 10
put 1 10 5
settle
unpin 1 0
nudge 0
settle
status 0
hold 0 10
hold 1 10
