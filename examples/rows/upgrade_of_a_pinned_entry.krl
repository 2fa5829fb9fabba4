# Both read an entry, client 1 pins it, and both ask to change it. A client that holds something goes in front, so
# client 0 stands first, is called back, and no longer holds anything. It waits for the pin, and client 1 waits after
# it. Nudges and ticks change nothing: only the unpin does.
seed 10=1 20=2
client 0
client 1
settle
lock 0 10 S
lock 1 10 S
settle
pin 1 10 11
lock 1 10 X
lock 0 10 X
settle
hold 0 10
hold 1 10
status 0
status 1
nudge 0
nudge 1
tick 0
tick 1
settle
status 0
status 1
unpin 1 0
nudge 0
settle
status 0
status 1
