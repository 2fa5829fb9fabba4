# Client 0 may change the entry and pins it, so client 1 can't read it yet. Its lock prints nothing: `hold` shows that
# nothing is held, and the client may ask for nothing else. It still scans its cache.
seed 10=1 20=2
client 0
client 1
client 2
settle
lock 1 20 S
settle
lock 0 10 X
settle
pin 0 10 11
lock 1 10 S
settle
hold 0 10
hold 1 10
lock 1 10 S
lock 1 END RangeS-S
settle
lock 1 20 N
hold 1 20
scan 1 20 21
scan 1 10 21
scan 0 10 11
# Client 2 asks for what is compatible with all that is held, and waits after client 1.
lock 2 5 RangeI-N
settle
hold 2 10
hold 0 10
hold 1 10
# The pin goes, client 0 is called back again, and both are answered.
unpin 0 0
nudge 1
settle
hold 2 10
hold 0 10
hold 1 10
