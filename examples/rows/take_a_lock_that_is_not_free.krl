# A write that would take a lock is judged by what its client holds if another client's lock forbids it or a client
# waits on the slot. Nobody is called back for it.
seed 10=1 20=2 30=3
client 0
client 1
client 2
settle
lock 1 20 S
lock 2 25 RangeI-N
settle
take put 0 20 7
settle
status 0
hold 1 20
# Client 1 waits on the slot of 30: it would be overtaken.
pin 2 25 30
lock 1 25 RangeS-S
settle
take insert 0 27 8
settle
status 0
# An insert of a key that exists, and a put of one that does not, take nothing.
take insert 0 10 9
settle
status 0
take put 0 12 9
settle
status 0
hold 0 10
hold 0 12
# A delete needs two locks and takes none: the client refuses it.
take delete 0 10
index
check
