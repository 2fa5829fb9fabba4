# Client 0 reads the gap up to 10 and the entry 10.
# Next to it, client 1 reads the entry, and may change it next.
seed 10=1 20=2
client 0
client 1
settle
lock 0 0 RangeS-S 11
lock 1 10 U
settle
hold 0 10
hold 1 10
# Each scans its own cache: client 1 knows the entry, and not the gap below it.
scan 0 0 11
scan 1 0 11
scan 1 10 11
# An insert below 10 would change what client 0 has read, so client 0 is called back: it gives up the
# gap, and keeps the entry.
lock 1 5 RangeI-N
settle
hold 1 5
hold 0 5
hold 0 10
scan 0 0 11
