# Two clients insert into one gap. One of them converts to RangeI-X on the entry; when the other asks to read it, the
# first is called back to RangeI-U. Where there is no entry to update, the client learns that.
seed 10=1
client 0
client 1
settle
lock 0 5 RangeI-N
lock 1 5 RangeI-N
settle
lock 0 10 X
settle
hold 0 10
lock 1 10 S
settle
lock 0 11 U
settle
hold 0 10
hold 1 10
scan 0 0 11
scan 0 10 11
status 0
