# A serializable scan is compatible with a serializable update scan.
seed 10=1 20=2
client 0
client 1
settle
lock 0 5 RangeS-S
settle
lock 1 5 RangeS-U
settle
hold 0 5
hold 0 10
hold 1 10
hold 1 END
