# Two rows, and a span that goes past the second: its slot's successor has to be locked too.
seed 10=1 20=2
client 0
settle
lock 0 5 RangeS-S
settle
lock 0 11 RangeS-S
settle
lock 0 21 RangeS-S
settle
scan 0 0 100
hold 0 21
hold 0 END
