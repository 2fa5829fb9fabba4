# One request covers every slot that begins below 22: so the whole index is scanned, and the gap past its last entry is
# held too.
seed 10=1 20=2
client 0
settle
lock 0 5 RangeS-S 22
settle
scan 0 0 100
hold 0 END
status 0
