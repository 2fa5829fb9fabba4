# One grant takes eight slots at the most.
fill 9
client 0
settle
lock 0 0 RangeS-S END
settle
scan 0 0 8
scan 0 0 9
