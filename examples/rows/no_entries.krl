# With no entries END is the only slot.
client 0
settle
lock 0 0 RangeS-S
settle
scan 0 0 END
scan 0 0 TOP
