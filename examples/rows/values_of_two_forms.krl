# A value is a number, which stands for its eight bytes, or x and the digits of 0 to 32 bytes, in either case.
seed 10=x 20=xDEADBEEF 30=7
client 0
settle
lock 0 0 RangeS-S END
settle
scan 0 0 END
index
