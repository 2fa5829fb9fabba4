# Values of 0, 1, 7, 8, 9, 31 and 32 bytes: inserted, then changed to one of another length. A second client reads each,
# which the first is called back for; and after a crash of the server a third one reads them all.
client 0
client 1
settle
lock 0 0 RangeX-X
settle
insert 0 10 x
settle
insert 0 20 xa1
settle
insert 0 30 xA7A8A9AAABACAD
settle
insert 0 40 xa8a9aaabacadaeaf
settle
insert 0 50 xA9AAABACADAEAFB0B1
settle
insert 0 60 xbfc0c1c2c3c4c5c6c7c8c9cacbcccdcecfd0d1d2d3d4d5d6d7d8d9dadbdcdd
settle
insert 0 70 xC0C1C2C3C4C5C6C7C8C9CACBCCCDCECFD0D1D2D3D4D5D6D7D8D9DADBDCDDDEDF
settle
scan 0 0 TOP
put 0 10 xd0d3d6d9dcdfe2e5e8ebeef1f4f7fafd000306090c0f1215181b1e2124272a2d
settle
put 0 20 xC9CCCFD2D5D8DBDEE1E4E7EAEDF0F3F6F9FCFF0205080B0E1114171A1D2023
settle
put 0 30 x2f3235383b3e414447
settle
put 0 40 x282B2E3134373A3D
settle
put 0 50 x2124272a2d3033
settle
put 0 60 xF7
settle
put 0 70 x
settle
scan 0 0 TOP
index
lock 1 10 RangeS-S
settle
lock 1 20 RangeS-S
settle
lock 1 30 RangeS-S
settle
lock 1 40 RangeS-S
settle
lock 1 50 RangeS-S
settle
lock 1 60 RangeS-S
settle
lock 1 70 RangeS-S
settle
scan 1 0 71
scan 1 0 72
hold 0 70
hold 1 70
crash server
start server
tick 0
tick 1
settle
missing
scan 0 0 TOP
scan 1 0 71
client 2
settle
lock 2 0 RangeS-S TOP
settle
scan 2 0 71
scan 2 0 72
index
forget 1 0 71
forget 2 0 71
settle
lock 0 10 X
settle
put 0 10 x0000000000000102
settle
scan 0 0 11
put 0 10 258
settle
scan 0 0 11
