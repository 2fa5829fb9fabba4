# A seed of 52 entries, in no order, that fills its line of 256 bytes. A client locks each slot and END, and scans up to
# each of them.
seed 6=6 13=3 20=0 27=7 34=4 41=1 48=8 2=2 9=9 16=6 23=3 30=0 37=7 44=4 51=1 5=5 12=2 19=9 26=6 33=3 40=0 47=7 1=1 8=8 15=5 22=2 29=9 36=6 43=3 50=0 4=4 11=1 18=8 25=5 32=2 39=9 46=6 0=000 7=7 14=4 21=1 28=8 35=5 42=2 49=9 3=3 10=0 17=7 24=4 31=1 38=8 45=5
client 0
settle
lock 0 0 RangeS-S
settle
lock 0 1 RangeS-S
settle
lock 0 2 RangeS-S
settle
lock 0 3 RangeS-S
settle
lock 0 4 RangeS-S
settle
lock 0 5 RangeS-S
settle
lock 0 6 RangeS-S
settle
lock 0 7 RangeS-S
settle
lock 0 8 RangeS-S
settle
lock 0 9 RangeS-S
settle
lock 0 10 RangeS-S
settle
lock 0 11 RangeS-S
settle
lock 0 12 RangeS-S
settle
lock 0 13 RangeS-S
settle
lock 0 14 RangeS-S
settle
lock 0 15 RangeS-S
settle
lock 0 16 RangeS-S
settle
lock 0 17 RangeS-S
settle
lock 0 18 RangeS-S
settle
lock 0 19 RangeS-S
settle
lock 0 20 RangeS-S
settle
lock 0 21 RangeS-S
settle
lock 0 22 RangeS-S
settle
lock 0 23 RangeS-S
settle
lock 0 24 RangeS-S
settle
lock 0 25 RangeS-S
settle
lock 0 26 RangeS-S
settle
lock 0 27 RangeS-S
settle
lock 0 28 RangeS-S
settle
lock 0 29 RangeS-S
settle
lock 0 30 RangeS-S
settle
lock 0 31 RangeS-S
settle
lock 0 32 RangeS-S
settle
lock 0 33 RangeS-S
settle
lock 0 34 RangeS-S
settle
lock 0 35 RangeS-S
settle
lock 0 36 RangeS-S
settle
lock 0 37 RangeS-S
settle
lock 0 38 RangeS-S
settle
lock 0 39 RangeS-S
settle
lock 0 40 RangeS-S
settle
lock 0 41 RangeS-S
settle
lock 0 42 RangeS-S
settle
lock 0 43 RangeS-S
settle
lock 0 44 RangeS-S
settle
lock 0 45 RangeS-S
settle
lock 0 46 RangeS-S
settle
lock 0 47 RangeS-S
settle
lock 0 48 RangeS-S
settle
lock 0 49 RangeS-S
settle
lock 0 50 RangeS-S
settle
lock 0 51 RangeS-S
settle
lock 0 END RangeS-S
settle
scan 0 0 1
scan 0 0 2
scan 0 0 3
scan 0 0 4
scan 0 0 5
scan 0 0 6
scan 0 0 7
scan 0 0 8
scan 0 0 9
scan 0 0 10
scan 0 0 11
scan 0 0 12
scan 0 0 13
scan 0 0 14
scan 0 0 15
scan 0 0 16
scan 0 0 17
scan 0 0 18
scan 0 0 19
scan 0 0 20
scan 0 0 21
scan 0 0 22
scan 0 0 23
scan 0 0 24
scan 0 0 25
scan 0 0 26
scan 0 0 27
scan 0 0 28
scan 0 0 29
scan 0 0 30
scan 0 0 31
scan 0 0 32
scan 0 0 33
scan 0 0 34
scan 0 0 35
scan 0 0 36
scan 0 0 37
scan 0 0 38
scan 0 0 39
scan 0 0 40
scan 0 0 41
scan 0 0 42
scan 0 0 43
scan 0 0 44
scan 0 0 45
scan 0 0 46
scan 0 0 47
scan 0 0 48
scan 0 0 49
scan 0 0 50
scan 0 0 51
scan 0 0 52
scan 0 0 TOP
scan 0 2 52
scan 0 1 51
