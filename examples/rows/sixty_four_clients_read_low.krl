# All 64 clients read the same slot. The first 32 scan their own caches.
seed 10=1 20=2
client 0
client 1
client 2
client 3
client 4
client 5
client 6
client 7
client 8
client 9
client 10
client 11
client 12
client 13
client 14
client 15
client 16
client 17
client 18
client 19
client 20
client 21
client 22
client 23
client 24
client 25
client 26
client 27
client 28
client 29
client 30
client 31
client 32
client 33
client 34
client 35
client 36
client 37
client 38
client 39
client 40
client 41
client 42
client 43
client 44
client 45
client 46
client 47
client 48
client 49
client 50
client 51
client 52
client 53
client 54
client 55
client 56
client 57
client 58
client 59
client 60
client 61
client 62
client 63
settle
lock 0 5 RangeS-S
lock 1 5 RangeS-S
lock 2 5 RangeS-S
lock 3 5 RangeS-S
lock 4 5 RangeS-S
lock 5 5 RangeS-S
lock 6 5 RangeS-S
lock 7 5 RangeS-S
lock 8 5 RangeS-S
lock 9 5 RangeS-S
lock 10 5 RangeS-S
lock 11 5 RangeS-S
lock 12 5 RangeS-S
lock 13 5 RangeS-S
lock 14 5 RangeS-S
lock 15 5 RangeS-S
lock 16 5 RangeS-S
lock 17 5 RangeS-S
lock 18 5 RangeS-S
lock 19 5 RangeS-S
lock 20 5 RangeS-S
lock 21 5 RangeS-S
lock 22 5 RangeS-S
lock 23 5 RangeS-S
lock 24 5 RangeS-S
lock 25 5 RangeS-S
lock 26 5 RangeS-S
lock 27 5 RangeS-S
lock 28 5 RangeS-S
lock 29 5 RangeS-S
lock 30 5 RangeS-S
lock 31 5 RangeS-S
lock 32 5 RangeS-S
lock 33 5 RangeS-S
lock 34 5 RangeS-S
lock 35 5 RangeS-S
lock 36 5 RangeS-S
lock 37 5 RangeS-S
lock 38 5 RangeS-S
lock 39 5 RangeS-S
lock 40 5 RangeS-S
lock 41 5 RangeS-S
lock 42 5 RangeS-S
lock 43 5 RangeS-S
lock 44 5 RangeS-S
lock 45 5 RangeS-S
lock 46 5 RangeS-S
lock 47 5 RangeS-S
lock 48 5 RangeS-S
lock 49 5 RangeS-S
lock 50 5 RangeS-S
lock 51 5 RangeS-S
lock 52 5 RangeS-S
lock 53 5 RangeS-S
lock 54 5 RangeS-S
lock 55 5 RangeS-S
lock 56 5 RangeS-S
lock 57 5 RangeS-S
lock 58 5 RangeS-S
lock 59 5 RangeS-S
lock 60 5 RangeS-S
lock 61 5 RangeS-S
lock 62 5 RangeS-S
lock 63 5 RangeS-S
settle
scan 0 0 11
scan 0 0 12
hold 0 10
hold 0 11
scan 1 0 11
scan 1 0 12
hold 1 10
hold 1 11
scan 2 0 11
scan 2 0 12
hold 2 10
hold 2 11
scan 3 0 11
scan 3 0 12
hold 3 10
hold 3 11
scan 4 0 11
scan 4 0 12
hold 4 10
hold 4 11
scan 5 0 11
scan 5 0 12
hold 5 10
hold 5 11
scan 6 0 11
scan 6 0 12
hold 6 10
hold 6 11
scan 7 0 11
scan 7 0 12
hold 7 10
hold 7 11
scan 8 0 11
scan 8 0 12
hold 8 10
hold 8 11
scan 9 0 11
scan 9 0 12
hold 9 10
hold 9 11
scan 10 0 11
scan 10 0 12
hold 10 10
hold 10 11
scan 11 0 11
scan 11 0 12
hold 11 10
hold 11 11
scan 12 0 11
scan 12 0 12
hold 12 10
hold 12 11
scan 13 0 11
scan 13 0 12
hold 13 10
hold 13 11
scan 14 0 11
scan 14 0 12
hold 14 10
hold 14 11
scan 15 0 11
scan 15 0 12
hold 15 10
hold 15 11
scan 16 0 11
scan 16 0 12
hold 16 10
hold 16 11
scan 17 0 11
scan 17 0 12
hold 17 10
hold 17 11
scan 18 0 11
scan 18 0 12
hold 18 10
hold 18 11
scan 19 0 11
scan 19 0 12
hold 19 10
hold 19 11
scan 20 0 11
scan 20 0 12
hold 20 10
hold 20 11
scan 21 0 11
scan 21 0 12
hold 21 10
hold 21 11
scan 22 0 11
scan 22 0 12
hold 22 10
hold 22 11
scan 23 0 11
scan 23 0 12
hold 23 10
hold 23 11
scan 24 0 11
scan 24 0 12
hold 24 10
hold 24 11
scan 25 0 11
scan 25 0 12
hold 25 10
hold 25 11
scan 26 0 11
scan 26 0 12
hold 26 10
hold 26 11
scan 27 0 11
scan 27 0 12
hold 27 10
hold 27 11
scan 28 0 11
scan 28 0 12
hold 28 10
hold 28 11
scan 29 0 11
scan 29 0 12
hold 29 10
hold 29 11
scan 30 0 11
scan 30 0 12
hold 30 10
hold 30 11
scan 31 0 11
scan 31 0 12
hold 31 10
hold 31 11
