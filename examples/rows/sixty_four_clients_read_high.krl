# All 64 clients read the same slot. The last 32 scan their own caches. Number 64 is not a client.
seed 10=1 20=2
client 0
client 1
client 2
client 3
client 4
client 5
client 6
client 7
client 8
client 9
client 10
client 11
client 12
client 13
client 14
client 15
client 16
client 17
client 18
client 19
client 20
client 21
client 22
client 23
client 24
client 25
client 26
client 27
client 28
client 29
client 30
client 31
client 32
client 33
client 34
client 35
client 36
client 37
client 38
client 39
client 40
client 41
client 42
client 43
client 44
client 45
client 46
client 47
client 48
client 49
client 50
client 51
client 52
client 53
client 54
client 55
client 56
client 57
client 58
client 59
client 60
client 61
client 62
client 63
settle
lock 0 5 RangeS-S
lock 1 5 RangeS-S
lock 2 5 RangeS-S
lock 3 5 RangeS-S
lock 4 5 RangeS-S
lock 5 5 RangeS-S
lock 6 5 RangeS-S
lock 7 5 RangeS-S
lock 8 5 RangeS-S
lock 9 5 RangeS-S
lock 10 5 RangeS-S
lock 11 5 RangeS-S
lock 12 5 RangeS-S
lock 13 5 RangeS-S
lock 14 5 RangeS-S
lock 15 5 RangeS-S
lock 16 5 RangeS-S
lock 17 5 RangeS-S
lock 18 5 RangeS-S
lock 19 5 RangeS-S
lock 20 5 RangeS-S
lock 21 5 RangeS-S
lock 22 5 RangeS-S
lock 23 5 RangeS-S
lock 24 5 RangeS-S
lock 25 5 RangeS-S
lock 26 5 RangeS-S
lock 27 5 RangeS-S
lock 28 5 RangeS-S
lock 29 5 RangeS-S
lock 30 5 RangeS-S
lock 31 5 RangeS-S
lock 32 5 RangeS-S
lock 33 5 RangeS-S
lock 34 5 RangeS-S
lock 35 5 RangeS-S
lock 36 5 RangeS-S
lock 37 5 RangeS-S
lock 38 5 RangeS-S
lock 39 5 RangeS-S
lock 40 5 RangeS-S
lock 41 5 RangeS-S
lock 42 5 RangeS-S
lock 43 5 RangeS-S
lock 44 5 RangeS-S
lock 45 5 RangeS-S
lock 46 5 RangeS-S
lock 47 5 RangeS-S
lock 48 5 RangeS-S
lock 49 5 RangeS-S
lock 50 5 RangeS-S
lock 51 5 RangeS-S
lock 52 5 RangeS-S
lock 53 5 RangeS-S
lock 54 5 RangeS-S
lock 55 5 RangeS-S
lock 56 5 RangeS-S
lock 57 5 RangeS-S
lock 58 5 RangeS-S
lock 59 5 RangeS-S
lock 60 5 RangeS-S
lock 61 5 RangeS-S
lock 62 5 RangeS-S
lock 63 5 RangeS-S
settle
scan 32 0 11
scan 32 0 12
hold 32 10
hold 32 11
scan 33 0 11
scan 33 0 12
hold 33 10
hold 33 11
scan 34 0 11
scan 34 0 12
hold 34 10
hold 34 11
scan 35 0 11
scan 35 0 12
hold 35 10
hold 35 11
scan 36 0 11
scan 36 0 12
hold 36 10
hold 36 11
scan 37 0 11
scan 37 0 12
hold 37 10
hold 37 11
scan 38 0 11
scan 38 0 12
hold 38 10
hold 38 11
scan 39 0 11
scan 39 0 12
hold 39 10
hold 39 11
scan 40 0 11
scan 40 0 12
hold 40 10
hold 40 11
scan 41 0 11
scan 41 0 12
hold 41 10
hold 41 11
scan 42 0 11
scan 42 0 12
hold 42 10
hold 42 11
scan 43 0 11
scan 43 0 12
hold 43 10
hold 43 11
scan 44 0 11
scan 44 0 12
hold 44 10
hold 44 11
scan 45 0 11
scan 45 0 12
hold 45 10
hold 45 11
scan 46 0 11
scan 46 0 12
hold 46 10
hold 46 11
scan 47 0 11
scan 47 0 12
hold 47 10
hold 47 11
scan 48 0 11
scan 48 0 12
hold 48 10
hold 48 11
scan 49 0 11
scan 49 0 12
hold 49 10
hold 49 11
scan 50 0 11
scan 50 0 12
hold 50 10
hold 50 11
scan 51 0 11
scan 51 0 12
hold 51 10
hold 51 11
scan 52 0 11
scan 52 0 12
hold 52 10
hold 52 11
scan 53 0 11
scan 53 0 12
hold 53 10
hold 53 11
scan 54 0 11
scan 54 0 12
hold 54 10
hold 54 11
scan 55 0 11
scan 55 0 12
hold 55 10
hold 55 11
scan 56 0 11
scan 56 0 12
hold 56 10
hold 56 11
scan 57 0 11
scan 57 0 12
hold 57 10
hold 57 11
scan 58 0 11
scan 58 0 12
hold 58 10
hold 58 11
scan 59 0 11
scan 59 0 12
hold 59 10
hold 59 11
scan 60 0 11
scan 60 0 12
hold 60 10
hold 60 11
scan 61 0 11
scan 61 0 12
hold 61 10
hold 61 11
scan 62 0 11
scan 62 0 12
hold 62 10
hold 62 11
scan 63 0 11
scan 63 0 12
hold 63 10
hold 63 11
scan 64 0 11
scan 64 0 12
hold 64 10
hold 64 11
