# All 64 clients start: what each is refused before it runs, before it has joined and while it waits. Number 64 is not a client.
seed 10=1 20=2
scan 0 0 11
scan 1 0 11
scan 2 0 11
scan 3 0 11
scan 4 0 11
scan 5 0 11
scan 6 0 11
scan 7 0 11
scan 8 0 11
scan 9 0 11
scan 10 0 11
scan 11 0 11
scan 12 0 11
scan 13 0 11
scan 14 0 11
scan 15 0 11
scan 16 0 11
scan 17 0 11
scan 18 0 11
scan 19 0 11
scan 20 0 11
scan 21 0 11
scan 22 0 11
scan 23 0 11
scan 24 0 11
scan 25 0 11
scan 26 0 11
scan 27 0 11
scan 28 0 11
scan 29 0 11
scan 30 0 11
scan 31 0 11
scan 32 0 11
scan 33 0 11
scan 34 0 11
scan 35 0 11
scan 36 0 11
scan 37 0 11
scan 38 0 11
scan 39 0 11
scan 40 0 11
scan 41 0 11
scan 42 0 11
scan 43 0 11
scan 44 0 11
scan 45 0 11
scan 46 0 11
scan 47 0 11
scan 48 0 11
scan 49 0 11
scan 50 0 11
scan 51 0 11
scan 52 0 11
scan 53 0 11
scan 54 0 11
scan 55 0 11
scan 56 0 11
scan 57 0 11
scan 58 0 11
scan 59 0 11
scan 60 0 11
scan 61 0 11
scan 62 0 11
scan 63 0 11
scan 64 0 11
client 0
client 1
client 2
client 3
client 4
client 5
client 6
client 7
client 8
client 9
client 10
client 11
client 12
client 13
client 14
client 15
client 16
client 17
client 18
client 19
client 20
client 21
client 22
client 23
client 24
client 25
client 26
client 27
client 28
client 29
client 30
client 31
client 32
client 33
client 34
client 35
client 36
client 37
client 38
client 39
client 40
client 41
client 42
client 43
client 44
client 45
client 46
client 47
client 48
client 49
client 50
client 51
client 52
client 53
client 54
client 55
client 56
client 57
client 58
client 59
client 60
client 61
client 62
client 63
client 64
lock 0 5 RangeS-S
lock 1 5 RangeS-S
lock 2 5 RangeS-S
lock 3 5 RangeS-S
lock 4 5 RangeS-S
lock 5 5 RangeS-S
lock 6 5 RangeS-S
lock 7 5 RangeS-S
lock 8 5 RangeS-S
lock 9 5 RangeS-S
lock 10 5 RangeS-S
lock 11 5 RangeS-S
lock 12 5 RangeS-S
lock 13 5 RangeS-S
lock 14 5 RangeS-S
lock 15 5 RangeS-S
lock 16 5 RangeS-S
lock 17 5 RangeS-S
lock 18 5 RangeS-S
lock 19 5 RangeS-S
lock 20 5 RangeS-S
lock 21 5 RangeS-S
lock 22 5 RangeS-S
lock 23 5 RangeS-S
lock 24 5 RangeS-S
lock 25 5 RangeS-S
lock 26 5 RangeS-S
lock 27 5 RangeS-S
lock 28 5 RangeS-S
lock 29 5 RangeS-S
lock 30 5 RangeS-S
lock 31 5 RangeS-S
lock 32 5 RangeS-S
lock 33 5 RangeS-S
lock 34 5 RangeS-S
lock 35 5 RangeS-S
lock 36 5 RangeS-S
lock 37 5 RangeS-S
lock 38 5 RangeS-S
lock 39 5 RangeS-S
lock 40 5 RangeS-S
lock 41 5 RangeS-S
lock 42 5 RangeS-S
lock 43 5 RangeS-S
lock 44 5 RangeS-S
lock 45 5 RangeS-S
lock 46 5 RangeS-S
lock 47 5 RangeS-S
lock 48 5 RangeS-S
lock 49 5 RangeS-S
lock 50 5 RangeS-S
lock 51 5 RangeS-S
lock 52 5 RangeS-S
lock 53 5 RangeS-S
lock 54 5 RangeS-S
lock 55 5 RangeS-S
lock 56 5 RangeS-S
lock 57 5 RangeS-S
lock 58 5 RangeS-S
lock 59 5 RangeS-S
lock 60 5 RangeS-S
lock 61 5 RangeS-S
lock 62 5 RangeS-S
lock 63 5 RangeS-S
settle
client 0
client 1
client 2
client 3
client 4
client 5
client 6
client 7
client 8
client 9
client 10
client 11
client 12
client 13
client 14
client 15
client 16
client 17
client 18
client 19
client 20
client 21
client 22
client 23
client 24
client 25
client 26
client 27
client 28
client 29
client 30
client 31
client 32
client 33
client 34
client 35
client 36
client 37
client 38
client 39
client 40
client 41
client 42
client 43
client 44
client 45
client 46
client 47
client 48
client 49
client 50
client 51
client 52
client 53
client 54
client 55
client 56
client 57
client 58
client 59
client 60
client 61
client 62
client 63
client 64
lock 0 5 RangeS-S
lock 1 5 RangeS-S
lock 2 5 RangeS-S
lock 3 5 RangeS-S
lock 4 5 RangeS-S
lock 5 5 RangeS-S
lock 6 5 RangeS-S
lock 7 5 RangeS-S
lock 8 5 RangeS-S
lock 9 5 RangeS-S
lock 10 5 RangeS-S
lock 11 5 RangeS-S
lock 12 5 RangeS-S
lock 13 5 RangeS-S
lock 14 5 RangeS-S
lock 15 5 RangeS-S
lock 16 5 RangeS-S
lock 17 5 RangeS-S
lock 18 5 RangeS-S
lock 19 5 RangeS-S
lock 20 5 RangeS-S
lock 21 5 RangeS-S
lock 22 5 RangeS-S
lock 23 5 RangeS-S
lock 24 5 RangeS-S
lock 25 5 RangeS-S
lock 26 5 RangeS-S
lock 27 5 RangeS-S
lock 28 5 RangeS-S
lock 29 5 RangeS-S
lock 30 5 RangeS-S
lock 31 5 RangeS-S
lock 32 5 RangeS-S
lock 33 5 RangeS-S
lock 34 5 RangeS-S
lock 35 5 RangeS-S
lock 36 5 RangeS-S
lock 37 5 RangeS-S
lock 38 5 RangeS-S
lock 39 5 RangeS-S
lock 40 5 RangeS-S
lock 41 5 RangeS-S
lock 42 5 RangeS-S
lock 43 5 RangeS-S
lock 44 5 RangeS-S
lock 45 5 RangeS-S
lock 46 5 RangeS-S
lock 47 5 RangeS-S
lock 48 5 RangeS-S
lock 49 5 RangeS-S
lock 50 5 RangeS-S
lock 51 5 RangeS-S
lock 52 5 RangeS-S
lock 53 5 RangeS-S
lock 54 5 RangeS-S
lock 55 5 RangeS-S
lock 56 5 RangeS-S
lock 57 5 RangeS-S
lock 58 5 RangeS-S
lock 59 5 RangeS-S
lock 60 5 RangeS-S
lock 61 5 RangeS-S
lock 62 5 RangeS-S
lock 63 5 RangeS-S
lock 0 15 RangeS-S
lock 1 15 RangeS-S
lock 2 15 RangeS-S
lock 3 15 RangeS-S
lock 4 15 RangeS-S
lock 5 15 RangeS-S
lock 6 15 RangeS-S
lock 7 15 RangeS-S
lock 8 15 RangeS-S
lock 9 15 RangeS-S
lock 10 15 RangeS-S
lock 11 15 RangeS-S
lock 12 15 RangeS-S
lock 13 15 RangeS-S
lock 14 15 RangeS-S
lock 15 15 RangeS-S
lock 16 15 RangeS-S
lock 17 15 RangeS-S
lock 18 15 RangeS-S
lock 19 15 RangeS-S
lock 20 15 RangeS-S
lock 21 15 RangeS-S
lock 22 15 RangeS-S
lock 23 15 RangeS-S
lock 24 15 RangeS-S
lock 25 15 RangeS-S
lock 26 15 RangeS-S
lock 27 15 RangeS-S
lock 28 15 RangeS-S
lock 29 15 RangeS-S
lock 30 15 RangeS-S
lock 31 15 RangeS-S
lock 32 15 RangeS-S
lock 33 15 RangeS-S
lock 34 15 RangeS-S
lock 35 15 RangeS-S
lock 36 15 RangeS-S
lock 37 15 RangeS-S
lock 38 15 RangeS-S
lock 39 15 RangeS-S
lock 40 15 RangeS-S
lock 41 15 RangeS-S
lock 42 15 RangeS-S
lock 43 15 RangeS-S
lock 44 15 RangeS-S
lock 45 15 RangeS-S
lock 46 15 RangeS-S
lock 47 15 RangeS-S
lock 48 15 RangeS-S
lock 49 15 RangeS-S
lock 50 15 RangeS-S
lock 51 15 RangeS-S
lock 52 15 RangeS-S
lock 53 15 RangeS-S
lock 54 15 RangeS-S
lock 55 15 RangeS-S
lock 56 15 RangeS-S
lock 57 15 RangeS-S
lock 58 15 RangeS-S
lock 59 15 RangeS-S
lock 60 15 RangeS-S
lock 61 15 RangeS-S
lock 62 15 RangeS-S
lock 63 15 RangeS-S
settle
