# Two clients read one entry, and both ask to change it. The later request is granted first, since the
# other is called back for it; then its holder is called back in turn.
seed 10=1
client 0
client 1
settle
lock 0 10 S
lock 1 10 S
settle
lock 0 10 X
lock 1 10 X
settle
status 0
status 1
hold 0 10
hold 1 10
