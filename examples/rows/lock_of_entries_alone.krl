# Only entries are asked for: END is none, so the grant ends before it. A range has to end above its point.
seed 10=1 20=2
client 0
settle
lock 0 10 S TOP
settle
hold 0 10
hold 0 20
hold 0 END
lock 0 10 S 10
