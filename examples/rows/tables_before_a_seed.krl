# The tables read no world, so the seed after them is not late.
modes
seed 10=1
modes
scan 0 0 1
