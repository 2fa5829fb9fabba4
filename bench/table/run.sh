#!/bin/sh
# What the calls of the server's table cost over 1,023 and over 65,535 entries, compared with a twin in Rust.
#
#   bench/table/run.sh          needs rt and rustc on the path; some minutes, most of them proof
#
# main.rt.txt, proved and built by rt, and its twin in Rust, built by rustc -O, make the same calls at places that no
# processor could guess:
#
#   grant, lower       one of 101 slots side by side that a client locks at once, one by one, and gives back together
#   at-once, by-queue  one slot far from the last, locked at once, or by enqueue, answerable and grant, and given back
#   hello-of-none      a client goes that holds nothing, and nobody else does; hello-of-101: it holds 101 slots
#   start              a new table
#   report-of-1000     a report of 1,000 ranges in order; unordered-of-1000: the same in no order
#   delete, insert     an entry and its slot go or come, with the question whether the client may write
#
# In the end it prints what memory the program takes while 30,000 entries, all of them locked, come and go: after 10,000
# inserts and deletes, and after 990,000 more. ../both_sizes describes what it prints before.
more='10000 990000' exec "$(dirname -- "$0")/../both_sizes" table krl_modes krl_messages krl_blocks krl_queue \
    krl_durable krl_table
