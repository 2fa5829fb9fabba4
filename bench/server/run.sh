#!/bin/sh
# What the server's steps cost at 1,024 and at 65,536 entries, compared with a twin in Rust.
#
#   bench/server/run.sh         needs rt and rustc on the path; some minutes if krl_server is proved, else half an hour
#
# main.rt.txt, proved and built by rt, sends a server the same messages at places that no processor could guess:
#
#   scan-by-101        the Locks of a client that locks the 101 slots of a scan of 100 rows one by one, all of them;
#                      each is answered, and acknowledges the push before
#   scan-by-13         the same slots by 13 Locks of a range, each of which gets up to eight slots
#   release-of-101, release-of-13    one Release over those slots
#   delete, insert, put    one Write, far from the last, that is Applied
#   ack-at-63-slots, ack-at-one-slot    an Ack while 63 other clients wait for what its sender holds
#   wait-of-64         one of the Locks by which 64 clients come to wait at a slot that each of them reads; each calls
#                      63 others back
#   start              a start on what survives, which registers 64 clients
#   report-of-1000     one of the 64 reports of 1,000 ranges each that follow
#   report-ascending, report-descending, report-shuffled    a report of as many ranges as there are entries, side by
#                      side, in this order; the twin does not send these
#   report-nested      the same with ranges of which each continues to the end
exec "$(dirname -- "$0")/../both_sizes" server krl_modes krl_messages krl_blocks krl_queue krl_durable krl_table \
    krl_server
