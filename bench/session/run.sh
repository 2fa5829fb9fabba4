#!/bin/sh
# What a scan of 100 rows costs through a client and a server, at 1,024 and at 65,536 entries, compared with a twin in
# Rust.
#
#   bench/session/run.sh        needs rt and rustc on the path; some minutes if krl_client and krl_server are proved
#
# main.rt.txt, proved and built by rt, has a client and a server in one process, and hands each message over in memory:
#
#   scan-by-101        the 101 slots of a scan of 100 rows are locked one by one, with all messages, until nothing is
#                      left
#   scan-by-13         the same slots by 13 requests, each of which gets up to eight slots
#   row-by-101, row-by-13          a row of that scan, from the client's cache
#   release-of-101, release-of-13  the client gives back what it holds, and reports it
exec "$(dirname -- "$0")/../both_sizes" session krl_modes krl_messages krl_blocks krl_queue krl_durable krl_table \
    krl_cache krl_client krl_server
