#!/bin/sh
# What a long life costs: one server and 64 clients over 65,536 entries, through 1,000,000 steps.
#
#   bench/life/run.sh [STEPS..]   needs rt on the path; some minutes if krl_client and krl_server are proved
#
# main.rt.txt, proved and built by rt, hands each message over in memory. A step is a lock, a write, a forget, a pin, an
# unpin or a tick of one of the clients, with all messages that follow; one in 1,000 restarts a client, and one in
# 10,000 the server, and then every client reports. They are drawn from one seed, so that each run takes the same steps.
# After 100,000 steps, and after 900,000 more, or after the numbers of steps that are given, it prints, a line each:
#
#   steps, milliseconds, milliseconds of restarts    since the last look, in processor time; the restarts are a server's
#   VmHWM, VmRSS               the most memory that the process had, and what it has, as /proc reports
#   entries, pieces, waiters   of the index; of the 64 caches together; clients whose lock waits
#   messages .. restarted      what was done since the beginning
set -eu

[ $# -gt 0 ] || set -- 100000 900000
name=life
crates='krl_modes krl_messages krl_blocks krl_queue krl_durable krl_table krl_cache krl_client krl_server'

. "$(dirname "$0")/../built.sh"

"$built" "$@"
