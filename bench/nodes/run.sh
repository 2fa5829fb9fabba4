#!/bin/sh
# What a node's scan costs next to the server's turns, how many turns nodes take at once, and what a turn costs if
# many letters wait for another node.
#
#   bench/nodes/run.sh        needs rt on the path; some minutes if krl_nodes is proved
#
# main.rt.txt, proved and built by rt, runs ten times. A line gives the least and the middle one of the ten, in
# nanoseconds: if threads wait for each other the least is luck.
#
#   scan-bare      a cached scan of 100 rows by a client with no node around it
#   scan-node      the same by a node, with no other node at work
#   scan-beside    the same while the server's node takes turns on another thread
#   turns          a turn, while one node, two or four take 100,000 each: by the clock on the wall, over all turns
#   letters        a turn of a client or its server, while 10 or 10,000 letters wait for another client
set -eu

name=nodes
crates="krl_modes krl_messages krl_blocks krl_queue krl_durable krl_table krl_cache krl_client krl_machine krl_server \
krl_refinement krl_steps krl_world krl_draws krl_nodes"
kit=atomic_table
handles='Threads, Wait'
. "$(dirname -- "$0")/../built.sh"

for turn in 1 2 3 4 5 6 7 8 9 10; do
    "$built"
done | awk '{ printf "%s %s %.1f %s\n", $1, $2, $3 / $4, $5 }' | sort -k1,1 -k2,2n -k3,3n | awk '
    function tell() { printf "%-20s %12.1f %12.1f\n", key, nanos[1], nanos[int((count + 1) / 2)] }
    BEGIN { printf "%-20s %12s %12s\n", "ns a", "least", "middle" }
    $1 " " $2 != key { if (count) tell(); key = $1 " " $2; sum = $4; count = 0 }
    $4 != sum { print key ": the sums differ"; exit 1 }
    { nanos[++count] = $3 }
    END { if (count) tell() }'
