#!/bin/sh
# What an Ack costs in a script, while 63 clients wait for what its sender holds and has pinned.
#
#   bench/server/acks.sh [PROGRAM]   the program that ./krl builds, or another; needs bash; a minute
#
# Client 63 locks 63 slots, or one, with RangeX-X, and pins them; each other client asks for X at one of them and waits.
# One Ack of client 63 is then delivered 2,500 times, or 9,000 times if they wait at one slot: each time the server
# finds that nobody can be answered, and calls client 63 back for each slot. The script runs five times with these
# deliveries and five times without; the least processor time of each counts, user and system. A line gives the slots at
# which the clients wait, the entries, and the microseconds of one delivery, with the world's own work: it keeps each
# message that is sent.
set -eu

. "$(dirname -- "$0")/../program.sh"

# Writes the script in which the clients wait at $1 slots over $2 entries, with $3 deliveries of the Ack. Its number
# counts 192 messages of the greetings, three for each lock of client 63, 63 locks that wait, and their callbacks: as
# many for each as there are slots at which somebody waits by then.
text() {
    awk -v slots="$1" -v entries="$2" -v times="$3" 'BEGIN {
        print "fill " entries
        for (c = 0; c < 64; c++) print "client " c
        print "settle"
        for (n = 0; n < slots; n++) { print "lock 63 " int(n * entries / 64) " RangeX-X"; print "settle" }
        print "pin 63 0 TOP"
        sent = 192 + 3 * slots + 63
        for (c = 0; c < 63; c++) {
            print "lock " c " " int(c % slots * entries / 64) " X"
            sent += c < slots ? c + 1 : slots
        }
        print "settle"
        print "tick 63"
        for (n = 0; n < times; n++) print "deliver " sent + 1
    }'
}

# Gives the least processor milliseconds of five runs of the script $1.
least() {
    for turn in 1 2 3 4 5; do
        LC_ALL=C bash -c 'TIMEFORMAT="%3U %3S"; time "$1" script <"$2" >"$2.out"' bash "$program" "$1" 2>&1
    done | awk '{ took = ($1 + $2) * 1000; if (NR == 1 || took < best) best = took } END { print best }'
}

printf '%-8s %8s %16s\n' slots entries 'us a delivery'
for slots in 63 1; do
    times=2500
    [ $slots = 63 ] || times=9000
    for entries in 1000 60000; do
        text $slots $entries $times >"$work/whole"
        text $slots $entries 0 >"$work/opening"
        whole=$(least "$work/whole")
        opening=$(least "$work/opening")
        awk -v slots=$slots -v entries=$entries -v times=$times -v took="$whole" -v less="$opening" \
            'BEGIN { printf "%-8d %8d %16.1f\n", slots, entries, (took - less) * 1000 / times }'
    done
done
