#!/bin/sh
# What a script costs over a large index: 10,000 lines compared with the first half of them, over 60,000 entries.
#
#   bench/world/run.sh [PROGRAM]    the program that ./krl builds, or another; needs bash; some minutes
#
# Each text has 10,000 lines, the first of which make its world:
#
#   locks       a lock of one of 60,000 slots, far from the last, and a settle, in turn
#   puts        a lock of the key part, a settle, a put of that entry, a settle
#   inserts     a lock above the last key, a settle, an insert there, a settle: to 62,499 entries
#   scans       scans of 100 rows, of a client that knows 200 of them
#   deliveries  messages that were sent before, again and in no order
#
# Each is run 20 times in a row, five times over; the least processor time, user and system, counts, less that of the
# lines that make the world. A line gives the text, the milliseconds of the whole and of the half, and their ratio: near
# 2 if a line costs the same wherever it stands. It stops if the half's transcript does not begin the whole's.
set -eu

. "$(dirname -- "$0")/../program.sh"

awk -v to="$work" '
function text(name) {
    file = to "/" name; opening = file ".opening"; begun = 0; lines = 0
    say("fill 60000"); say("client 0"); say("settle")
}
function begin() { begun = 1 }
function say(line) {
    print line >file
    if (!begun) print line >opening
    if (lines < 5000) print line >(file ".half")
    lines++
}
BEGIN {
    text("locks"); begin()
    while (lines <= 9998) { say("lock 0 " (lines * 7919) % 60000 " RangeS-S"); say("settle") }

    text("puts"); begin()
    while (lines <= 9996) {
        key = (lines * 7919) % 60000
        say("lock 0 " key " X"); say("settle"); say("put 0 " key " 7"); say("settle")
    }

    text("inserts"); begin()
    while (lines <= 9996) {
        say("lock 0 END RangeI-N"); say("settle"); say("insert 0 " 1000000 - lines " 7"); say("settle")
    }

    text("scans")
    for (k = 0; k < 200; k++) { say("lock 0 " 30000 + k " RangeS-S"); say("settle") }
    begin()
    while (lines < 10000) { low = 30000 + lines % 100; say("scan 0 " low " " low + 100) }

    text("deliveries")
    for (k = 0; k < 200; k++) { say("lock 0 " (k * 7919) % 60000 " RangeS-S"); say("settle") }
    begin()
    while (lines < 10000) say("deliver " 1 + (lines * 7919) % 600)
}'

# Gives the processor milliseconds of 20 runs of the text $1, whose output goes to $1.out.
twenty() {
    LC_ALL=C bash -c 'TIMEFORMAT="%3U %3S"; time for run in {1..20}; do "$1" script <"$2" >"$2.out"; done' \
        bash "$program" "$work/$1" 2>&1 | awk '{ print ($1 + $2) * 1000 }'
}

texts='locks puts inserts scans deliveries'
for text in $texts; do
    for turn in 1 2 3 4 5; do
        for part in "$text" "$text.half" "$text.opening"; do
            echo "$part $(twenty "$part")" >>"$work/times"
        done
    done
    size=$(wc -c <"$work/$text.half.out")
    head -c "$size" "$work/$text.out" | cmp -s - "$work/$text.half.out" \
        || { echo "$text: the transcript of the half does not begin that of the whole" >&2; exit 1; }
    if grep -q -e refused -e fault "$work/$text.out"; then
        echo "$text: a line is refused" >&2
        exit 1
    fi
done

awk -v texts="$texts" '
    { if (!($1 in least) || $2 < least[$1]) least[$1] = $2 }
    END {
        printf "%-12s %10s %10s %8s %12s\n", "text", "whole ms", "half ms", "ratio", "opening ms"
        count = split(texts, text, " ")
        for (i = 1; i <= count; i++) {
            opening = least[text[i] ".opening"]
            whole = (least[text[i]] - opening) / 20
            half = (least[text[i] ".half"] - opening) / 20
            printf "%-12s %10.2f %10.2f %8.2f %12.2f\n", text[i], whole, half, whole / half, opening / 20
        }
    }' "$work/times"
