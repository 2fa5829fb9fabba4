#!/bin/sh
# A server of a million entries: what each phase of its life takes, and how the cost of a message grows up to there.
#
#   bench/million/run.sh [LIBRARY [ROUNDS]]    needs cc and rustc; minutes, and 1 GB of memory
#
# LIBRARY is a libkrl.a, by default the committed one. There are five rounds by default.
#
# The first table is of phases.c, one server and 64 clients in one process, which hand each message over in memory: the
# least seconds of a phase, of processor time and on the wall, and the most memory at its end, in kilobytes.
#
#   begin              the program's own store of 1,000,000 rows is written to once: all later memory is beyond this
#   open               the server, with room for 1,048,576 entries and none in it, and the clients
#   fill               each client locks all after the last key and inserts 15,625 rows with values of 32 bytes
#   read               each client reads its rows for the first time: a lock for each 8 of them
#   scan               each client scans its rows from its cache; they are compared with what was kept and written
#   drop, start        the server is dropped, and started again on the rows and the records that were kept
#   report             all clients report, and the server serves
#   scan-again         as scan, from the caches of before
#   read-anew          each client gives all back and reads its rows again; scan-anew compares what the server has now
#   write-again        each client takes rows of another one's, puts one and inserts one; these are read again
#   scan-last          as scan
#
# The second table is of calls.c, which sends a full server messages at places that no processor could guess, and of its
# twin in Rust, by turns: the least nanoseconds of a message, and how much they grow from 65,536 entries on.
#
#   near, far          a lock of one of the first 100 slots, or of any slot, and its release
#   delete, insert     of any row, whose slots are held
#   report             the report of one client that holds all
#   give-back          the Hello of its next incarnation, which gives all that back
#   hello              the Hello of a client that is new
#   start              the start on all entries; of the twin, only its map of them
set -eu

here=$(CDPATH='' cd -- "$(dirname -- "$0")" && pwd)
embed=$here/../../crates/krl_embed
library=${1-$("$here/../../hosts/packaging/library" assembly)}
rounds=${2-5}
room=$(mktemp -d)
trap 'rm -rf "$room"' EXIT

# Makes the program $2 of the file $1.
compile() {
    cc -std=c11 -O2 -Wall -Wextra -Werror -I "$embed" "$here/$1" "$library" -o "$room/$2"
}

compile phases.c phases
compile calls.c krl
rustc --edition 2024 -O -o "$room/rust" "$here/twin.rs"

# Prints which round begins.
tell() {
    echo "million: $1, round $2 of $rounds" >&2
}

round=1
while [ "$round" -le "$rounds" ]; do
    tell phases "$round"
    "$room/phases" >>"$room/phases.lines"
    tell messages "$round"
    for side in krl rust; do
        "$room/$side" >"$room/round"
        sed "s/^/$side /" "$room/round" >>"$room/calls.lines"
    done
    round=$((round + 1))
done

awk '
    $1 == "phase" { next }
    sub(/: /, ":") { split($0, part, ":"); if (part[2] > most[part[1]]) most[part[1]] = part[2]; next }
    !($1 in processor) { phases[++count] = $1; processor[$1] = $2; wall[$1] = $3 }
    $2 < processor[$1] { processor[$1] = $2 }
    $3 < wall[$1] { wall[$1] = $3 }
    $4 > resident[$1] { resident[$1] = $4 }
    $5 > size[$1] { size[$1] = $5 }
    END {
        printf "%-12s %10s %10s %10s %10s\n", "phase", "processor", "wall", "VmRSS", "VmSize"
        for (i = 1; i <= count; i++) {
            phase = phases[i]
            printf "%-12s %10.3f %10.3f %10d %10d\n", phase, processor[phase], wall[phase], resident[phase], size[phase]
        }
        for (name in most) print name ": " most[name]
    }' "$room/phases.lines"
awk '
    { key = $1 " " $2 " " $3; nanos = $4 / $5 }
    !(key in least) || nanos < least[key] { least[key] = nanos }
    !($2 in seen) { seen[$2] = 1; kinds[++count] = $2 }
    function row(side, kind,    small, middle, large) {
        small = least[side " " kind " 1024"]
        middle = least[side " " kind " 65536"]
        large = least[side " " kind " 1048576"]
        return sprintf(" %12.0f %12.0f %12.0f %6.2f", small, middle, large, large / middle)
    }
    END {
        head = sprintf(" %12s %12s %12s %6s", "1,024", "65,536", "1,048,576", "growth")
        printf "%-10s%s%s\n", "krl, Rust", head, head
        for (i = 1; i <= count; i++) printf "%-10s%s%s\n", kinds[i], row("krl", kinds[i]), row("rust", kinds[i])
    }' "$room/calls.lines"
echo "load: $(cat /proc/loadavg)"
