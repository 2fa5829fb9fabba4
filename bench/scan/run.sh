#!/bin/sh
# What a scan of a client's own cache takes from C.
#
#   bench/scan/run.sh [LIBRARY..]     needs cc; seconds
#
# LIBRARY is a libkrl.a, by default the committed one. scan.c is compiled with each, and they run by turns, five times
# each. A line gives the library, the bytes of a value, the rows of a scan, and the least and the middle one of the five
# turns' middle ones, in nanoseconds of processor time for a scan. The last line is the machine's load.
set -eu

top=$(cd "$(dirname "$0")/../.." && pwd)
room=$(mktemp -d)
trap 'rm -rf "$room"' EXIT
[ $# -gt 0 ] || set -- "$("$top/hosts/packaging/library" assembly)"

place=0
for library; do
    place=$((place + 1))
    cc -std=c11 -O2 -Wall -Wextra -Werror -I "$top/crates/krl_embed" "$top/bench/scan/scan.c" "$library" \
        -o "$room/scan$place"
done
for turn in 1 2 3 4 5; do
    for length in 8 32; do
        place=0
        for library; do
            place=$((place + 1))
            "$room/scan$place" $length | sed "s|^|$library $length |"
        done
    done
done | sort -k1,3 -k5n | awk '
    { key = $1 ": values of " $2 " bytes, rows " $3 }
    key != last { count = 0; last = key }
    { count++; if (count == 1) least = $5; if (count == 3) print key ": least " least ", middle " $5 " ns" }
'
echo "load: $(cat /proc/loadavg)"
