#!/bin/sh
# What compatible, at_most, join, meet and cap of krl_modes cost, compared with tables written by hand in Rust.
#
#   bench/modes/run.sh          needs rt and rustc on the path; about two minutes, most of them proof
#
# main.rt.txt, proved and built by rt, and its twin table.rs, built by rustc -O, make the same 40,960,000 calls
# of each function on the same modes and sum what they answer. Both run five times in turn, and the least
# processor time of each counts. A line gives the function, the nanoseconds of a call in Rattle and in
# Rust, with the loop round it, and their ratio. It stops if the two programs' sums differ.
#
# The program is not a crate of crates.txt, so that the gate proves no benchmark, and its name does not end in
# .rt, since the gate stops at such a file outside the crates: this script makes a repository of the two
# crates in a folder of its own, and removes it.
set -eu

here=$(cd "$(dirname "$0")" && pwd)
crates=$(cd "$here/../../crates" && pwd)
room=$(mktemp -d)
trap 'rm -rf "$room"' EXIT

mkdir -p "$room/crates/krl_modes" "$room/crates/modes/src"
for part in src specs proofs; do
    cp -r "$crates/krl_modes/$part" "$room/crates/krl_modes/"
done
cp "$here/main.rt.txt" "$room/crates/modes/src/main.rt"
printf 'krl_modes: thiserror\nmodes: krl_modes\n' >"$room/crates.txt"
printf 'Handles allowed: none.\n' >"$room/HANDLES"

rustc --edition 2024 -O -o "$room/table" "$here/table.rs"
(cd "$room/crates/modes" && rt run) >"$room/log" 2>&1 || {
    cat "$room/log" >&2
    exit 1
}

for turn in 1 2 3 4 5; do
    "$room/crates/modes/out/modes" | sed 's/^/rattle /'
    "$room/table" | sed 's/^/rust /'
done | awk '
    {
        nanos = ($3 * 1e9 + $4) / 40960000
        key = $1 " " $2
        if (!(key in least) || nanos < least[key]) least[key] = nanos
        if ($2 in sum && sum[$2] != $5) { print $2 ": the sums differ"; failed = 1; exit 1 }
        sum[$2] = $5
        if (!($2 in seen)) { seen[$2] = 1; names[++count] = $2 }
    }
    END {
        if (failed) exit 1
        printf "%-12s %10s %10s %8s\n", "call", "Rattle ns", "Rust ns", "ratio"
        for (i = 1; i <= count; i++) {
            name = names[i]
            printf "%-12s %10.2f %10.2f %8.2f\n",
                name, least["rattle " name], least["rust " name], least["rattle " name] / least["rust " name]
        }
    }'
