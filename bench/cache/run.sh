#!/bin/sh
# What a client's cache costs: a scan of 100 rows, a lowering over 100 slots, and the adoption of one slot, in
# ordered maps at 1,024 and at 65,536 entries, compared with ordered maps in Rust, and in plain lists at 1,024.
#
#   bench/cache/run.sh          needs rt and rustc on the path; some minutes, most of them proof
#
# main.rt.txt, proved and built by rt, fills a cache with slots side by side and makes the same calls at
# places that no processor could guess; the lists make fewer of them. Its twin in Rust, built by rustc -O,
# makes the same calls over two maps of Rust's std. Both run five times in turn, and the least
# processor time of each kind of call counts. A line gives the call, the form, the entries, the nanoseconds of
# a call, for a scan those of a row, and the ratio to the ordered maps at the same number of entries. It stops
# if two runs answer differently. A scan of one piece is of slots whose gaps are read alike; of 100 pieces, of
# slots whose gaps are held with S and X by turns.
#
# The program is not a crate of crates.txt, so that the gate proves no benchmark, and its name does not end in
# .rt, since the gate stops at such a file outside the crates: this script makes a repository of the
# crates that it needs in a folder of its own, and removes it.
set -eu

here=$(cd "$(dirname "$0")" && pwd)
crates=$(cd "$here/../../crates" && pwd)
room=$(mktemp -d)
trap 'rm -rf "$room"' EXIT

for crate in krl_modes krl_messages krl_cache krl_cache_laws; do
    mkdir -p "$room/crates/$crate"
    for part in src specs proofs; do
        if [ -d "$crates/$crate/$part" ]; then cp -r "$crates/$crate/$part" "$room/crates/$crate/"; fi
    done
    # The gate runs the crates' tests; here they would be proved for nothing.
    rm -f "$room/crates/$crate/src/tests.rt"
    sed -i '/^#\[cfg(test)\]$/d; /^mod tests;$/d' "$room/crates/$crate/src/lib.rt"
done
mkdir -p "$room/crates/cache/src"
cp "$here/main.rt.txt" "$room/crates/cache/src/main.rt"
{
    printf 'krl_modes: thiserror\nkrl_messages: krl_modes\n'
    printf 'krl_cache: krl_modes krl_messages std_collections\nkrl_cache_laws: krl_modes krl_messages krl_cache\n'
    printf 'cache: krl_modes krl_messages krl_cache krl_cache_laws\n'
} >"$room/crates.txt"
printf 'Handles allowed: none.\n' >"$room/HANDLES"

rustc --edition 2024 -O -o "$room/twin" "$here/twin/main.rs"
(cd "$room/crates/cache" && rt run) >"$room/log" 2>&1 || {
    cat "$room/log" >&2
    exit 1
}

for turn in 1 2 3 4 5; do
    "$room/crates/cache/out/cache"
    "$room/twin"
done | awk '
    {
        key = $1 " " $2 " " $3
        nanos = $4 / $5
        if (!(key in least) || nanos < least[key]) least[key] = nanos
        same = $1 " " $3 " " $5
        if (same in sum && sum[same] != $6) { print key ": the sums differ"; failed = 1; exit 1 }
        sum[same] = $6
        if (!(key in seen)) { seen[key] = 1; keys[++count] = key }
    }
    END {
        if (failed) exit 1
        printf "%-16s %-6s %8s %12s %10s %8s\n", "call", "form", "entries", "ns a call", "ns a row", "ratio"
        for (i = 1; i <= count; i++) {
            split(keys[i], part, " ")
            base = least[part[1] " maps " part[3]]
            row = (part[1] ~ /^scan/) ? sprintf("%.1f", least[keys[i]] / 100) : "-"
            printf "%-16s %-6s %8d %12.1f %10s %8.2f\n",
                part[1], part[2], part[3], least[keys[i]], row, least[keys[i]] / base
        }
    }'
