#!/bin/sh
# What grants of several slots cost, by the library only, and how much memory the clients that wait for them take. It
# prints the tables of docs/BENCH.md, "Long grants".
#
#     bench/grants/run.sh [LIBRARY..]
#
# A LIBRARY is a libkrl.a, and its label in the tables; several take turns, so that a busy machine is as busy for each.
# By default it is the committed one. It takes a C compiler.
set -eu

here=$(CDPATH='' cd -- "$(dirname -- "$0")" && pwd)
top=$here/../..
[ $# -gt 0 ] || set -- "$("$top/hosts/packaging/library" assembly)"
work=$(mktemp -d)
trap 'rm -rf "$work"' EXIT
for library; do
    mkdir -p "$work/$library"
    cc -O2 -std=c11 -Wall -Wextra -Wpedantic -I "$top/crates/krl_embed" "$here/grants.c" "$library" -lpthread \
        -lm -o "$work/$library/grants"
done

echo '| Library | Reach | Rows | Requests | first scan, ns | giving back, ns |'
echo '| --- | --- | --- | --- | --- | --- |'
for rows in 1 8 100; do
    for reach in 8 128; do
        for library; do
            echo "| $library $("$work/$library/grants" reads $reach $rows)"
        done
    done
done
echo
echo '| Library | Reach | 64 clients, kB | 63 wait for 200 slots, kB | all have them, kB |'
echo '| --- | --- | --- | --- | --- |'
for reach in 8 128; do
    for library; do
        echo "| $library $("$work/$library/grants" waiters $reach)"
    done
done
