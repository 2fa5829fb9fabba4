#!/bin/sh
# Measures what a message and its answer take compared with an echo over the same kind of socket, and what a message
# costs the threads of a server.
#
#   bench/hosts/trips.sh DRIVE [OTHER]    each is a krl_drive; with two of them, five runs of each by turns
#
# A drive is built by `cargo build --release -p krl_drive` in hosts/. To compare with another state of the tree, build
# there with `drive/src/trips.rs` of this one, in another CARGO_TARGET_DIR.
set -eu

: "${1:?usage: bench/hosts/trips.sh DRIVE [OTHER]}"
work=$(mktemp -d)
trap 'rm -rf "$work"' EXIT

for socket in tcp unix; do
    for turn in 1 2 3 4 5; do
        for drive in "$@"; do
            echo "$drive, $socket, run $turn"
            "$drive" trips "$work/$socket" "$socket"
            rm -rf "${work:?}/$socket"
        done
    done
done
