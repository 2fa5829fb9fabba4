#!/bin/sh
# How many scans of one client 1, 2 and 4 threads make, without and next to a client that calls back 10,000 times a
# second: by the gate of the Rust host, and by a mutex around the same client. It prints the table of
# docs/BENCH_HOSTS.md.
#
#   bench/readers/run.sh [ROUNDS]      100 rounds of 4 ms by default
#
# The server, both clients and their messages are in one process, without a network. The two worlds take turns, and
# each figure is the best round. The threads scan at places that no processor can guess, among 1,000 rows. Next to the
# writer a round counts in which it came to 8,000 callbacks a second or more.
set -eu
cd "$(dirname -- "$0")/../../hosts"
config='--config debian.toml'
cargo fetch --quiet $config >/dev/null 2>&1 || config=
# At the optimization of `release`, rustc 1.95 crashes as it compiles these tests.
# shellcheck disable=SC2086
KRL_ROUNDS=${1-100} cargo test --release --quiet $config --config profile.release.package.krl.opt-level=2 \
    -p krl --lib -- --ignored --exact proved::client_handle::figures::many_readers --nocapture | grep '^|'
