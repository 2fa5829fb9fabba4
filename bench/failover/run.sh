#!/bin/sh
# What the stores cost: synced writes a second that one and eight clients are answered, by a server over SQLite, over
# etcd, over PostgreSQL, and etcd by itself, by turns in one run; and how long a server takes to start over a full
# table.
#
#   bench/failover/run.sh DRIVE [ROUNDS]    DRIVE is krl_drive, built by `cargo build --release -p krl_drive` in hosts/;
#                                           seven rounds, of two seconds each, by default
#
# It takes etcd (Debian: etcd-server) and PostgreSQL (postgresql). The cluster has three nodes, and all of them and the
# database use the disk of the folder for temporary files. Without PostgreSQL that part is reported as not run.
set -eu

: "${1:?usage: bench/failover/run.sh DRIVE [ROUNDS]}"
work=$(mktemp -d)
trap 'rm -rf "$work"' EXIT

"$1" stores "$work/stores" "${2-7}"
