#!/bin/sh
# krl next to Redis, etcd and PostgreSQL: the same work for each, over TCP on this machine and on the same disk. It
# prints the first table of docs/BENCH_HOSTS.md, which describes each figure.
#
#     bench/rivals/run.sh [OPTIONS] [ROUNDS]         7 rounds by default: three to four minutes, without the build
#     bench/rivals/run.sh [OPTIONS] reads [ROUNDS]   50 rounds by default: a minute, without the build
#     bench/rivals/run.sh [OPTIONS] writes [ROUNDS]  7 rounds by default: a minute and a half, without the build
#     bench/rivals/run.sh [OPTIONS] load PLOT [SECONDS]  2 seconds by default for each system and number of clients
#
# OPTIONS: --rows N, 10000 to 1000000 rows (10000 by default), and --value N, values of 8 to 32 bytes (8 by default).
#
# `reads` measures only what a client reads first: scans of 100 rows, and 10,000 rows into an empty cache. It has a
# second server of krl, whose grants take 8 slots at most. `writes` measures only synced writes. `load` measures how
# long reads and writes take as 1 to 16 clients make them, or as many as CLIENTS names (1,2,4,8,16), prints that as CSV,
# and draws it into the file PLOT as SVG.
#
# The rivals are taken where they are installed, from Debian 12's packages redis-server, etcd-server and postgresql, and
# libhiredis-dev for Redis' own client; the others are named as NOT RUN. What measures them is one program in Rust,
# `krl-rivals`, which speaks to each in its own protocol. The caches of Redis and etcd are this project's own, since
# Debian has no client of them that keeps rows. All data lie in a folder under TMPDIR, or /tmp, which is gone when this
# ends, and which has to be on the disk that is to be measured.
#
# The systems take turns in each round. A figure is that of the best round, with the middle one in brackets.
set -eu

usage() {
    sed -n '5,10p' "$0" >&2
    exit 2
}

rows=10000
value=8
while [ $# -gt 0 ]; do
    case $1 in
    --rows | --value) [ $# -gt 1 ] || usage ;;
    esac
    case $1 in
    --rows) rows=$2 ;;
    --value) value=$2 ;;
    *) break ;;
    esac
    shift 2
done
what=measure
count=7
plot=''
case ${1-} in
reads)
    what=reads
    count=50
    shift
    ;;
writes)
    what=writes
    shift
    ;;
load)
    [ $# -gt 1 ] || usage
    what=load
    count=2
    plot=$2
    shift 2
    ;;
esac
count=${1-$count}
[ $# -le 1 ] || usage
table=${rows}x${value}
here=$(cd -- "$(dirname -- "$0")" && pwd)
cd "$here"
config='--config ../../hosts/debian.toml'
# shellcheck disable=SC2086
cargo fetch --quiet $config >/dev/null 2>&1 || config=
# shellcheck disable=SC2086
cargo build --release --quiet $config
measure=${CARGO_TARGET_DIR-$here/target}/release/krl-rivals

folder=$(mktemp -d)
chmod 711 "$folder"
running=''
end() {
    # shellcheck disable=SC2086
    [ -z "$running" ] || kill $running 2>/dev/null || :
    wait
    rm -rf "$folder"
}
trap end EXIT
trap 'exit 1' INT TERM

# Runs the server $2.. in the folder $1 until the end.
serve() {
    mkdir -p "$folder/$1"
    place=$folder/$1
    shift
    (cd "$place" && exec "$@") >"$place.log" 2>&1 </dev/null &
    running="$running $!"
}

# Prints which version is measured.
version() {
    echo "measured: $*"
}

missing() {
    echo "NOT RUN: $1 ($2; Debian's package $3)"
}

serve_postgres() {
    # shellcheck disable=SC2012
    bin=$(ls -d /usr/lib/postgresql/*/bin 2>/dev/null | tail -n 1)
    if [ ! -x "$bin/postgres" ]; then
        missing PostgreSQL 'there is no server in /usr/lib/postgresql' postgresql
        return
    fi
    mkdir "$folder/postgres"
    version "$("$bin/postgres" --version)"
    # It refuses to run as root, and takes the user of its package then.
    as=
    if [ "$(id -u)" = 0 ]; then
        as='setpriv --reuid postgres --regid postgres --init-groups --'
        chown postgres "$folder/postgres"
    fi
    # shellcheck disable=SC2086
    (cd / && $as "$bin/initdb" --pgdata "$folder/postgres/data" --username postgres --auth trust --locale C \
        --encoding UTF8 --no-sync) >"$folder/initdb.log" 2>&1 || { cat "$folder/initdb.log"; exit 1; }
    # shellcheck disable=SC2086
    serve postgres $as "$bin/postgres" -D "$folder/postgres/data" -h 127.0.0.1 -p "$1" -k '' \
        -c fsync=on -c synchronous_commit=on
    systems="$systems postgres=127.0.0.1:$1"
}

# shellcheck disable=SC2046
set -- $("$measure" ports 6)
mkdir "$folder/krl"
serve krl "$measure" serve "127.0.0.1:$1" "$folder/krl" 128 "$table"
systems=krl=127.0.0.1:$1
if [ "$what" = reads ]; then
    mkdir "$folder/krl-reach-8"
    serve krl-reach-8 "$measure" serve "127.0.0.1:$6" "$folder/krl-reach-8" 8 "$table"
    systems="$systems krl-reach-8=127.0.0.1:$6"
fi

if command -v redis-server >/dev/null; then
    version "$(redis-server --version | cut -d ' ' -f 1-3)"
    serve redis redis-server --port "$2" --bind 127.0.0.1 --save '' --appendonly yes --appendfsync always
    systems="$systems redis=127.0.0.1:$2"
    if "$measure" has hiredis 2>/dev/null; then
        version "hiredis $(pkg-config --modversion hiredis)"
        systems="$systems hiredis=127.0.0.1:$2"
    else
        missing hiredis 'krl-rivals was built without it' libhiredis-dev
    fi
else
    missing Redis 'there is no redis-server' redis-server
fi
if command -v etcd >/dev/null; then
    version "$(etcd --version | head -n 1)"
    serve etcd etcd --data-dir "$folder/etcd/data" --listen-client-urls "http://127.0.0.1:$3" \
        --advertise-client-urls "http://127.0.0.1:$3" --listen-peer-urls "http://127.0.0.1:$4" \
        --initial-advertise-peer-urls "http://127.0.0.1:$4" --initial-cluster "default=http://127.0.0.1:$4"
    systems="$systems etcd=127.0.0.1:$3"
else
    missing etcd 'there is no etcd' etcd-server
fi
serve_postgres "$5"

mkdir "$folder/clients"
echo "$rows rows of $value bytes; data on $(stat -f -c %T "$folder"); load $(cut -d ' ' -f 1-3 /proc/loadavg)"
if [ "$what" = load ]; then
    # shellcheck disable=SC2086
    "$measure" load "$folder/clients" "$count" "$table" "${CLIENTS-1,2,4,8,16}" $systems >"$folder/load.csv"
    cat "$folder/load.csv"
    python3 "$here/plot.py" "$folder/load.csv" "$plot"
else
    echo "rounds $count"
    # shellcheck disable=SC2086
    "$measure" "$what" "$folder/clients" "$count" "$table" $systems
fi
echo "load at the end $(cut -d ' ' -f 1-3 /proc/loadavg)"
