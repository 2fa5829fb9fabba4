#!/bin/sh
# PostgreSQL, Redis next to it, and krl-cache: the same reads and writes of one table, on this machine. It prints tables
# for docs/BENCH_CACHE.md, which describes each figure: first what single reads take, and then one for each case.
#
#     bench/cached_table/run.sh [--round-trip MICROSECONDS] [CASE..]
#
# With --round-trip the clients are in a network namespace of their own, and each answer of PostgreSQL, Redis and krl's
# server comes at least this much later, as over a network. That needs root, and `ip` of Debian's package iproute2.
#
# A case is BYTES:ROWS_OF_A_READ:WRITES_OF_A_THOUSAND[:HOT_ROWS]. By default: 200:10:2 200:10:20 200:10:50, which take
# half a minute each. TURNS and MILLISECONDS name how often each way has its turn, and how long (5 and 2000). THREADS
# names how many threads each of the four processes has (1).
#
# It needs Debian's packages redis-server, postgresql and postgresql-server-dev-15, and runs a copy of PostgreSQL in
# which the extension krl is installed. All data lie in a folder under TMPDIR, or /tmp, which is gone when this ends.
set -eu

here=$(cd -- "$(dirname -- "$0")" && pwd)
round_trip=
if [ "${1-}" = --round-trip ]; then
    round_trip=${2-}
    echo "$round_trip" | grep -Eqx '[1-9][0-9]*' || {
        echo "cached_table: '$round_trip' are no microseconds, as 300" >&2
        exit 1
    }
    shift 2
fi
[ $# -gt 0 ] || set -- 200:10:2 200:10:20 200:10:50
turns=${TURNS-5}
milliseconds=${MILLISECONDS-2000}
threads=${THREADS-1}

fail() {
    echo "cached_table: $1" >&2
    exit 1
}

for case in "$@"; do
    echo "$case" | grep -Eqx '[0-9]+:[0-9]+:[0-9]+(:[0-9]+)?' || fail "'$case' is no case, as 200:10:20"
done
command -v redis-server >/dev/null || fail "there is no redis-server: it is Debian's package redis-server"

# Builds something in the folder $1 of the repository, by the words of cargo after it.
build() {
    where=$here/../../$1
    shift
    config="--config $here/../../hosts/debian.toml"
    # shellcheck disable=SC2086
    (cd "$where" && cargo fetch --quiet $config >/dev/null 2>&1) || config=
    # shellcheck disable=SC2086
    (cd "$where" && cargo build --release --quiet $config "$@")
}
build hosts -p krl-server --bin krl-server
build hosts -p krl-client-c --lib
build bench/cached_table --bin krl-cached-table
programs=${CARGO_TARGET_DIR-$here/../../hosts/target}/release
measure=${CARGO_TARGET_DIR-$here/target}/release/krl-cached-table

folder=$(mktemp -d)
chmod 711 "$folder"
running=''
end_servers() {
    # shellcheck disable=SC2086
    [ -z "$running" ] || kill $running 2>/dev/null || :
    wait
    running=''
}
namespace=
end() {
    end_servers
    [ -z "$namespace" ] || ip netns delete "$namespace"
    rm -rf "$folder"
}
trap end EXIT
trap 'exit 1' INT TERM

bin=$("$here/../../hosts/pgext/check" "$programs" --install "$folder/postgresql")

# Runs a server in the folder $1 until the end.
serve() {
    mkdir -p "$folder/$1"
    place=$folder/$1
    shift
    (cd "$place" && exec "$@") >"$place.log" 2>&1 </dev/null &
    running="$running $!"
}

# A port of this machine that nobody listens at.
free_port() {
    python3 -c 'import socket; s = socket.socket(); s.bind(("127.0.0.1", 0)); print(s.getsockname()[1])'
}

# Runs PostgreSQL at the port $1, with these settings. Without any, a worker of it starts krl's server, next to whose
# socket its own one is.
serve_postgres() {
    mkdir -p "$folder/postgres"
    # It refuses to run as root, and takes the user of its package then.
    as=
    if [ "$(id -u)" = 0 ]; then
        as='setpriv --reuid postgres --regid postgres --init-groups --'
        chown postgres "$folder/postgres"
    fi
    # shellcheck disable=SC2086
    (cd / && $as "$bin/initdb" --pgdata "$folder/postgres/data" --username postgres --auth trust --locale C \
        --encoding UTF8 --no-sync) >"$folder/initdb.log" 2>&1 || { cat "$folder/initdb.log" >&2; exit 1; }
    port=$1
    shift
    # shellcheck disable=SC2086
    serve postgres $as "$bin/postgres" -D "$folder/postgres/data" -h 127.0.0.1 -p "$port" -k "$folder/postgres" \
        -c shared_preload_libraries=krl "$@"
    tries=0
    until "$bin/pg_isready" --quiet --host 127.0.0.1 --port "$port"; do
        tries=$((tries + 1))
        [ "$tries" -lt 100 ] || { cat "$folder/postgres.log" >&2; fail 'PostgreSQL does not start'; }
        sleep 0.1
    done
}

# Starts servers without data, and measures by these words: `measure WORD..`.
measure() {
    postgres=$(free_port)
    redis=$(free_port)
    serve redis redis-server --port "$redis" --bind 127.0.0.1 --save '' --appendonly no
    if [ -z "$round_trip" ]; then
        serve_postgres "$postgres"
    else
        krl=$(free_port)
        serve krl "$programs/krl-server" serve --create --store krl.db --listen "127.0.0.1:$krl" --status off \
            --room 70000
        serve delay "$folder/delay.program" "$namespace" $((round_trip / 2)) "$postgres" "$redis" "$krl"
        serve_postgres "$postgres" -c "krl.servers=127.0.0.1:$krl"
    fi
    mkdir "$folder/clients"
    echo
    echo "load $(cut -d ' ' -f 1-3 /proc/loadavg)"
    # shellcheck disable=SC2086
    $among "$measure" --postgres "postgres://postgres@127.0.0.1:$postgres/postgres" --redis "127.0.0.1:$redis" \
        --folder "$folder/clients" "$@"
    end_servers
    rm -rf "$folder/postgres" "$folder/redis" "$folder/krl" "$folder/clients"
}

# Where the clients are: on the far side of a network, if there is one.
among=
if [ -n "$round_trip" ]; then
    [ "$(id -u)" = 0 ] || fail 'a network namespace takes root'
    command -v ip >/dev/null || fail "there is no 'ip': it is in Debian's package iproute2"
    ${CC-cc} -O2 -o "$folder/delay.program" "$here/delay.c"
    namespace=krl-bench-$$
    ip netns add "$namespace"
    ip -n "$namespace" link set lo up
    among="ip netns exec $namespace"
fi

echo "measured: $("$bin/postgres" --version); $(redis-server --version | cut -d ' ' -f 1-3)"
echo "$turns turns of $milliseconds ms; data on $(stat -f -c %T "$folder")${round_trip:+; a network of $round_trip us}"
measure --single
for case in "$@"; do
    IFS=: read -r bytes reads writes hot <<WORDS
$case
WORDS
    measure --bytes "$bytes" --reads "$reads" --writes "$writes" --hot "${hot:-4000}" --turns "$turns" \
        --milliseconds "$milliseconds" --threads "$threads"
done
