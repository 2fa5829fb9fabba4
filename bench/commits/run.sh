#!/bin/sh
# What a commit costs that changes a cached table: pgbench updates one row at a time, by turns of a plain table and of
# one that is cached. First nobody keeps rows, and then three readers (hosts/cache/examples/keep_rows.rs) keep all 4,000
# of them, and read each ten times a second. It prints the transactions a second of the middle turn, those of all turns,
# and the machine's load.
#
#     bench/commits/run.sh
#
# TURNS and TURN_SECONDS name how often each table has its turn, and how long (5 and 5); CONNECTIONS those of pgbench (1
# and 8); READERS how many readers there are (3).
#
# It needs Debian's packages postgresql and postgresql-server-dev-15. A copy of PostgreSQL with the extension and all
# data lie in a folder under TMPDIR, or /tmp, which is gone when this ends.
set -eu

top=$(CDPATH='' cd -- "$(dirname -- "$0")/../.." && pwd)
turns=${TURNS-5}
seconds=${TURN_SECONDS-5}
connections=${CONNECTIONS-1 8}
readers=${READERS-3}
rows=4000

fail() {
    echo "commits: $1" >&2
    exit 1
}

if ! command -v pg_config >/dev/null || [ ! -f "$(pg_config --pgxs)" ]; then
    fail 'there are no header files of PostgreSQL: install postgresql and postgresql-server-dev-15'
fi
config="--config debian.toml"
cd "$top/hosts"
# shellcheck disable=SC2086
cargo fetch --quiet $config >/dev/null 2>&1 || config=
# The client for C is built by itself, as it is for a package.
# shellcheck disable=SC2086
cargo build --release --quiet $config -p krl-client-c --lib
# shellcheck disable=SC2086
cargo build --release --quiet $config -p krl-server
# shellcheck disable=SC2086
cargo build --release --quiet $config -p krl-cache --example keep_rows
built=${CARGO_TARGET_DIR-$top/hosts/target}/release

folder=$(mktemp -d)
chmod 755 "$folder"
reading=''
as=
end() {
    # shellcheck disable=SC2086
    [ -z "$reading" ] || kill $reading 2>/dev/null || :
    # shellcheck disable=SC2086
    [ ! -f "$folder/data/postmaster.pid" ] || $as "$bin/pg_ctl" --pgdata "$folder/data" -m immediate -w stop >/dev/null
    wait
    rm -rf "$folder"
}
trap end EXIT
cd /

# A copy of PostgreSQL, whose programs find their folders from where they lie, with the extension in it.
bin=$folder$(pg_config --bindir)
mkdir -p "$bin"
cp -a "$(pg_config --bindir)/." "$bin"
for place in "$(pg_config --sharedir)" "$(pg_config --pkglibdir)"; do
    mkdir -p "$folder$place"
    cp -a -s "$place/." "$folder$place"
done
PROGRAMS=$built "$top/hosts/packaging/extension-package" "$folder" >/dev/null
dpkg-deb -x "$folder"/postgresql-*.deb "$folder"
cp "$built/krl-server" "$built/examples/keep_rows" "$folder"

# It refuses to run as root, and takes the user of its package then.
mkdir "$folder/locks"
if [ "$(id -u)" = 0 ]; then
    as='setpriv --reuid postgres --regid postgres --init-groups --'
    chown postgres "$folder"
fi
port=$(python3 -c 'import socket; it = socket.socket(); it.bind(("127.0.0.1", 0)); print(it.getsockname()[1])')
# shellcheck disable=SC2086
$as "$bin/initdb" --pgdata "$folder/data" --username postgres --auth trust --locale C --encoding UTF8 --no-sync \
    >"$folder/initdb.log" 2>&1 || { cat "$folder/initdb.log" >&2; exit 1; }
cat >>"$folder/data/postgresql.conf" <<SETTINGS
listen_addresses = '127.0.0.1'
port = $port
unix_socket_directories = '$folder'
shared_preload_libraries = 'krl'
krl.server_program = '$folder/krl-server'
max_worker_processes = 16
SETTINGS
# shellcheck disable=SC2086
$as "$bin/pg_ctl" --pgdata "$folder/data" --log "$folder/postgres.log" --wait start >/dev/null || {
    cat "$folder/postgres.log" >&2
    fail 'PostgreSQL does not start'
}

query() {
    "$bin/psql" --host 127.0.0.1 --port "$port" --username postgres --no-psqlrc --quiet --no-align --tuples-only \
        --set ON_ERROR_STOP=1 "$@"
}

# wait_for WHAT COMMAND..: waits until the command succeeds
wait_for() {
    what=$1 tries=0
    shift
    until "$@"; do
        tries=$((tries + 1))
        [ "$tries" -lt 1200 ] || { cat "$folder"/*.log >&2; fail "$what: it did not come about within a minute"; }
        sleep 0.05
    done
}

are_ready() {
    [ "$(query --command 'SELECT bool_and(is_ready) FROM krl.workers')" = t ]
}

query <<SQL
CREATE EXTENSION krl;
CREATE TABLE plain (id bigint PRIMARY KEY, n bigint NOT NULL) WITH (fillfactor = 50);
CREATE TABLE cached (LIKE plain INCLUDING ALL) WITH (fillfactor = 50);
INSERT INTO plain SELECT id, 0 FROM generate_series(0, $rows - 1) AS id;
INSERT INTO cached SELECT * FROM plain;
SQL
wait_for 'the workers are ready' are_ready
query --command "SELECT krl.cache('cached')" --command 'VACUUM ANALYZE plain, cached' >/dev/null

# rate TABLE CONNECTIONS: prints the transactions a second of a turn
rate() {
    printf '\\set id random(0, %s)\nUPDATE %s SET n = n + 1 WHERE id = :id;\n' $((rows - 1)) "$1" >"$folder/$1.sql"
    threads=$2
    [ "$threads" -le 4 ] || threads=4
    "$bin/pgbench" --no-vacuum --protocol prepared --file "$folder/$1.sql" --client "$2" --jobs "$threads" \
        --time "$seconds" --host 127.0.0.1 --port "$port" --username postgres postgres 2>"$folder/pgbench.log" |
        sed -n 's/^tps = \([0-9]*\).*/\1/p'
}

# Prints the number in the middle, and all of them.
middle() {
    echo "$(sort -n "$1" | sed -n "$(((turns + 1) / 2))p") ($(sort -n "$1" | tr '\n' ' ' | sed 's/ $//'))"
}

# measure WHO_KEEPS_ROWS
measure() {
    for count in $connections; do
        : >"$folder/of_plain"
        : >"$folder/of_cached"
        for _ in $(seq "$turns"); do
            rate plain "$count" >>"$folder/of_plain"
            rate cached "$count" >>"$folder/of_cached"
        done
        echo "| $1 | $count | $(middle "$folder/of_plain") | $(middle "$folder/of_cached") |" \
            "$(cut -d ' ' -f 1 /proc/loadavg) |"
    done
}

"$bin/postgres" --version
echo "$turns turns of $seconds seconds; data on $(stat -f -c %T "$folder")"
echo '| who keeps rows | connections | plain table, commits a second | cached table | load |'
echo '| --- | --- | --- | --- | --- |'
measure nobody
[ "$readers" -gt 0 ] || exit 0
for number in $(seq "$readers"); do
    "$folder/keep_rows" "postgres://postgres@127.0.0.1:$port/postgres" "$folder/locks" cached "$rows" \
        >"$folder/reader-$number.log" 2>&1 &
    reading="$reading $!"
done
for number in $(seq "$readers"); do
    wait_for 'a reader keeps all rows' grep -q 'all rows are in memory' "$folder/reader-$number.log"
done
measure "$readers readers"
query --command 'SELECT sum(spans) AS taken_back, sum(failures) AS failed FROM krl.workers' --command \
    'SELECT krl.skipped() AS skipped' | tr '\n' ' '
echo ': spans that were taken back and failures, and stripes that nobody kept'
