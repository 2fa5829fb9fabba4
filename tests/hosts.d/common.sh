# shellcheck shell=sh disable=SC2034,SC2154
# What the parts of tests/hosts share: a folder, where things lie, and how a command is run and reported.

top=$(CDPATH='' cd -- "$(dirname -- "$0")/../.." && pwd)
CARGO_TARGET_DIR=${CARGO_TARGET_DIR-$top/hosts/target}
export CARGO_TARGET_DIR
unset KRL_LIBRARY
profile=${KRL_PROFILE-release}
programs=$CARGO_TARGET_DIR/$profile
drive=$programs/krl_drive
simulation=$programs/krl-simulation
work=$(mktemp -d)
# shellcheck source-path=SCRIPTDIR source=../parts.sh
. "$top/tests/parts.sh"

# The failed tests of cargo, and why they failed, may stand far above the end of what it printed.
fail() {
    {
        printf 'hosts: %s: %s\n' "$part" "$1"
        ! grep -A 4 '^---- .* ----$' "$work/log" 2>/dev/null || echo '..'
    } | tee -a "$KRL_FOUND" >&2
    [ ! -s "$work/log" ] || tail -n 40 "$work/log" >&2
    exit 1
}

# Something is not there. If all has to be run that is a failure.
lacks() {
    printf 'hosts: NOT RUN: %s\n' "$1" >&2
    [ -z "${KRL_ALL-}" ] || exit 1
}

# The same for all that is left of the part.
not_run() {
    lacks "$1"
    exit 0
}

# Whether each of these programs is there.
has() {
    for program; do
        command -v "$program" >/dev/null || return 1
    done
}

# Runs a command quietly, and ends if its status is not the first word.
expect() {
    status=$1 what=$2 ended=0
    shift 2
    "$@" >"$work/log" 2>&1 </dev/null || ended=$?
    [ "$ended" != "${found_wrong-}" ] || echo "$part" >>"$KRL_FINAL"
    [ "$ended" = "$status" ] || fail "$what: status $ended, and not $status"
}

# Runs the drive or the simulation, and shows its last line, with the seconds of the clock and of a processor. What
# either finds wrong is final. That it came to no end, or too late, is not.
drive() {
    read_clocks "$work/times"
    began=$clock spent=$processor
    [ "$3" = "$simulation" ] && found_wrong=1 || found_wrong=3
    expect "$@"
    found_wrong=
    read_clocks "$work/times"
    printf 'hosts: %s: %s (%s seconds, %s of a processor)\n' \
        "$2" "$(tail -n 1 "$work/log")" $((clock - began)) $((processor - spent)) >&2
}

# Leaves in $memory a folder that is as open to other users as /tmp is, in memory if there is room for stores: what has
# to come soon does not wait for a disk on which other parts have written.
keep_in_memory() {
    memory=$work
    if [ -w /dev/shm ] && [ "$(df -k --output=avail /dev/shm | tail -n 1)" -gt 4000000 ]; then
        memory=$(mktemp -d /dev/shm/krl.XXXXXX)
        trap 'rm -rf "$memory"; leave' EXIT
    fi
    chmod 1777 "$memory"
}

# Runs a drive that has to find something wrong: `finds WHAT PROGRAM DRIVE ROUNDS WORD..`. Whether a kill falls where it
# hurts is chance: so there are three tries.
finds() {
    what=$1 found=$2 kind=$3 rounds=$4
    shift 4
    for try in 1 2 3; do
        "$found" "$kind" "$work/$what.$try" "$rounds" "$@" >"$work/log" 2>&1 </dev/null && status=0 || status=$?
        [ "$status" != 3 ] || break
    done
    [ "$status" = 3 ] || fail "$what: the drive finds nothing wrong in three tries: status $status"
    printf 'hosts: %s: %s\n' "$what" "$(tail -n 1 "$work/log")" >&2
}

# Runs cargo in a workspace: `cargo_in FOLDER WHAT WORD..`. $config is two words or none.
cargo_in() {
    folder=$1 what=$2 command=$3
    shift 3
    # shellcheck disable=SC2086
    (cd "$folder" && expect 0 "$folder: $what" cargo "$command" --profile "$profile" --quiet $config "$@")
}

# Builds the tests, for which cargo has a profile of its own. Those of the client for C are built by themselves, as the
# client is.
build_tests() {
    (
        profile=tests
        cargo_in "$top/hosts" 'the build of the tests' test --no-run --workspace --exclude krl-client-c
        cargo_in "$top/hosts" 'the build of the tests of the client for C' test --no-run -p krl-client-c
    )
}

# The words of cargo that take the dependencies from Debian's packages, if all of them are installed: in $config.
find_crates() {
    has cargo || not_run 'there is no cargo'
    [ -z "${config+set}" ] || return 0
    config=
    ! "$top/hosts/packaging/requirements" debian || config="--config $top/hosts/debian.toml"
    # shellcheck disable=SC2086
    (cd "$top/hosts" && cargo fetch --quiet $config >"$work/log" 2>&1) ||
        not_run "cargo finds not all crates: $(tail -n 1 "$work/log")"
}

# Makes the committed library for programs in C: $library.
make_library() {
    has cc || not_run 'there is no C compiler'
    expect 0 'the committed library' "$top/hosts/packaging/library" fits
    expect 0 'the library libkrl.a' "$top/hosts/packaging/library" make "$work/library"
    library=$work/library/libkrl.a
}

# What a part runs has to be built. With KRL_BUILT it is: parts that run side by side do not build.
need_programs() {
    [ -z "${KRL_BUILT-}" ] || [ ! -x "$drive" ] || return 0
    find_crates
    build_programs
}

# The libraries for C are built by themselves: together with the others cargo would build them with what only those
# need.
build_programs() {
    cargo_in "$top/hosts" 'the build' build --workspace --exclude krl-client-c --bins --examples
    cargo_in "$top/hosts" 'the libraries for C' build -p krl-client-c -p krl-cache-c --lib
}

# Whether the extension for PostgreSQL can be built.
has_postgresql_headers() {
    has pg_config make python3 && [ -f "$(pg_config --pgxs)" ]
}

# Makes a copy of PostgreSQL with the extension. $KRL_POSTGRESQL is the folder of its programs, which the user of
# PostgreSQL enters.
install_extension() {
    chmod 711 "$work"
    expect 0 'a PostgreSQL with the extension' "$top/hosts/pgext/check" "$programs" --install "$work/postgresql"
    KRL_POSTGRESQL=$(tail -n 1 "$work/log")
    export KRL_POSTGRESQL
}
