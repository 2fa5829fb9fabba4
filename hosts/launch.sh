# Part of the launcher, ./krl, which reads it: how the server, the client and the simulator are built and run.
# shellcheck shell=sh disable=SC2154

# What is written when the library is made, and where cargo leaves the programs.
proved=$top/crates/krl_embed/out/libkrl_embed.a
committed=$top/hosts/rust/rules/RECORD
target=${CARGO_TARGET_DIR-$top/hosts/target}
first=$target/first
requirements=$top/hosts/packaging/requirements

# Whether the file $1 is there, and nothing below the other folders is newer.
is_newest() {
    newest=$1
    shift
    [ -f "$newest" ] && [ -z "$(find "$@" \( -name out -o -name target -o -name must-fail -o -name wrong \) -prune \
        -o -type f -newer "$newest" -print | head -n 1)" ]
}

# Whether the file $1 is there, and no source of the library $2 is newer.
is_newer_than_sources() {
    # The names of crates have no spaces, but the folder of the tree may have some.
    (
        IFS='
'
        # shellcheck disable=SC2046
        is_newest "$1" "$top/crates.txt" $(made_of "$2" | sed "s|^|$top/crates/|")
    )
}

# Proves the library and makes it, and writes it as the committed one.
make_library() {
    if ! is_newer_than_sources "$proved" krl_embed; then
        "$requirements" proof || exit 1
        say "proving the library: some 20 minutes on four processors the first time, less after an edit"
        prove_below krl_embed
        call_rt "$top/crates/krl_embed" krl_embed lib || {
            say "the library is not made; the lines above show why"
            exit 1
        }
        touch "$proved"
        say "the library is proved and made, in $(minutes)"
    fi
    "$top/tests/library" --taken --write krl_embed || exit 1
}

# Builds the server and the client. Both at once: by itself the client would need half of the crates again, with other
# features of theirs.
build_hosts() {
    set --
    from='the public registry'
    ! "$requirements" debian || { set -- --config debian.toml; from="Debian's packages"; }
    say "building krl-server and krl-client by cargo over $from: a minute or two on four processors"
    # Waited for, so that what ends the launcher ends cargo.
    export CARGO_TERM_PROGRESS_WHEN=always CARGO_TERM_PROGRESS_WIDTH=80
    (cd "$top/hosts" && exec cargo build --profile first --package krl-server --package krl-client "$@") </dev/null \
        >"$work/cargo.log" 2>&1 &
    running=$!
    began=$(date +%s)
    report_steps &
    other=$!
    wait "$running" || {
        running=
        lines_of_cargo | grep -v '^ *Building \[' | tail -n 40 >&2
        say "$host is not built; the lines above show why"
        exit 1
    }
    running=
    kill "$other" 2>/dev/null || :
    other=
    touch "$first/krl-server" "$first/krl-client"
}

# Reports every ten seconds how far cargo is: it shows 'Building [=>  ] 79/154: names', each time over the one before.
# Nobody waits for the sleep, which outlives this, to close its output.
report_steps() {
    while sleep 10 >/dev/null 2>&1; do
        done_of_all=$(lines_of_cargo | sed -n 's|^ *Building \[.*\] \([0-9]*\)/\([0-9]*\).*|\1 of \2|p' | tail -n 1)
        say "cargo has made ${done_of_all:-none of its} steps, after $(($(date +%s) - began)) seconds"
    done
}

lines_of_cargo() {
    tr '\r' '\n' <"$work/cargo.log"
}

# Runs the server or the client with these words. A server without further words is a trial: it may make its store.
run() {
    hosts=$top/hosts
    given=$1
    [ "$*" != serve ] || set -- serve --create
    case $1 in
    serve)
        is_there krl-server || ! asks_for_help "$@" ||
            tell_without_help krl-server './krl serve' docs/OPERATING.md
        build_if_older krl-server "$hosts/rust" "$hosts/server" "$hosts/etcd" "$hosts/postgres" "$hosts/cli"
        ;;
    *)
        shift
        is_there krl-client || ! asks_for_help "$@" ||
            tell_without_help krl-client './krl client' hosts/client/README.md
        build_if_older krl-client "$hosts/rust" "$hosts/client" "$hosts/cli"
        ;;
    esac
    rm -rf "$work"
    exec "$program" "$@"
}

# Builds the program $1 if it is older than the library or than what lies in the folders after it. What is missing for
# that is reported before a proof begins.
build_if_older() {
    host=$1
    shift
    find_program
    find_library
    ! is_newest "$program" "$library" "$hosts/Cargo.toml" "$@" || return 0
    "$requirements" build || exit 1
    [ -z "$made_of_what" ] || say "$made_of_what; './krl --prove $given' proves it here"
    build_hosts
    program=$first/$host
}

# Names in $program the program $host that was built last.
find_program() {
    program=$target/release/$host
    [ -x "$first/$host" ] || return 0
    [ -n "$(find "$program" -newer "$first/$host" 2>/dev/null)" ] || program=$first/$host
}

# Runs the simulator with these words.
run_simulator() {
    simulator=$target/krl-simulator
    is_newest "$simulator" "$top/hosts/simulator" "$top/crates/krl_simulator/krl_simulator.h" &&
        is_newer_than_sources "$simulator" krl_simulator || build_simulator
    rm -rf "$work"
    exec "$simulator" "$@"
}

# Builds the simulator over its committed library, if that is of these sources.
build_simulator() {
    made_of_what=$("$top/hosts/packaging/library" fits krl_simulator) || {
        say "'./krl --prove' proves and builds the simulator of these sources, by 'rt', in some 20 minutes"
        exit 1
    }
    compiler=${CC-cc}
    command -v "$compiler" >/dev/null || {
        say "there is no C compiler '$compiler', and the simulator needs one: Debian's packages gcc and libc6-dev"
        exit 1
    }
    assembly=$(CC=$compiler "$top/hosts/packaging/library" assembly krl_simulator) || exit 1
    say "building the simulator over $made_of_what"
    (cd "$top/hosts/simulator" && exec "$compiler" -std=c11 -O2 -I ../../crates/krl_simulator main.c \
        "$assembly" -o "$work/krl-simulator") >"$work/cc.log" 2>&1 || {
        tail -n 40 "$work/cc.log" >&2
        say "the simulator is not built; the lines above show why"
        exit 1
    }
    mkdir -p "$target"
    mv "$work/krl-simulator" "$simulator"
}

# Names in $library a file that changes with the library that cargo links. One that KRL_LIBRARY names is taken as it is.
# Otherwise it is the committed one: if a proof is asked for, or if it was made of other sources, it is proved and made
# first.
find_library() {
    library=$committed made_of_what=
    if [ -n "${KRL_LIBRARY-}" ]; then
        library=$KRL_LIBRARY/libkrl.a
        [ -f "$library" ] && return
        say "there is no $library, and KRL_LIBRARY names its folder"
        exit 1
    fi
    # Nothing has changed since the program was built.
    [ -n "$asked" ] || ! is_newer_than_sources "$program" krl_embed || return 0
    [ -z "$asked" ] && made_of_what=$("$top/hosts/packaging/library" fits) && return
    make_library
}

# Whether this program is built.
is_there() {
    [ -x "$target/release/$1" ] || [ -x "$first/$1" ]
}

# If help is asked for of a program that is not built, names where else it is: nobody waits for a build to read it.
tell_without_help() {
    say "the help of $1 is its own, and it is not built yet: '$2' builds it, in a minute or two"
    say "until then see $3"
    exit 1
}

# Whether one of the words before '--' asks for help.
asks_for_help() {
    for word; do
        case $word in
        --) return 1 ;;
        -h | --help) return 0 ;;
        esac
    done
    return 1
}
