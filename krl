#!/bin/sh
# Runs the server, its client or the simulator, with the words and the standard input that it is given:
#
#     ./krl serve
#     ./krl client get 15
#     ./krl script < examples/first.krl
#     ./krl doctor
#
# The server and the client are programs in Rust over the proved library krl_embed: the committed one in
# hosts/rust/rules, if that is of the sources in crates/ as they stand. If it is not, or with --prove before the words,
# the library is proved and made first.
#
# The simulator is a program in C over the proved library krl_simulator, in the same way: it is committed in
# hosts/simulator/rules. With --prove before the words, or by itself, every crate of the simulator is proved, and a
# proved program is built, which reads and writes by itself. That is run from then on, as long as none of its sources is
# newer.
#
# Only what is to be proved needs `rt`, the command of the Rattle kit. What a build needs is looked for before it
# begins; ./krl doctor prints it.
set -eu

# The folder of this file itself, whatever link it was called by.
self=$0
while [ -h "$self" ]; do
    target=$(readlink -- "$self")
    case $target in
    /*) self=$target ;;
    *) self=$(dirname -- "$self")/$target ;;
    esac
done
top=$(CDPATH='' cd -- "$(dirname -- "$self")" && pwd -P)
crate=$top/crates/krl
program=$crate/out/krl

say() {
    echo "krl: $*" >&2
}

need_rt() {
    command -v rt >/dev/null && return
    say "'rt', the command of the Rattle kit, is not on the PATH, and a proof needs it"
    exit 1
}

# Whether the program is built, and no file that it is made from is newer.
is_built() {
    [ -x "$program" ] && [ -z "$(find "$top/crates" "$top/crates.txt" \
        \( -name out -o -name wrong -o -name usage -o -name '*_tests' \) -prune \
        -o -type f -newer "$program" -print | head -n 1)" ]
}

# The three programs.
help() {
    cat <<'text'
A key-range lock server with client range caches

Usage: ./krl <COMMAND>

The server and its client, over TCP and SQLite:
  serve [OPTIONS]    Serve the table of krl.db in this folder at 127.0.0.1:7400; without options,
                     make the table if there is none
  client [WORDS]     Read and write a server's table; without a command, at a prompt
  doctor             Print what a build of them needs, and what is missing: status 0 or 1

The simulator, in which a world of one server and up to 64 clients runs in one process:
  script  Run a script from standard input, and write its transcript to standard output
  random  Drive a world through steps that are drawn, and say whether it stayed sound
  nodes   Run a server and two clients, each on a thread of its own, and print a scan's rows: only
          after --prove

Options:
  --prove        Prove first: the library for serve and client, otherwise the simulator. Then run
                 the command, if one follows
  -h, --help     Print this; after serve, client, script, random or nodes, print its help
  -V, --version  Print the version of the simulator

The server and the client are built in a minute or two, once, over a proved library that comes with
the sources, and the simulator, over another one, within seconds. To prove either again takes some
20 minutes on four processors.

Examples:
  ./krl serve
  ./krl client insert 15 hello
  ./krl script < examples/first.krl
text
}

# The crates of the repository that the crate $1 is made of, itself too, lowest first.
made_of() {
    awk -v top="$1" '
        { sub(/#.*/, ""); colon = index($0, ":") }
        colon {
            split(substr($0, 1, colon - 1), head, " ")
            name[++count] = head[1]
            uses[count] = substr($0, colon + 1)
        }
        END {
            needed[top]
            for (i = count; i > 0; i--)
                if (name[i] in needed) {
                    split(uses[i], below, " ")
                    for (at in below) needed[below[at]]
                }
            for (i = 1; i <= count; i++)
                if (name[i] in needed) print name[i]
        }' "$top/crates.txt"
}

# The crates $all, those first for which the longest chain of proofs waits: by the lines of a crate
# and of the longest chain above it.
by_chain() {
    for name in $all; do
        lines=$(find "$top/crates/$name/src" -name '*.rt' -exec cat {} + | wc -l)
        echo "$name $lines $(sed -n "s/^$name\( [^:]*\)*://p" "$top/crates.txt")"
    done | awk '
        { name[NR] = $1; lines[NR] = $2; $1 = $2 = ""; uses[NR] = $0 }
        END {
            for (i = NR; i > 0; i--) {
                chain = lines[i] + above[name[i]]
                split(uses[i], below, " ")
                for (at in below) if (chain > above[below[at]]) above[below[at]] = chain
                print chain, name[i]
            }
        }' | sort -rn | cut -d ' ' -f 2
}

# Calls rt in the folder $1 with the words after $2, and keeps its output as $2.log. If it fails, the end of that
# is shown. All processors work for the crate for which the others wait; another takes what they leave.
call_rt() {
    folder=$1 log=$work/$2.log lower=10
    [ "$2" != "$(next_of_chain)" ] || lower=0
    shift 2
    (cd "$folder" && exec nice -n "$lower" rt "$@") </dev/null >"$log" 2>&1 &
    running=$!
    wait "$running" && running= && return
    tail -n 40 "$log" >&2
    return 1
}

# The first crate of the longest chain that is not proved.
next_of_chain() {
    for name in $libraries $last; do
        [ -d "$work/proved/$name" ] || { echo "$name"; return; }
    done
}

tell() {
    proved=$(find "$work/proved" -mindepth 1 -maxdepth 1 | wc -l)
    say "proving $1; $proved of $count crates are proved, in $(minutes)"
}

# Whether there are processors and memory for two proofs side by side.
has_room_for_two() {
    [ "$(nproc)" -ge 4 ] && awk '$1 == "MemAvailable:" { room = $2 } END { exit room < 12000000 }' /proc/meminfo
}

# Whether each crate below $1 is proved.
is_ready() {
    while read -r below; do
        [ "$below" = "$1" ] || [ -d "$work/proved/$below" ] || return 1
    done <"$work/below/$1"
}

# Takes the first library of the longest chain that nobody has taken and that can be proved by now. Prints its name, or
# 'none' if all are taken, or 'later' if those that are left wait for another.
take() {
    found=none
    for name in $libraries; do
        [ ! -d "$work/taken/$name" ] || continue
        found=later
        if is_ready "$name" && mkdir "$work/taken/$name" 2>/dev/null; then
            found=$name
            break
        fi
    done
    echo "$found"
}

# Proves the library $2 in the tree $1.
prove() {
    tell "$2"
    call_rt "$1/crates/$2" "$2" lib || {
        say "$2 is not proved; the lines above show why"
        return 1
    }
}

# Copies the folder $3 from the tree $1 to the tree $2, if it is there.
copy_folder() {
    rm -rf "${2:?}/$3"
    [ ! -d "$1/$3" ] || { mkdir -p "$2/$3" && cp -Rp "$1/$3/." "$2/$3"; }
}

# Proves the library $2 in the copy $1 of the tree, over the libraries below it.
prove_in_copy() {
    while read -r below; do
        [ "$below" != "$2" ] || continue
        [ -d "$work/brought/$below" ] || copy_folder "$top" "$1" "crates/$below/out/rlib"
        mkdir -p "$work/brought/$below"
    done <"$work/below/$2"
    copy_folder "$top" "$1" "crates/$2/out"
    mkdir "$work/brought/$2"
    prove "$1" "$2" || return 1
    copy_folder "$1" "$top" "crates/$2/out"
}

# Proves libraries, by the command and the words $*, as long as there are some and none has failed.
prove_as_they_come() {
    name=$(take)
    while [ "$name" != none ] && [ ! -e "$work/failed" ]; do
        if [ "$name" = later ]; then
            sleep 1
        elif "$@" "$name"; then
            mkdir "$work/proved/$name"
        else
            : >"$work/failed"
        fi
        name=$(take)
    done
    [ ! -e "$work/failed" ]
}

# Proves two libraries at a time. Two runs of rt in one tree wait for each other, so every other one is proved in a copy
# of the tree, and what rt keeps of it is brought back.
prove_side_by_side() {
    copy=$work/copy
    mkdir "$copy" "$work/brought"
    (cd "$top" && tar cf - --exclude out crates.txt crates) | (cd "$copy" && tar xf -)
    (
        trap '[ -z "$running" ] || kill "$running"; exit 1' TERM
        prove_as_they_come prove_in_copy "$copy"
    ) &
    other=$!
    failed=0
    prove_as_they_come prove "$top" || failed=1
    wait "$other" || failed=1
    other=
    return "$failed"
}

# Proves all that the crate $1 is made of, lowest first.
prove_below() {
    last=$1
    began=$(date +%s)
    all=$(made_of "$last")
    count=$(echo "$all" | wc -l)
    libraries=$(by_chain | grep -vFx "$last")
    mkdir "$work/below" "$work/taken" "$work/proved"
    for name in $libraries; do
        made_of "$name" >"$work/below/$name"
    done
    if has_room_for_two; then
        prove_side_by_side || exit 1
    else
        prove_as_they_come prove "$top" || exit 1
    fi
    tell "$last"
}

minutes() {
    echo "$((($(date +%s) - began) / 60)) minutes"
}

# Proves all that the simulator is made of, and builds it.
prove_and_build() {
    need_rt
    say "proving and building the program: about 20 minutes on four processors the first time, less after an edit"
    prove_below krl
    # A script of no lines writes nothing, so the run that rt makes after the build can't be seen.
    call_rt "$crate" krl run -- script || {
        say "the program is not built; the lines above show why"
        exit 1
    }
    touch "$program"
    say "proved and built, in $(minutes)"
}

asked=
if [ "${1-}" = --prove ]; then
    asked=--prove
    shift
fi
# If the help of a program is asked for, that program gives it.
case "$#:${1-}" in
0:) [ -n "$asked" ] || { help >&2; exit 2; } ;;
*:--help | *:-h | 1:help) help; exit 0 ;;
*:doctor)
    [ $# = 1 ] || { say "unexpected argument '$2': 'doctor' takes none"; exit 2; }
    exec "$top/hosts/packaging/requirements" doctor
    ;;
esac
case ${1-} in
serve | client) ;;
*) is_simulator=yes ;;
esac
if [ -n "${is_simulator-}" ] && is_built; then
    [ -z "$asked" ] || [ $# -gt 0 ] || { say "proved and built"; exit 0; }
    exec "$program" "$@"
fi

# Whatever ends the launcher ends what it started.
running='' other=''
clear() {
    # shellcheck disable=SC2086
    [ -z "$running$other" ] || kill $running $other 2>/dev/null || :
    rm -rf "$work"
}

work=$(mktemp -d)
trap clear EXIT
trap 'exit 130' INT
trap 'exit 143' TERM HUP
# shellcheck source=hosts/launch.sh
. "$top/hosts/launch.sh"
[ -n "${is_simulator-}" ] || run "$@"
[ -n "$asked" ] || run_simulator "$@"
prove_and_build
[ $# -gt 0 ] || exit 0
rm -rf "$work"
exec "$program" "$@"
