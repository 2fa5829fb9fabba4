# shellcheck shell=sh
# The parts of the gate: how one is run and reported. ./check and tests/hosts read this. $work is a folder of theirs.

# A part that fails adds to the first file how only that part is run, and to the second one what it found. A part of
# tests/hosts adds its name to the third one if that is final: it is not run again.
KRL_FAILED=${KRL_FAILED-$work/failed}
KRL_FOUND=${KRL_FOUND-$work/found}
KRL_FINAL=${KRL_FINAL-$work/final}
export KRL_FAILED KRL_FOUND KRL_FINAL

# Leaves in $clock the seconds of the clock, and in $processor those of a processor that this shell and the commands
# that it has waited for took. $1 is a file that nothing else writes.
read_clocks() {
    clock=$(date +%s)
    times >"$1"
    processor=$(tr ms '  ' <"$1" | awk '{ sum += 60 * ($1 + $3) + $2 + $4 } END { printf "%d", sum }')
}

# Runs a part, and reports its seconds: `part WORDS COMMAND..`. WORDS, such as 'tests/hosts kills', run only that part.
part() {
    words=$1
    shift
    times_file=$work/times.$(echo "$words" | tr -c 'a-z_\n' '-')
    read_clocks "$times_file"
    began=$clock spent=$processor
    if "$@" </dev/null >&2; then
        outcome=passed
    else
        outcome="FAILED: this runs only that: $words"
        echo "$words" >>"$KRL_FAILED"
    fi
    read_clocks "$times_file"
    printf '== %s: %s seconds, %s of a processor: %s\n' \
        "$words" $((clock - began)) $((processor - spent)) "$outcome" >&2
    [ "$outcome" = passed ]
}

# Prints how each part is run that failed, and what these found.
list_failed() {
    [ -s "$KRL_FAILED" ] || return 0
    sort -u "$KRL_FAILED" | sed 's/^/FAILED: /' >&2
    [ ! -s "$KRL_FOUND" ] || sed 's/^/    /' "$KRL_FOUND" >&2
}

# Ends a process and what it has started.
end() {
    # shellcheck disable=SC2046
    set -- "$1" $(cat /proc/"$1"/task/*/children 2>/dev/null)
    kill "$1" 2>/dev/null || :
    while shift && [ $# -gt 0 ]; do
        (end "$1")
    done
}

# What is still running when the script ends. It ends then too, and $work is removed.
running=
leave() {
    for process in $running; do
        end "$process"
    done
    rm -rf "$work"
}
trap leave EXIT
trap 'exit 1' HUP INT TERM
