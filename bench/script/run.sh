#!/bin/sh
# What a script costs: the proved program compared with its twin in C, and 10,000 lines compared with the first half of
# them.
#
#   bench/script/run.sh [PROGRAM]   the program that ./krl builds, or another; needs cc and bash; about a minute
#
# twin.c knows only the words of these texts, and judges a lock at once, with no messages. Each text has 10,000 lines:
#
#   scans     one client that knows all of 52 entries scans them, line by line
#   clients   64 clients lock the four slots of an index, settle and scan in turn
#   locks     one client locks a slot and settles, in turn
#   spaces    lines of 100 spaces
#   comments  lines of 100 bytes that begin with #
#   holds     what a client holds at a point
#   misses    scans that miss a point of 19 digits
#   refused   starts of a client that runs
#
# Each is run 20 times in a row, the program and its twin in turn, five times over; the least processor time, user and
# system, counts, less the time of an empty script, which is the start of the process. A line gives the text, the
# milliseconds of the program and of the twin, their ratio, and the program's milliseconds for the first 5,000 lines
# with the whole's over them: near 2 if a line costs the same wherever it stands; and the most memory that the program
# held. It stops if the two transcripts differ, or if the half's does not begin the whole's.
set -eu

. "$(dirname -- "$0")/../program.sh"

cc -O2 -o "$work/twin" "$top/bench/script/twin.c"

# Runs the program $1 on `script`, and gives the most kilobytes that it held.
cat >"$work/peak.c" <<'END'
#include <stdio.h>
#include <sys/resource.h>
#include <sys/wait.h>
#include <unistd.h>

int main(int count, char **words) {
    struct rusage used;
    if (count != 2) return 2;
    if (fork() == 0) {
        execl(words[1], words[1], "script", (char *)0);
        _exit(127);
    }
    wait(0);
    getrusage(RUSAGE_CHILDREN, &used);
    fprintf(stderr, "%ld\n", used.ru_maxrss);
    return 0;
}
END
cc -O2 -o "$work/peak" "$work/peak.c"

awk -v to="$work" '
function text(name) { file = to "/" name; lines = 0 }
function say(line) { print line >file; lines++ }
function one_client() {
    seed = "seed"
    for (k = 0; k < 52; k++) seed = seed " " k "=" k % 10
    say(seed); say("client 0"); say("settle")
}
BEGIN {
    text("scans"); one_client()
    for (k = 0; k < 52; k++) { say("lock 0 " k " RangeS-S"); say("settle") }
    say("lock 0 END RangeS-S"); say("settle")
    while (lines < 10000) say("scan 0 0 " 52 + lines % 9)

    text("clients"); say("seed 10=1 20=2 30=3")
    for (c = 0; c < 64; c++) say("client " c)
    say("settle")
    for (k = 1; k <= 4; k++) {
        for (c = 0; c < 64; c++) say("lock " c " " k * 10 " RangeS-S")
        say("settle")
    }
    while (lines < 10000) {
        c = int(lines / 3) % 64
        if (lines % 3 == 0) say("lock " c " " (lines * 7) % 50 " RangeS-S")
        else if (lines % 3 == 1) say("settle")
        else say("scan " c " " lines % 10 " 40")
    }

    text("locks"); one_client()
    while (lines < 10000) say(lines % 2 ? "lock 0 " (lines * 7) % 60 " RangeS-S" : "settle")

    spaces = sprintf("%100s", "")
    text("spaces"); while (lines < 10000) say(spaces)
    text("comments"); while (lines < 10000) say("#" substr(spaces, 2))

    text("holds"); one_client()
    say("lock 0 5 RangeS-S"); say("settle")
    while (lines < 10000) say("hold 0 " lines % 10)

    text("misses"); one_client()
    while (lines < 10000) say(sprintf("scan 0 9223372036854%06d TOP", lines))

    text("refused"); one_client()
    while (lines < 10000) say("client 0")
}'
: >"$work/empty"

# Gives the processor milliseconds of 20 runs of the command $1 on the text $2, whose output goes to $2.out.
twenty() {
    LC_ALL=C bash -c 'TIMEFORMAT="%3U %3S"; time for run in {1..20}; do "$1" script <"$2" >"$2.out"; done' \
        bash "$1" "$work/$2" 2>&1 | awk '{ print ($1 + $2) * 1000 }'
}

# Adds a measurement of the program $1, called $2, on the text $3.
measure() {
    echo "$2 $3 $(twenty "$1" "$3")" >>"$work/times"
}

texts='scans clients locks spaces comments holds misses refused'
for text in $texts; do
    head -n 5000 "$work/$text" >"$work/$text.half"
    "$work/twin" script <"$work/$text" >"$work/$text.wanted"
    echo "peak $text $("$work/peak" "$program" <"$work/$text" 2>&1 >/dev/null)" >>"$work/times"
    for turn in 1 2 3 4 5; do
        for kind in program twin; do
            case $kind in program) run=$program ;; twin) run=$work/twin ;; esac
            measure "$run" "$kind" "$text"
            cmp -s "$work/$text.wanted" "$work/$text.out" || { echo "$text: the transcripts differ" >&2; exit 1; }
            measure "$run" "$kind" empty
        done
        measure "$program" program "$text.half"
        size=$(wc -c <"$work/$text.half.out")
        head -c "$size" "$work/$text.wanted" | cmp -s - "$work/$text.half.out" \
            || { echo "$text: the transcript of the half does not begin that of the whole" >&2; exit 1; }
    done
done

awk -v texts="$texts" '
    { key = $1 " " $2; if (!(key in least) || $3 < least[key]) least[key] = $3 }
    function cost(key, kind) { kind = key; sub(/ .*/, " empty", kind); return (least[key] - least[kind]) / 20 }
    END {
        printf "%-10s %8s %8s %6s %8s %6s %8s\n", "text", "krl ms", "C ms", "ratio", "half ms", "ratio", "krl MB"
        count = split(texts, text, " ")
        for (i = 1; i <= count; i++) {
            whole = cost("program " text[i]); twin = cost("twin " text[i]); half = cost("program " text[i] ".half")
            printf "%-10s %8.2f %8.2f %6.2f %8.2f %6.2f %8.1f\n", text[i], whole, twin, whole / twin, \
                half, whole / half, least["peak " text[i]] / 1024
        }
        printf "%-10s %8.2f %8.2f\n", "(empty)", least["program empty"] / 20, least["twin empty"] / 20
    }' "$work/times"
