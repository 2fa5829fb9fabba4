#!/bin/sh
# What a random run costs: 100,000 steps compared with 50,000 of the same seed.
#
#   bench/random/run.sh [PROGRAM]   the program that ./krl builds, or another; needs bash; about a minute
#
# Each is run five times in turn; the least processor time, user and system, counts. A line gives the seed, the
# milliseconds of both, the longer over the shorter (near 2 if a step costs the same wherever it stands), and how many
# steps a second the longer one takes.
set -eu

. "$(dirname -- "$0")/../program.sh"

# Gives the processor milliseconds of a run of seed $1 with $2 steps.
once() {
    LC_ALL=C bash -c 'TIMEFORMAT="%3U %3S"; time "$1" random --seed "$2" --steps "$3" >/dev/null' \
        bash "$program" "$1" "$2" 2>&1 | awk '{ print ($1 + $2) * 1000 }'
}

for seed in 1 7 42; do
    for turn in 1 2 3 4 5; do
        echo "half $(once "$seed" 50000)"
        echo "whole $(once "$seed" 100000)"
    done | awk -v seed="$seed" '
        !($1 in least) || $2 < least[$1] { least[$1] = $2 }
        END {
            printf "seed %d: 50,000 steps %d ms, 100,000 steps %d ms, ratio %.2f, %d steps a second\n", seed,
                least["half"], least["whole"], least["whole"] / least["half"], 100000000 / least["whole"]
        }'
done
