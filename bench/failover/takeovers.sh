#!/bin/sh
# How long it takes until another server serves, and whether anything wrong is read: `krl_drive failover` again and
# again, and the sums of all runs.
#
#   bench/failover/takeovers.sh DRIVE SERVER RUNS [ROUNDS [FAULTS [HOW..]]]
#
# DRIVE is krl_drive and SERVER is krl-server, as tests/hosts builds them; ROUNDS are 12 by default. It takes etcd, and
# as root it has network namespaces. Nothing else should run on the machine: a lease is two seconds, and a busy machine
# delays a server that waits for one to end. It ends with status 1 if a run failed or found something wrong: the folder
# of that run stays, and is named.
set -eu

drive=$1 server=$2 runs=$3
shift 3
rounds=${1-12}
[ $# = 0 ] || shift
work=$(mktemp -d)
failed=0

for run in $(seq "$runs"); do
    if "$drive" failover "$work/$run" "$rounds" "$server" "$@" >"$work/log" 2>"$work/errors"; then
        rm -rf "${work:?}/$run"
    else
        failed=$((failed + 1))
        echo "run $run failed: see $work/$run"
        cat "$work/errors"
    fi
    cat "$work/log" >>"$work/all"
done

# A line of a fault: `Kill: another server after 1938 ms, the first write after 2261 ms`. The last line of a run:
# `14 faults of servers .. and 4 kills of clients: 16764 ranges read, 95429 keys in them compared, ..`.
awk '
    /: another server after/ && !/ times: / {
        fault = $1; sub(/:$/, "", fault)
        others[fault, ++count[fault]] = $5
        if ($0 !~ /first write never/) firsts[fault, ++answered[fault]] = $(NF - 1)
    }
    / faults of servers / {
        for (at = 1; at < NF; at++) {
            if ($(at + 1) == "faults") faults += $at
            if ($(at + 1) == "kills") kills += $at
            if ($(at + 1) == "ranges") ranges += $at
            if ($(at + 1) == "keys") keys += $at
            if ($(at + 1) == "writes") writes += $at
            if ($(at + 1) ~ /^wrong/) wrong += $at
            if ($(at + 1) == "processes") hung += $at
        }
        runs++
    }
    # The middle and the worst of what is known of a fault.
    function told(values, fault, many,    list, at, other, kept) {
        for (at = 1; at <= many; at++) {
            kept = values[fault, at] + 0
            for (other = at - 1; other >= 1 && list[other] > kept; other--) list[other + 1] = list[other]
            list[other + 1] = kept
        }
        return many == 0 ? "no time" : list[int(many / 2) + 1] " ms in the middle and " list[many] " at worst"
    }
    END {
        for (fault in count)
            printf "%s, %d times: another server after %s; the first write after %s\n", fault, count[fault],
                told(others, fault, count[fault]), told(firsts, fault, answered[fault] + 0)
        printf "%d runs: %d faults and %d kills of clients, %d ranges read, %d keys in them compared, ",
            runs, faults, kills, ranges, keys
        printf "%d writes answered; %d wrong, %d hung\n", writes, wrong, hung
    }' "$work/all"

[ "$failed" = 0 ] || exit 1
rm -rf "$work"
