# shellcheck shell=sh disable=SC2154
# Part of tests/hosts: drives of servers and clients that are processes, and are killed and stopped.

make_certificates() {
    expect 0 'the certificates' "$top/hosts/packaging/certificates" "$work/certificates" server operator client-0 \
        client-1 client-2 client-3
    KRL_CERTIFICATES=$work/certificates
    export KRL_CERTIFICATES
}

# A drive of seconds, for a quick check.
part_short() {
    need_programs
    drive 0 'a few kills' "$drive" kill "$work/short" 3
}

part_kills() {
    need_programs
    keep_in_memory
    drive 0 'kills' "$drive" kill "$memory/kills" 20
    drive 0 'kills over a network that loses, repeats and swaps' "$drive" kill "$memory/lossy" 6 sqlite lossy
    make_certificates
    drive 0 'kills, over TLS and with leases' "$drive" kill "$memory/tls" 6 sqlite tls
    drive 0 'the same over a network that loses, repeats and swaps' "$drive" kill "$memory/lossy-tls" 6 sqlite lossy-tls
    finds 'a store that loses what it has not synced' "$drive" kill 20 unsynced direct
    drive 0 'shards' "$drive" shards "$memory/shards" 20 2
    drive 0 'shards that change' "$drive" moves "$memory/moves" 60 12 "$programs/krl-server"
}

part_leases() {
    need_programs
    keep_in_memory
    drive 0 'leases' "$drive" leases "$memory/leases" 12
    drive 0 'leases over a network that loses, repeats and swaps' "$drive" leases "$memory/leases-lossy" 6 lossy
    drive 0 'who wants what a dead client holds' "$drive" takeover "$memory/takeover" 12
    drive 0 'a hasty client' "$drive" haste "$memory/haste"
}

part_large_stores() {
    has etcd || not_run 'there is no etcd: stores of the greatest room'
    need_programs
    drive 0 'stores of the greatest room' "$drive" large-stores "$work/large-stores"
}

part_strangers() {
    need_programs
    drive 0 'strings' "$drive" strings 1000000 100000
    drive 0 'strangers' "$drive" strangers
    drive 0 'long reports' "$drive" reports
}

part_cache() {
    has_postgresql_headers || not_run 'there are no header files of PostgreSQL: readers of a table that any SQL writes'
    need_programs
    install_extension
    drive 0 'readers of a table that any SQL writes' "$drive" cache "$work/cache" 60
    drive 0 'a shop over such a table' env PROGRAMS="$programs" "$top/examples/shop/run" 6
    "$top/examples/shop/draw" <"$work/log" | grep -q '</svg>' || fail 'what the shop prints is not drawn'
}
