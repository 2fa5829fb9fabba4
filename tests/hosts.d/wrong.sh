# shellcheck shell=sh disable=SC2034,SC2154
# Part of tests/hosts: hosts with an edit, which a test or a drive has to find, and the servers that stand by.

# Makes a copy of the hosts, $work/wrong.
copy_hosts() {
    rm -rf "$work/wrong"
    mkdir -p "$work/wrong/hosts" "$work/wrong/examples"
    cp "$top/hosts/Cargo.toml" "$work/wrong/hosts"
    # They are examples of krl-client.
    cp -R "$top/examples/clients" "$work/wrong/examples"
    for member in $(sed -n '/^members = \[$/,/^\]$/{/"/p}' "$top/hosts/Cargo.toml" | tr -d '",'); do
        cp -R "$top/hosts/$member" "$work/wrong/hosts"
    done
}

# Makes a copy of the hosts with an edit.
edited() {
    copy_hosts
    "$top/tests/edit" "$1" "$work/wrong" || fail "$(basename "$1"): the edit does not fit"
}

# Builds packages of the edited hosts as tests are built: `build_edited WHAT PACKAGE..`. They are in $edited_programs.
# Cargo takes what it has built of a copy for what it would build of the tree. In one folder, an edited server would
# take the place of the tree's own, and be started by ./krl. So copies have another folder, which begins with the
# dependencies.
edited_programs=$work/target/tests
build_edited() {
    find_crates
    [ -d "$work/target" ] || copy_dependencies
    built_for=$1
    shift
    # shellcheck disable=SC2046
    (profile=tests && cargo_in "$work/wrong/hosts" "$built_for: the build" \
        build $(printf -- '-p %s ' "$@") --target-dir "$work/target")
}

copy_dependencies() {
    built=$CARGO_TARGET_DIR/tests
    [ -d "$built" ] || return 0
    mkdir -p "$edited_programs/deps"
    cp -Rp "$built/build" "$built/.fingerprint" "$edited_programs"
    cp -p "$built"/deps/lib* "$edited_programs/deps"
}

# The checksums of the tree's own programs.
sums() {
    cksum "$programs/krl-server" "$programs/krl-client" "$drive"
}

compare_sums() {
    sums | cmp -s - "$work/sums" || fail 'an edited host has taken the place of a program of the tree'
}

# Each wrong host, several at a time; and servers that heed no store, for failovers.
part_wrong() {
    need_programs
    find_heedless
    sums >"$work/sums"
    expect 0 'the wrong hosts' "$top/tests/wrong_hosts" --work "$work/tried"
    printf 'hosts: wrong hosts: %s\n' "$(tail -n 1 "$work/log")" >&2
    compare_sums
}

# A reader of a cached table that keeps rows of its own, which the drive of that table has to find.
part_wrong_reader() {
    has_postgresql_headers || not_run 'there are no header files of PostgreSQL: a wrong reader of a cached table'
    need_programs
    install_extension
    mkdir -p "$work/wrong/hosts"
    cp -R "$top/hosts/python" "$work/wrong/hosts"
    "$top/tests/edit" "$top/hosts/drive/wrong_reader.edit" "$work/wrong" || fail 'the edit of the reader does not fit'
    (export PYTHONPATH="$work/wrong/hosts/python" && finds 'a wrong reader' "$drive" cache 10) || exit 1
}

# Finds servers that heed no store, $heedless. They are built once for the programs that are there: before the
# failovers, next to which nothing else is to run.
find_heedless() {
    heedless=$CARGO_TARGET_DIR/heedless/krl-server
    made_of=$(cksum "$programs/krl-server" "$top/hosts/drive/heedless.edit")
    [ ! -x "$heedless" ] || [ "$made_of" != "$(cat "$heedless.made_of" 2>/dev/null)" ] || return 0
    sums >"$work/sums"
    edited "$top/hosts/drive/heedless.edit"
    build_edited 'heedless servers' krl-server
    compare_sums
    mkdir -p "$CARGO_TARGET_DIR/heedless"
    cp "$edited_programs/krl-server" "$heedless"
    echo "$made_of" >"$heedless.made_of"
}

# Servers that stand by. In the failovers the server that serves, its machine or its store breaks. No lease and no
# timeout ends these servers: only the store distinguishes them. Without network namespaces the same is done on one
# machine.
part_failover() {
    has etcd || not_run 'there is no etcd: servers that stand by'
    need_programs
    keep_in_memory
    drive 0 'a frozen server, noticed by a client that only reads' \
        "$drive" frozen "$memory/frozen" 2 "$programs/krl-server"
    find_heedless
    drive 0 'servers that stand by' "$drive" failover "$memory/failover" "${KRL_FAULTS-12}" "$heedless"
    drive 0 'servers that stand by, without leases of clients' \
        "$drive" failover "$memory/failover-leaseless" 4 "$heedless" kill,wake,cut,cross leaseless
    sed -n 's/^NOT RUN/hosts: NOT RUN/p' "$work/log" >&2
}
