# shellcheck shell=sh disable=SC2034,SC2154
# Part of tests/hosts: the hosts in Rust, built, looked at by clippy, and their tests.

# Everything that later parts run. Each of them builds what is not there by itself.
part_build() {
    find_crates
    expect 0 'the committed library' "$top/hosts/packaging/library" fits
    build_programs
    build_tests
}

# Runs clippy, or the compiler's own check if there is no clippy: `lint WHAT WORD..`.
lint() {
    what=$1
    shift
    if cargo clippy --version >/dev/null 2>&1; then
        cargo_in "$top/hosts" "clippy of $what" clippy "$@" -- -D warnings
    else
        cargo_in "$top/hosts" "the check of $what" check "$@"
    fi
}

part_clippy() {
    find_crates
    lint 'the workspace' --workspace --all-targets
}

# Each by itself: the programs of the workspace switch on what they need of krl. And the documentation.
part_features() {
    find_crates
    lint 'krl as it is by default' -p krl --all-targets
    lint 'krl without its features' -p krl --lib --no-default-features
    lint 'krl with all its features' -p krl --lib --all-features
    RUSTDOCFLAGS='-D warnings'
    export RUSTDOCFLAGS
    cargo_in "$top/hosts" 'the documentation' doc --workspace --no-deps
}

# Runs tests of cargo: `run_tests WORD..`, the words by which cargo chooses them. Their stores are in memory.
run_tests() {
    (
        profile=tests
        TMPDIR=$memory
        export TMPDIR
        cargo_in "$top/hosts" "cargo test $*" test --no-fail-fast "$@"
    )
}

part_units() {
    find_crates
    keep_in_memory
    run_tests --workspace --exclude krl-client-c --lib --bins
    run_tests --workspace --exclude krl-client-c --doc
    run_tests -p krl-client-c
}

part_integration() {
    find_crates
    has chromium || lacks 'there is no chromium: the page of a server in a browser'
    has promtool || lacks 'there is no promtool: the alert rules for Prometheus'
    keep_in_memory
    run_tests --workspace --exclude krl-client-c --test '*'
}

# Worlds in one thread, by seeds.
part_seeds() {
    need_programs
    drive 0 'worlds of seeds that failed once' "$simulation" --file "$top/hosts/simulation/seeds.txt"
}

# Worlds that no other commit has had, and that this one has again on another machine.
part_simulation() {
    part_seeds
    tree=$(git -C "$top" rev-parse 'HEAD^{tree}' 2>/dev/null | cut -c 1-12)
    first=$(printf %d "0x${tree:-1}")
    drive 0 'worlds of this commit' "$simulation" --seeds "$first..$((first + 1000000))" --events 40000000
}

# The example, with leases and without.
part_example() {
    need_programs
    for leased in '' leased; do
        # shellcheck disable=SC2086
        expect 0 "the example $leased" "$programs/examples/range_cache" $leased for 6
        for node in 0 1 2; do
            grep -q "^node $node .*: [1-9][0-9]* reads cached" "$work/log" ||
                fail "the example $leased: node $node reads nothing from its cache"
        done
    done
}
