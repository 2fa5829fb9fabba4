# shellcheck shell=sh disable=SC2154
# Part of tests/hosts: an engine in C over the proved library, and the handles for C++.

# Builds the engine of a folder, a server and two clients in one process: `build_in_c FOLDER`.
build_in_c() {
    expect 0 'the host in C' cc -std=c11 -Wall -Wextra -Werror -I "$top/crates/krl_embed" \
        "$1/two_clients.c" "$library" -o "$work/two_clients"
}

# What it prints with leases has to differ from leases.txt.
try_wrong_body_in_c() {
    name=$(basename "$1" .edit)
    mkdir -p "$work/wrong/hosts"
    cp -R "$top/hosts/c" "$work/wrong/hosts"
    "$top/tests/edit" "$1" "$work/wrong" || fail "$name: the edit does not fit"
    build_in_c "$work/wrong/hosts/c"
    expect 0 "wrong body $name, run" "$work/two_clients" --leases
    ! cmp -s "$work/log" "$top/hosts/c/leases.txt" || fail "wrong body $name: what it prints is leases.txt"
    printf 'hosts: wrong body %s: it prints %s lines of leases.txt differently\n' "$name" \
        "$(diff "$work/log" "$top/hosts/c/leases.txt" | grep -c '^>')" >&2
}

# Whether a compiler of C++ makes a program with this sanitizer, which may need a package of its own.
has_sanitizer() {
    echo 'int main() {}' >"$work/empty.cpp"
    # shellcheck disable=SC2086
    "$1" $2 "$work/empty.cpp" -o "$work/empty" >/dev/null 2>&1
}

# The handles of krl.h as classes of C++: `try_handles COMPILER SANITIZER`.
try_handles() {
    # shellcheck disable=SC2086
    expect 0 "the handles for C++, by $1 $2" "$1" -std=c++17 -g -Wall -Wextra -Wpedantic -Werror -pthread $2 \
        -I "$top/crates/krl_embed" "$top/hosts/c/handles.cpp" "$library" -o "$work/handles"
    expect 0 "the handles for C++, run: $1 $2" "$work/handles"
    diff "$work/log" "$top/hosts/c/handles.txt" >&2 || fail 'the handles for C++ read something else'
}

part_c() {
    make_library
    build_in_c "$top/hosts/c"
    expect 0 'the host in C, run' "$work/two_clients"
    diff "$work/log" "$top/hosts/c/two_clients.txt" >&2 || fail 'the host in C does not print two_clients.txt'
    expect 0 'the host in C, run with leases' "$work/two_clients" --leases
    diff "$work/log" "$top/hosts/c/leases.txt" >&2 || fail 'the host in C does not print leases.txt'
    for edit in "$top"/hosts/c/wrong/*.edit; do
        try_wrong_body_in_c "$edit"
    done
    for compiler in g++ clang++; do
        has $compiler || continue
        for sanitizer in '' -fsanitize=address,undefined -fsanitize=thread; do
            if has_sanitizer $compiler "$sanitizer"; then
                try_handles $compiler "$sanitizer"
            else
                lacks "$compiler makes no program with $sanitizer: the handles for C++"
            fi
        done
    done
}
