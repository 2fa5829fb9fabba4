# shellcheck shell=sh disable=SC2154
# Part of tests/hosts: the client and the cache for Python over those for C, and the conformance kit.

python=$top/hosts/python
# The library of the client for C, also for clients of the drive.
KRL_CLIENT_LIBRARY=$programs/libkrl_client.so
KRL_CACHE_LIBRARY=$programs/libkrl_cache_c.so

use_python() {
    has python3 || not_run 'there is no python3: the client for Python'
    need_programs
    export PYTHONDONTWRITEBYTECODE=1 KRL_CLIENT_LIBRARY KRL_SERVER_PROGRAM="$programs/krl-server"
    # It starts what readers of cached tables are tried with.
    export KRL_CACHE_LIBRARY KRL_SITE_PROGRAM="$programs/examples/site"
}

# Makes what the conformance kit asks the rules by.
make_shared_library() {
    make_library
    export KRL_SHARED_LIBRARY="$work/libkrl.so"
    expect 0 'the shared library' "$top/hosts/packaging/shared-library" "$work/library" "$KRL_SHARED_LIBRARY"
}

# Runs tests of the client for Python: `python_test FOLDER SECONDS TEST..`. They wait this long for what has to come.
python_test() {
    (cd "$1" && KRL_PATIENCE=$2 && export KRL_PATIENCE && shift 2 && exec python3 -m unittest "$@") \
        >"$work/log" 2>&1 </dev/null
}

part_conformance() {
    use_python
    make_shared_library
    kit_of_scripts=$top/hosts/conformance
    expect 0 'the messages of the conformance kit' python3 "$kit_of_scripts/vectors.py" compare
    expect 0 'the scripts of the conformance kit, played to the client in Rust' \
        find "$kit_of_scripts/scripts" -name '*.jsonl' \
        -exec python3 "$kit_of_scripts/play.py" "$drive" conform -- {} +
}

# The wheel has the libraries in it: they are found in a folder of its own.
try_wheel() {
    if ! "$top/hosts/packaging/wheel" "$KRL_CLIENT_LIBRARY" "$work/wheel" >"$work/log" 2>&1; then
        grep -q 'no python3 has the modules' "$work/log" || fail 'the wheel of the client for Python'
        lacks "$(tail -n 1 "$work/log")"
        return
    fi
    python3 -m zipfile -e "$work"/wheel/*.whl "$work/wheel/unpacked"
    cp -R "$python/tests" "$work/wheel/unpacked"
    (unset KRL_CLIENT_LIBRARY KRL_CACHE_LIBRARY &&
        python_test "$work/wheel/unpacked" 60 tests.test_client.CallsTest.test_a_callback_gives_way \
            tests.test_cache.TableTest.test_keys_have_one_column_or_several) ||
        fail 'the wheel of the client for Python'
}

# A wrong body has to fail the test that its edit names.
try_wrong_body_in_python() {
    name=$(basename "$1" .edit)
    rm -rf "$work/wrong"
    mkdir -p "$work/wrong/hosts"
    cp -R "$python" "$top/hosts/capi" "$top/hosts/conformance" "$top/hosts/packaging" "$work/wrong/hosts"
    "$top/tests/edit" "$1" "$work/wrong" || fail "$name: the edit does not fit"
    ! python_test "$work/wrong/hosts/python" 10 "$(sed -n 's/^test: //p' "$1")" ||
        fail "wrong body $name: its test does not fail"
    grep -q '^FAILED' "$work/log" || fail "wrong body $name: its test does not run"
    printf 'hosts: wrong body %s: %s\n' "$name" "$(grep '^FAILED' "$work/log")" >&2
}

part_python() {
    use_python
    make_shared_library
    ! has mypy || expect 0 'the types of the client for Python' \
        mypy --strict --cache-dir "$work/mypy" "$python/krl"
    python_test "$python" 60 || fail 'the tests of the client for Python'
    printf 'hosts: the client for Python: %s\n' "$(grep '^Ran ' "$work/log")" >&2
    try_wheel
    for edit in "$python"/wrong/*.edit; do
        try_wrong_body_in_python "$edit"
    done
}

# Drives in which clients of several kinds share a table.
part_clients() {
    use_python
    in_python=$python/tests/drive_client.py
    drive 0 'kills, half of the clients in Python, over a network that loses, repeats and swaps' \
        "$drive" beside "$work/beside-lossy" 12 "$in_python" lossy
    has c++ || not_run 'there is no c++: clients of four kinds'
    make_certificates
    # A quarter of the clients each is in Rust, in C++, in Python and krl-client. Then the readers write.
    mkdir "$work/client"
    cp "$KRL_CLIENT_LIBRARY" "$work/client/libkrl_client.so.0"
    in_cpp=$work/client/drive_client in_shell=$python/tests/drive_command_line.py
    expect 0 'the client of the drive in C++' c++ -std=c++17 -O2 -Wall -Wextra -Wpedantic -Werror -pthread \
        -I "$top/hosts/capi/include" "$top/hosts/capi/tests/programs/drive_client.cpp" \
        "$work/client/libkrl_client.so.0" -Wl,-rpath,"$work/client" -o "$in_cpp"
    export KRL_CLIENT_PROGRAM="$programs/krl-client"
    drive 0 'clients of four kinds, over TLS and with leases' \
        "$drive" among "$work/among" 20 tls - "$in_cpp" "$in_shell" "$in_python"
    drive 0 'the same, each kind in another place' \
        "$drive" among "$work/among-again" 20 tls "$in_cpp" - "$in_python" "$in_shell"
}
