# shellcheck shell=sh disable=SC2154
# Part of tests/hosts: the extension for PostgreSQL.

part_extension() {
    has_postgresql_headers || not_run 'there are no header files of PostgreSQL: the extension for it'
    need_programs
    keep_in_memory
    expect 0 'the extension for PostgreSQL' env TMPDIR="$memory" "$top/hosts/pgext/check" "$programs" --wrong
}
