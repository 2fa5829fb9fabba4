# shellcheck shell=sh disable=SC2154
# Part of tests/hosts: what is handed out, each tried in a folder of its own, and the commands of the pages.

# Makes a package by this script of hosts/packaging, compressed less than one that is handed out.
make_package() {
    env LIBRARY="$work/library" PROGRAMS="$programs" DPKG_DEB_COMPRESSOR_LEVEL=1 \
        "$top/hosts/packaging/$1" "$work/dist"
}

# They serve without rt and cargo.
part_packages() {
    need_programs
    find_crates
    make_library
    expect 0 'the archive' make_package archive
    expect 0 'the archive, tried in a folder of its own' "$top/tests/archive" "$work"/dist/*.tar.gz
    # shellcheck disable=SC2086
    expect 0 'the crates, packaged' "$top/tests/package" $config
    has dpkg-deb || not_run 'there is no dpkg-deb: the package for Debian'
    expect 0 'the package for Debian' make_package debian-package
    expect 0 'the package, tried in a folder of its own' "$top/tests/archive" "$work"/dist/krl_*.deb
    if ! has pg_config make python3 || [ ! -f "$(pg_config --pgxs)" ]; then
        not_run 'there are no header files of PostgreSQL: the package of the extension for it'
    fi
    expect 0 'the package of the extension' make_package extension-package
    expect 0 'the extension of that package' "$top/hosts/pgext/check" "$programs" \
        --package "$work"/dist/postgresql-*.deb --only regress
    drive 0 'the packages, installed' "$top/tests/installed" "$work/dist"
}

part_pages() {
    has python3 cc c++ || not_run 'python3, cc or c++ is missing: the programs of docs/CLIENTS.md'
    need_programs
    drive 0 'the programs' "$top/tests/clients" "$programs"
    has python3 unshare ip etcd etcdctl curl openssl ||
        not_run 'python3, unshare, ip, etcd, etcdctl, curl or openssl is missing: commands of pages'
    if ! has pg_config make psql || [ ! -f "$(pg_config --pgxs)" ]; then
        not_run 'there are no header files of PostgreSQL: commands of pages'
    fi
    drive 0 'the commands of the pages' "$top/tests/pages" "$programs"
}
