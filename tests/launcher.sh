# Part of tests/launcher, which reads it: a fresh copy of the tree, and a machine of stand-ins for the commands that the
# launcher calls.
# shellcheck shell=sh disable=SC2154,SC2034

differ() {
    printf 'launcher: %s\n' "$1" >&2
    exit 1
}

# A fresh copy has the launcher, its texts and the folders of the crates.
fresh() {
    rm -rf "$work/tree"
    mkdir -p "$work/tree/crates/krl" "$work/tree/hosts/packaging" "$work/tree/tests"
    for package in rust server etcd postgres client simulator; do
        mkdir -p "$work/tree/hosts/$package/src"
        echo "// $package" >"$work/tree/hosts/$package/src/lib.rs"
    done
    cp "$top/krl" "$top/crates.txt" "$work/tree"
    cp "$top/hosts/launch.sh" "$top/hosts/Cargo.toml" "$top/hosts/debian.toml" "$top/hosts/debian.packages" \
        "$work/tree/hosts"
    cp "$top/hosts/packaging/requirements" "$top/hosts/packaging/library" "$work/tree/hosts/packaging"
    sed -n 's/^\([a-z_]*\)\( [a-z]*\)*:.*/\1/p' "$top/crates.txt" | while read -r name; do
        mkdir -p "$work/tree/crates/$name/src"
        echo "// $name" >"$work/tree/crates/$name/src/lib.rt"
    done
    echo '// the header' >"$work/tree/crates/krl_simulator/krl_simulator.h"
    cp "$work/library" "$work/tree/tests/library"
}

# A stand-in for the script that writes the committed library of the last word.
cat >"$work/library" <<'library'
#!/bin/sh
set -eu
cd -- "$(dirname -- "$0")/.."
for name; do :; done
! hosts/packaging/library fits "$name" >/dev/null 2>&1 || exit 0
case $name in
krl_simulator) rules=hosts/simulator/rules ;;
krl_embed) rules=hosts/rust/rules ;;
esac
mkdir -p "$rules"
echo '# the library' >"$rules/x86_64-linux.s"
hosts/packaging/library record 'kit of the test' "$name" >"$rules/RECORD"
library
chmod +x "$work/library"

# Gives the copy a committed library: of the sources as they stand.
commit_library() {
    "$work/tree/tests/library" --taken --write "$1"
}

# Runs the launcher with these words. What stands in the folder `bin` comes before every other command, and `rt` is
# found nowhere else. A run that takes more than ten minutes has no answer.
run() {
    ended=0
    PATH=$work/bin:$bare timeout 600 "$work/tree/krl" "$@" </dev/null >"$work/out" 2>"$work/err" || ended=$?
    cases=$((cases + 1))
}

# Makes a command that stands before every other one of its name, from standard input.
stand_in() {
    { echo '#!/bin/sh'; cat; } >"$work/bin/$1"
    chmod +x "$work/bin/$1"
}

# From now on time passes faster.
fast_sleep() {
    stand_in sleep <<sleep
exec $(command -v sleep) 0.2
sleep
}

# Looks at how the run called $1 ended: with status $2, and with $3 as its output.
ends() {
    [ "$ended" = "$2" ] || differ "$1: status $ended, and not $2: $(cat "$work/err")"
    [ "$(cat "$work/out")" = "$3" ] || differ "$1: it wrote '$(cat "$work/out")', and not '$3'"
}

# Whether standard error has the text $2 in the run called $1.
says() {
    grep -qF -- "$2" "$work/err" || differ "$1: standard error has no '$2': $(cat "$work/err")"
}

real_cargo=$(command -v cargo || :)
# Leaves in $bare the folders $2, without the command $1: one that has it is replaced by links to all else that it has.
leave_out() {
    bare='' count=0
    IFS=:
    for folder in $2; do
        if [ -x "$folder/$1" ]; then
            count=$((count + 1))
            mkdir -p "$work/without/$1/$count"
            ln -s "$folder"/* "$work/without/$1/$count"
            rm -f "$work/without/$1/$count/$1"
            folder=$work/without/$1/$count
        fi
        bare=${bare:+$bare:}$folder
    done
    unset IFS
}
leave_out rt "$PATH"
leave_out cargo "$bare"
mkdir "$work/bin"
fresh

# The machine: how much of the disk is free, who runs this, whether the compiler links, and which packages are there.
export FREE=9000000 USER_ID=1000 LINKS=yes PACKAGES="$work/packages" CALLS="$work/calls"
stand_in df <<'df'
printf 'Filesystem 1024-blocks Used Available Capacity Mounted\nall 0 0 %s 0%% /\n' "$FREE"
df
stand_in id <<'id'
echo "$USER_ID"
id
stand_in cc <<'cc'
[ "$*" != -dumpmachine ] || { echo x86_64-linux-gnu; exit; }
[ "$LINKS" = yes ] || { echo 'error: a sentence of the compiler'; exit 1; }
case "$*" in
*krl-simulator)
    echo cc >>"$CALLS"
    for file; do :; done
    printf '#!/bin/sh\necho "simulator in $(basename "$PWD"): $*"\n' >"$file"
    chmod +x "$file"
    ;;
esac
cc
stand_in pkg-config <<'pkg_config'
echo 1
pkg_config
stand_in dpkg-query <<'dpkg_query'
for second in $SECONDS_OF_A_BUILD; do sleep 1; done
cat "$PACKAGES" 2>/dev/null
dpkg_query
stand_in dpkg </dev/null
stand_in apt-get <<'apt_get'
echo "apt-get $*" >>"$CALLS"
case "$*" in
*install*)
    echo '0 upgraded, 154 newly installed, 0 to remove and 3 not upgraded.'
    echo 'Get:1 http://debian.example bookworm/main'
    for second in $SECONDS_OF_A_BUILD; do sleep 1; done
    echo all >"$PACKAGES"
    ;;
esac
case "$*" in
*install*cargo-web*) mv "$(dirname "$0")/../cargo" "$(dirname "$0")" ;;
esac
apt_get
export OFFERED=1.96.0+dfsg1-1~deb12u2
stand_in apt-cache <<'apt_cache'
[ "$*" = 'policy cargo-web' ] || exit 0
printf 'cargo-web:\n  Installed: (none)\n  Candidate: %s\n' "$OFFERED"
apt_cache
