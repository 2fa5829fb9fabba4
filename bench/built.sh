# Read in by benchmarks that are programs in Rattle: proves and builds the program bench/NAME/main.rt.txt, with the
# other files of bench/NAME that end in .rt.txt or stand in its proofs/, and runs it once without words. It wants
# `name`, its name, and `crates`, the crates that it stands on, lowest first; if it needs them, `kit`, libraries of the
# kit, and `handles`, what it may use. It sets `built`, the program, and makes `room`, a folder that goes when the
# benchmark ends.
#
# The program is not a crate of crates.txt, so that the gate proves no benchmark, and its name does not end in .rt,
# since the gate stops at such a file outside the crates: this makes a repository of the crates that it needs in `room`,
# with what they keep proved.
here=$(cd "$(dirname "$0")" && pwd)
while [ ! -e "$here/built.sh" ]; do here=$(dirname "$here"); done
top=$(cd "$here/.." && pwd)
room=$(mktemp -d)
trap 'rm -rf "$room"' EXIT

for crate in $crates; do
    mkdir -p "$room/crates/$crate"
    for part in src specs proofs out; do
        if [ -d "$top/crates/$crate/$part" ]; then cp -rp "$top/crates/$crate/$part" "$room/crates/$crate/"; fi
    done
    grep "^$crate:" "$top/crates.txt"
done >"$room/crates.txt"
mkdir -p "$room/crates/$name/src"
for text in "$here/$name"/*.rt.txt; do
    cp "$text" "$room/crates/$name/src/$(basename "$text" .txt)"
done
[ ! -d "$here/$name/proofs" ] || (cd "$here/$name" && find proofs -name '*.txt') | while read -r text; do
    mkdir -p "$room/crates/$name/$(dirname "$text")"
    cp "$here/$name/$text" "$room/crates/$name/${text%.txt}"
done
echo "$name: $crates ${kit-}" >>"$room/crates.txt"
printf 'Handles allowed: %s.\n' "${handles-none}" >"$room/HANDLES"

(cd "$room/crates/$name" && rt run --jobs 1) >"$room/log" 2>&1 || {
    cat "$room/log" >&2
    exit 1
}
built=$room/crates/$name/out/$name
