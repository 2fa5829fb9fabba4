# Read in by the benchmarks of the program, with their words: sets `top`, the top of the repository, `program`, the one
# that ./krl builds or the first word, and `work`, a folder that goes when the benchmark ends.
top=$(CDPATH='' cd -- "$(dirname -- "$0")/../.." && pwd)
program=${1-$top/crates/krl/out/krl}
[ -x "$program" ] || { echo "there is no program $program: build it by ./krl" >&2; exit 1; }
work=$(mktemp -d)
trap 'rm -rf "$work"' EXIT
