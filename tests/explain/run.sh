#!/usr/bin/env bash
# Explains lookups in examples/blades.img, with bad arguments too, and compares what is written with tests/explain/blades.out; then the lookups that
# the Rust answered (rust.py). Needs the program, crates/explain/out/explain (rt ci, or rt run in crates/explain), and Python 3. Says what differs, and fails.
set -euo pipefail
cd "$(dirname "$0")/../.."

program=$PWD/crates/explain/out/explain
[ -x "$program" ] || { echo "tests/explain/run.sh: no $program: run 'rt run' in crates/explain first" >&2; exit 1; }
written=$(mktemp)
trap 'rm -f "$written"' EXIT

explained() {
    echo "\$ explain $*"
    "$program" "$@" < examples/blades.img 2>&1
}
{
    explained 1 blade-1.offset
    explained 1 blade-2.offset
    explained 1 blade-3.offset
    explained 1 pitch.lock
    explained 1 blade-4.offset
    explained 12 x
    explained 14 x
    explained 32 x
    explained 99 x
    explained 18446744073709551615 x
    explained 1 ''
    explained 1 "$(printf 'x%.0s' {1..256})"
    explained 1 "$(printf 'x%.0s' {1..5000})" | sed 's/x\{256\}x*/xxx../'
    explained
    explained 1
    explained 1 a b
    explained one blade-1.offset
    explained 18446744073709551616 blade-1.offset
    explained '' blade-1.offset
} > "$written"
diff -u tests/explain/blades.out "$written" >&2 || { echo "tests/explain/run.sh: '+' is what the program wrote" >&2; exit 1; }
cmp crates/explain/stdin examples/blades.img || { echo "tests/explain/run.sh: crates/explain/stdin is not examples/blades.img" >&2; exit 1; }
echo "tests/explain: $(grep -c '^\$' "$written") lookups"
python3 tests/explain/rust.py "$program"
