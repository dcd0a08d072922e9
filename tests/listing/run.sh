#!/usr/bin/env bash
# Lists the images of images.py and of examples/, and compares what is written with their lines; then those whose snapshots the Rust made (rust.py).
# Needs the program, crates/listing/out/listing (rt ci, or rt run in crates/listing), and Python 3. Says what differs, and fails.
set -euo pipefail
cd "$(dirname "$0")/../.."

program=$PWD/crates/listing/out/listing
[ -x "$program" ] || { echo "tests/listing/run.sh: no $program: run 'rt run' in crates/listing first" >&2; exit 1; }
folder=$(mktemp -d)
trap 'rm -rf "$folder"' EXIT

python3 tests/listing/images.py "$folder"
cmp examples/blades.img <(python3 examples/blades.py) || { echo "tests/listing/run.sh: examples/blades.img is not what examples/blades.py makes" >&2; exit 1; }
cp examples/blades.img examples/blades.out "$folder"

count=0
for image in "$folder"/*.img; do
    name=$(basename "$image" .img)
    "$program" < "$image" > "$folder/written"
    diff -u "$folder/$name.out" "$folder/written" >&2 || { echo "tests/listing/run.sh: $name: '+' is what the program wrote" >&2; exit 1; }
    count=$((count + 1))
done
echo "tests/listing: $count images"
python3 tests/listing/rust.py "$program"
