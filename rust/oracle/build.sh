#!/bin/sh
# Builds the oracle, makes reads.in, reads.out, changes.in and changes.out again, and runs the tests.
# $1, or APPENDFS_SRC, or shared/docs/src beside the repository: the folder that holds the published sources, src/node.rs and the rest.
# Needs cargo and rustc (1.90 or later) and sha256sum; no registry, no network.
set -eu
source=${1:-${APPENDFS_SRC:-$(dirname "$0")/../../../shared/docs/src}}
APPENDFS_SRC=$(cd "$source" && pwd)
export APPENDFS_SRC
cd "$(dirname "$0")"
cargo run --offline --release --bin reads -- .
cargo run --offline --release --bin changes -- .
cargo test --offline --release
