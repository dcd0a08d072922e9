#!/bin/sh
# Times the static library against the published Rust and an in-place reader, and writes docs/BENCHMARKS.md and its plots.
# $1, or APPENDFS_SRC, or shared/docs/src beside the repository: the folder that holds the published sources, src/node.rs and the rest.
set -eu
source=${1:-${APPENDFS_SRC:-$(dirname "$0")/../../../shared/docs/src}}
APPENDFS_SRC=$(cd "$source" && pwd)
BENCH_DATE=$(date +%Y-%m-%d)
BENCH_MACHINE=$(sed -n 's/^model name[^:]*: //p' /proc/cpuinfo | head -n 1)
BENCH_KIT=$(rt version)
export APPENDFS_SRC BENCH_DATE BENCH_MACHINE BENCH_KIT
if [ -n "${APPENDFS_LAYERS_LIB:-}" ]; then
    APPENDFS_LAYERS_LIB=$(cd "$APPENDFS_LAYERS_LIB" && pwd)
    export APPENDFS_LAYERS_LIB
fi
cd "$(dirname "$0")"
cargo run --offline --profile measured -- "${BENCH_OUT:-../../docs}"
