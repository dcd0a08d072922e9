#!/bin/sh
# differential/run.sh [SECONDS [SEED [CASE]]]: compares the static library with the published Rust for so long (60), from a seed (1).
# Needs cargo, crates/ffi/out/libffi.a (rt lib in crates/ffi; or the folder that APPENDFS_LAYERS_LIB names), and the published sources: APPENDFS_SRC names the
# folder that holds src/node.rs, else shared/docs/src beside the repository. Without them: an error with CI=true, else a notice. The exit status is 1 if anything differs.
set -eu
seconds=${1:-60}
APPENDFS_SRC=${APPENDFS_SRC:-$(dirname "$0")/../../../shared/docs/src}
if [ ! -f "$APPENDFS_SRC/src/node.rs" ]; then
    echo "differential: NOT RUN: $APPENDFS_SRC is not the folder of the published Rust (src/node.rs and the rest); APPENDFS_SRC names it" >&2
    [ "${CI:-}" != true ]
    exit
fi
APPENDFS_SRC=$(cd "$APPENDFS_SRC" && pwd)
export APPENDFS_SRC
if [ -n "${APPENDFS_LAYERS_LIB:-}" ]; then
    APPENDFS_LAYERS_LIB=$(cd "$APPENDFS_LAYERS_LIB" && pwd)
    export APPENDFS_LAYERS_LIB
fi
cd "$(dirname "$0")"
cargo build --offline --release
DIFFERENTIAL_LAST=$(mktemp)
export DIFFERENTIAL_LAST
trap 'rm -f "$DIFFERENTIAL_LAST"' EXIT
status=0
timeout $((seconds * 2 + 300)) "${CARGO_TARGET_DIR:-../target}/release/differential" "$seconds" "${2:-1}" ${3:+"$3"} || status=$?
if [ "$status" -gt 1 ]; then
    echo "differential: ended with status $status in: $(cat "$DIFFERENTIAL_LAST")" >&2
fi
exit "$status"
