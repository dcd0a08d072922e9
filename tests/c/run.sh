#!/bin/sh
# Compiles the C program over the static library and runs it. Run `rt lib` in crates/ffi first. CC names the compiler.
set -eu
cd "$(dirname "$0")/../.."
lib=crates/ffi/out/libffi.a
[ -f "$lib" ] || { echo "$0: no $lib: run 'rt lib' in crates/ffi first" >&2; exit 2; }
mkdir -p target/c
"${CC:-cc}" -std=c11 -O1 -Wall -Wextra -Werror -Iinclude -o target/c/example tests/c/example.c "$lib"
target/c/example
