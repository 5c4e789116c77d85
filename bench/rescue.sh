#!/bin/sh
# Measures the rescue of a damaged store against the plain C box (clang -O3), in one run.
# PLAIN_TWICE=1 puts the plain box on both sides, to try the program where crate abi is not proved.
set -eu
cd "$(dirname "$0")/.."
mkdir -p target/bench
if [ "${PLAIN_TWICE:-}" ]; then
    side=-DPLAIN_TWICE
else
    tests/staticlib
    side=target/staticlib/libc_abi.a
fi
clang -O3 -std=gnu99 -ffp-contract=off -Wall -Wextra -o target/bench/rescue bench/rescue_bench.c bench/box.c bench/sha1.c $side
exec target/bench/rescue
