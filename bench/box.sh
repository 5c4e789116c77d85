#!/bin/sh
# Measures the whole answering call against the plain C box (clang -O3) and OpenSSL's HMAC, in one run.
# PLAIN_TWICE=1 puts the plain box on both sides, to try the program where crate c_abi is not proved.
set -eu
cd "$(dirname "$0")/.."
mkdir -p target/bench
tests/staticlib bench_fields
if [ "${PLAIN_TWICE:-}" ]; then
    side=-DPLAIN_TWICE
else
    tests/staticlib
    side=target/staticlib/libc_abi.a
fi
clang -O3 -std=gnu99 -ffp-contract=off -Wall -Wextra -Wno-deprecated-declarations -o target/bench/box \
    bench/box_bench.c bench/box.c bench/sha1.c $side target/staticlib/libbench_fields.a -lcrypto
exec target/bench/box
