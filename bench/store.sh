#!/bin/sh
# Measures the proved store against plain C (clang -O3), in one run.
set -eu
cd "$(dirname "$0")/.."
tests/staticlib bench_store
mkdir -p target/bench
clang -O3 -o target/bench/store bench/store_bench.c bench/store.c target/staticlib/libbench_store.a
exec target/bench/store
