#!/bin/sh
# Fuzzes the answering call for T seconds (60 if not said), over a corpus in target/fuzz that is kept from run to run.
# PLAIN_TWICE=1 puts the plain box on both sides, to try the target where crate abi is not proved.
set -eu
cd "$(dirname "$0")/.."
tests/need clang clang
tests/need "$(clang -print-file-name=libclang_rt.fuzzer-x86_64.a)" libclang-rt-dev
if [ "${PLAIN_TWICE:-}" ]; then
    side=-DPLAIN_TWICE
else
    tests/staticlib
    side=target/staticlib/libc_abi.a
fi
mkdir -p target/fuzz/corpus target/fuzz/found
fuzz/seeds.py target/fuzz/seeds
clang -g -O2 -std=gnu99 -Wall -Wextra -ffp-contract=off -fsanitize=fuzzer,address -o target/fuzz/answer \
    fuzz/answer.c bench/box.c bench/sha1.c $side
log=target/fuzz/log
if ! target/fuzz/answer -max_total_time="${T:-60}" -max_len=9400 -artifact_prefix=target/fuzz/found/ -print_final_stats=1 \
    target/fuzz/corpus target/fuzz/seeds >$log 2>&1; then
    tail -60 $log
    exit 1
fi
grep -E '^(stat::|#[0-9]+.DONE)' $log
echo "fuzz: nothing found"
