#!/bin/sh
# Builds examples/box.c with gcc and with clang against the proved calls, runs it, and compares its lines with examples/box.expected.
set -eu
cd "$(dirname "$0")/.."
tests/need clang clang
tests/staticlib
mkdir -p target/examples
for cc in gcc clang; do
    "$cc" -std=c99 -Wall -Wextra -Wpedantic -Werror -O2 -Iinclude -o "target/examples/box_$cc" examples/box.c target/staticlib/libc_abi.a
    "target/examples/box_$cc" | diff - examples/box.expected
    echo "$cc: examples/box.c, $(wc -l < examples/box.expected) lines as tests/box_expected.py works them out"
done
