#!/bin/sh
# Builds the plain C box as a shared library, target/box/libplain.so. No two steps of a float are made one.
set -eu
cd "$(dirname "$0")/.."
mkdir -p target/box
cc -std=c99 -Wall -Wextra -ffp-contract=off -shared -fPIC -O2 -o target/box/libplain.so bench/box.c bench/sha1.c
