#!/bin/sh
# Builds the proved calls as a shared library, target/conformance/libridgeladle.so.
set -eu
cd "$(dirname "$0")/.."
tests/staticlib
mkdir -p target/conformance
cc -shared -o target/conformance/libridgeladle.so -Wl,--whole-archive target/staticlib/libc_abi.a -Wl,--no-whole-archive
