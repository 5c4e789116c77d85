#!/bin/sh
# Measures the stack of the answering call, of SHA-1 and of HMAC on a painted one, and reads the frames of a digest's functions off the library.
# All names are bound at the start (-z now): bound at its first use, memcpy has the dynamic linker look it up, on the stack that is measured.
set -eu
cd "$(dirname "$0")/.."
tests/staticlib
mkdir -p target/bench
for program in stack digest_stack; do
    clang -O2 -Wall -Wextra -Wl,-z,now -o target/bench/$program bench/$program.c target/staticlib/libc_abi.a -lpthread
    target/bench/$program
done
bench/frames.py target/staticlib/libc_abi.a
