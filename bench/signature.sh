#!/bin/sh
# Measures SHA-1 and HMAC against plain C (clang -O3), with a ring of sixteen schedule words and with eighty, and against OpenSSL, in one run.
# signature.sh LIBRARY: against the proved code of an earlier libc_digest.a too.
set -eu
if [ $# -gt 0 ]; then
    before=$(realpath "$1")
fi
cd "$(dirname "$0")/.."
tests/staticlib c_digest_c
mkdir -p target/bench
if [ $# -gt 0 ]; then
    objcopy --redefine-sym signature_sha1=before_signature_sha1 --redefine-sym signature_hmac=before_signature_hmac "$before" target/bench/before.a
    set -- -DBEFORE target/bench/before.a
fi
clang -O3 -Wall -Wextra -Wno-deprecated-declarations -o target/bench/signature \
    bench/signature.c bench/sha1.c bench/sha1_eighty.c target/staticlib/libc_digest.a "$@" -lcrypto
target/bench/signature
