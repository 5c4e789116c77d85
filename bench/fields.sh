#!/bin/sh
# Builds and runs bench/fields.c: decoding by the proved code and by nanopb, on the same bytes in one run.
# nanopb is Debian's (nanopb, libnanopb-dev), with protobuf-compiler; bench/run installs what is missing.
set -eu
cd "$(dirname "$0")/.."
out=target/bench
mkdir -p $out
tests/staticlib bench_fields
protoc --proto_path=tests --nanopb_opt="-f$PWD/bench/fields.options" --nanopb_out=$out kinetic.proto
clang -O3 -I$out bench/fields.c $out/kinetic.pb.c target/staticlib/libbench_fields.a -lprotobuf-nanopb -o $out/fields
$out/fields "$(python3 tests/fields.py --hex put)"
