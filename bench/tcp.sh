#!/bin/sh
# Measures the box over TCP against Redis, and the shares of the disk and of the library's call in a request, in one run.
set -eu
cd "$(dirname "$0")/.."
host/build --bins --examples
exec bench/tcp.py "$@"
