#!/usr/bin/env bash
# Builds the archive, and runs the tests of the callers in C, Python, Rust and Go over it. Each says what it did; where its tools are
# missing, it says so and passes. bindings/rust/test.sh says at its head what it can be told.
#
#     bindings/test.sh             makes the archive first
#     bindings/test.sh ARCHIVE     takes one that was made before, of the name liblp_c.a
set -eu
here=$(cd "$(dirname "$0")" && pwd)
"$here/build.sh" "$@"
archive=$(realpath "${1:-$(dirname "$here")/crates/lp_c/out/liblp_c.a}")
"$here/c/test.sh" "$archive"
"$here/python/test.sh" "$archive"
LP_LIB_DIR=$(dirname "$archive") "$here/rust/test.sh"
"$here/go/test.sh" "$archive"
