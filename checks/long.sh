#!/usr/bin/env bash
# What takes long and is run by hand, beside the test command:
#
#   checks/long.sh [SECONDS]    what is installed; a relay of more than 2^32 bytes; the tables and the shell lines of docs/INTEROP.md;
#                               what servers make of portable lines, by a seed of the day; relays by Slurm and by ssh; columns by
#                               Dask; the tests of the Python package under the address sanitizer; the fuzzer for so many seconds, 600
#                               if none are given; the Go module beside ParsePoints, by Go's fuzzer for a minute; what ParsePoints
#                               reads beside its definition, over millions of texts; a million generated texts, compared with the
#                               Rust crate; a million hostile texts, whose verdicts the library and JavaScript tell as the oracle
#                               does; and all rows of tables/bugs.tsv
set -eu
here=$(cd "$(dirname "$0")" && pwd)
"$here/dist.sh"
"$here/../lp_rebuild" </dev/null
"$here/../lp_relay" </dev/null
relay=$here/../crates/lp_relay_program/out/lp_relay_program
"$here/large.sh" "$here/../crates/lp_rebuild_program/out/lp_rebuild_program" "$relay"
"$here/interop.sh" "$relay"
"$here/servers.sh" "$here/../crates/lp_c/out/liblp_c.a" "$(date +%Y%m%d)"
"$here/engines.sh" "$relay"
"$here/dask.sh"
WATCHED=1 "$here/../bindings/python/test.sh"
"$here/fuzz.sh" "${1:-600}"
"$here/go_beside.sh" --fuzz 60
"$here/influx.sh"
"$here/differential.sh" 1000000
package=$(mktemp -d)
trap 'rm -rf "$package"' EXIT
"$here/../packaging/page/build.sh" "$package"
"$here/portable.sh" "$here/../crates/lp_c/out/liblp_c.a" 1000000 "$(date +%Y%m%d)" "$package/influxdb-line-protocol-js"
"$here/bugs.py" --all
