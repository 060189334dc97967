#!/usr/bin/env bash
# Compares what the Go package of bindings/go reads with what InfluxDB 1.x's ParsePoints reads, line by line and in each dialect. What they
# read differently is of a kind in bindings/go/testdata/differences.tsv, or this fails. The texts are the examples of that table, those of
# the table of answers, lines of the bench's corpora, and 20,000 random ones. It also sees that each of 100,000 hostile lines that is portable
# to InfluxDB 1.x is read alike (checks/golang/portable_test.go).
#
#   checks/go_beside.sh [ARCHIVE]                     these texts
#   checks/go_beside.sh --fuzz SECONDS [ARCHIVE]      then, for so long, also what Go's fuzzer makes of them, on GOMAXPROCS processors
#
# ARCHIVE: the library; if none is named, it is made first. The parser is built by Go without modules, without a network, from Debian's
# golang-github-influxdb-influxdb-dev, installed, or unpacked as bin/setup does. If it or Go is missing, that is named, and the status
# is 0.
set -eu
here=$(cd "$(dirname "$0")" && pwd)
top=$(dirname "$here")
. "$here/left_out.sh"
seconds=0
if [ "${1-}" = --fuzz ]; then
    seconds=$2
    shift 2
fi
. "$here/golang.sh"
lacking=$(golang_lacks)
[ -z "$lacking" ] || { left_out checks/go_beside.sh "$lacking" && exit; }
[ $# != 0 ] || "$top/bindings/build.sh" >/dev/null
archive=${1:-$top/crates/lp_c/out/liblp_c.a}
built=$(mktemp -d)
trap 'chmod -R u+w "$built"; rm -rf "$built"' EXIT
if command -v python3 >/dev/null; then
    python3 -B "$top/bench/corpora.py" --seed beside --size 4000 --out "$built/corpora" \
        telegraf iot escapes strings faulty short booleans u64 quotes negatives >/dev/null
else
    left_out "corpora of checks/go_beside.sh" "there is no python3"
fi
export LP_CORPORA=$built/corpora
prepare_golang "$archive"
try vet .
try test -v .
echo "go_beside: $(sed -n 's/.*\(differences.tsv: .*\)/\1/p' "$built/log"); nothing else differs from ParsePoints"
echo "go_beside: $(sed -n 's/.*portable: \(.* random texts, .*\)/\1/p' "$built/log")"
if [ "$seconds" != 0 ]; then
    try test -run '^$' -fuzz FuzzBesideParsePoints -fuzztime "${seconds}s" .
    echo "go_beside: nor in $(grep -o 'execs: [0-9]*' "$built/log" | tail -n 1 | cut -d ' ' -f 2) texts of the fuzzer"
fi
