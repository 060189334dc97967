#!/usr/bin/env bash
# Looks for a line that is portable to InfluxDB 1.x or VictoriaMetrics, and that this server reads otherwise than the strict reader, or loses,
# or for which it loses another line. It is measured, not proved, that there is none, so this is done anew with a seed of the day.
#
#   checks/servers.sh ARCHIVE [SEED [COUNT [LINES]]]    COUNT random texts, 5,000,000 if it is not given, and LINES lines, 20,000
#   checks/servers.sh --parsers ARCHIVE [SEED [COUNT]]  the texts alone
#
# The parsers of both, built by go, read the random texts, and ten templates with each word of at most six of ten letters; what they read is
# compared with what the strict reader reads, and so is a sound line that comes after each (checks/golang/portable_test.go). This takes 7
# minutes of processors. Then lines that are portable to a server are posted to it, one by one and in batches of 1,000 (servers/lines.py). Each
# must be answered with 204, and be found by its names as the strict reader reads it: then, after a kill -9, and after a clean restart. Where
# a series has another portable spelling, a line of it follows. InfluxDB waits for the device at each request, so with TMPDIR=/dev/shm it is
# faster: 5 minutes for both.
#
# ARCHIVE: the library for C. The parsers are in Debian's golang-github-influxdb-influxdb-dev and
# golang-github-victoriametrics-victoriametrics-dev; `bin/setup --servers` unpacks them, and installs the servers. What is missing is
# left out, and is named.
set -eu
here=$(cd "$(dirname "$0")" && pwd)
top=$(dirname "$here")
. "$here/left_out.sh"
. "$here/golang.sh"
parsers=false
if [ "${1-}" = --parsers ]; then
    parsers=true
    shift
fi
if [ $# = 0 ] || [ ! -f "$1" ]; then
    echo "usage: checks/servers.sh [--parsers] ARCHIVE [SEED [COUNT [LINES]]]" >&2
    exit 2
fi
archive=$(readlink -f "$1")
lacking=$(golang_lacks)
[ -z "$lacking" ] || { left_out checks/servers.sh "$lacking" && exit; }
export LP_SEED=${2:-1} LP_PORTABLE=${3:-5000000} LP_SHORT=${LP_SHORT:-6} LP_LINES=0
lines=${4:-20000}
work=$(mktemp -d)
built=$work/built
trap 'chmod -R u+w "$work"; rm -rf "$work"' EXIT

# Builds the program that reads texts by all parsers that are here.
mkdir -p "$built/path/src"
tags=
if parser=$(source_of github.com/VictoriaMetrics/VictoriaMetrics/lib/protoparser/influx); then
    tags=victoria
    mkdir "$built/path/src/victoria"
    cp "$parser/parser.go" "$built/path/src/victoria"
else
    left_out "the parser of VictoriaMetrics of checks/servers.sh" "there is no golang-github-victoriametrics-victoriametrics-dev"
fi
prepare_golang "$archive" "$tags"
try test -c -o "$work/beside" .

# beside TEST: runs a test of the program, which tells how far it is, and what it found.
beside() {
    if ! "$work/beside" -test.run "^$1\$" -test.v -test.timeout 6h >"$work/log"; then
        grep -a -v '^=== RUN' "$work/log" | head -n 40 | cut -c 1-2000 >&2
        exit 1
    fi
    sed -n 's/^ *[a-z]*_test.go:[0-9]*: /servers: /p' "$work/log"
}
beside TestPortable
! "$parsers" || exit 0

mkdir "$work/lines"
LP_LINES=$lines LP_FOLDER=$work/lines beside TestLines
readers=()
for reader in influx victoria; do
    program=$([ "$reader" = influx ] && echo influxd || echo victoria-metrics)
    if [ -f "$work/lines/$reader" ] && has_tools "$reader of checks/servers.sh" "$program"; then readers+=("$reader"); fi
done
[ ${#readers[@]} = 0 ] || python3 -B "$here/servers/lines.py" "$work/lines" "${readers[@]}"
