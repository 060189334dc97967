#!/usr/bin/env bash
# Compares what InfluxDB 1.x's ParsePoints reads of a line with what `influx_line` of crates/lp_influx reads. The lines of influx_lines.txt
# are statements of that crate, which the gate computes, with what ParsePoints makes of them. The reader, by the calls of crates/lp_checks, is
# run beside ParsePoints over 5,000,000 random texts, and all texts of up to 7 bytes over nine that mean something.
#
#   checks/influx.sh [SEED]          these texts, in some minutes
#   checks/influx.sh --fast [SEED]   100,000 random texts, and all of up to 5 bytes
#   checks/influx.sh --write         writes the statements, and compares nothing
#
# ParsePoints is built by Go without modules, without a network, from Debian's golang-github-influxdb-influxdb-dev, installed, or unpacked as
# bin/setup does. If it or Go is missing, that is named, and the status is 0.
set -euo pipefail
here=$(cd "$(dirname "$0")" && pwd)
. "$here/left_out.sh"
. "$here/golang.sh"
statements=$here/../crates/lp_influx/proofs/WorkedLines.antt
count=5000000 depth=7 writes=false
case ${1-} in
--fast)
    count=100000 depth=5
    shift
    ;;
--write)
    writes=true
    shift
    ;;
esac
seed=${1:-1}
has_tools checks/influx.sh cc || exit 0
lacking=$(golang_lacks)
[ -z "$lacking" ] || { left_out checks/influx.sh "$lacking" && exit; }
top=$(dirname "$here")
. "$here/library.sh"
build_library lp_checks
made=$(mktemp -d)
trap 'rm -rf "$made"' EXIT
if ! env GO111MODULE=off GOPROXY=off GOFLAGS= GOPATH=$sources GOCACHE="${GOCACHE:-$made/cache}" \
    CGO_ENABLED=1 CGO_CFLAGS="-O2 -I$here" CGO_LDFLAGS="$library $heap" go build -o "$made/influx" "$here/influx.go" >"$made/log" 2>&1; then
    tail -n 20 "$made/log" >&2
    echo "influx: checks/influx.go was not built" >&2
    exit 1
fi
"$made/influx" rows <"$here/influx_lines.txt" >"$made/statements"
if $writes; then
    cp "$made/statements" "$statements"
    exit 0
fi
if ! cmp "$made/statements" "$statements" >&2; then
    echo "influx: crates/lp_influx/proofs/WorkedLines.antt is not what ParsePoints reads; checks/influx.sh --write writes it" >&2
    exit 1
fi
echo "influx: ParsePoints reads $(wc -l <"$here/influx_lines.txt") lines as crates/lp_influx states"
"$made/influx" compare "$seed" "$count" "$depth"
