#!/usr/bin/env bash
# Compares what servers store of texts, and of the lines that lp_relay makes of them, rebuilt, verbatim and canonical, with the tables of
# docs/INTEROP.md: servers/measure.py says what else is compared. writers.py compares what writers in Python write with the page.
#
#   checks/interop.sh RELAY            compares with the page
#   checks/interop.sh --write RELAY    writes the tables into the page
#   checks/interop.sh --print RELAY    prints the tables, as Markdown
#
# RELAY: a built lp_relay. The servers are influxd, of InfluxDB 1.x, and victoria-metrics, which have their data in a temporary folder. The
# parser of InfluxDB 1.x is built by `go`, without a network, from Debian's golang-github-influxdb-influxdb-dev, and reads the same. What is
# missing is left out, and is named; the tables are written or printed only if nothing is missing.
set -euo pipefail
here=$(cd "$(dirname "$0")" && pwd)
. "$here/left_out.sh"
. "$here/golang.sh"
mode=()
case ${1:-} in
--write | --print)
    mode=("$1")
    shift
    ;;
esac
if [ $# != 1 ] || [ ! -x "$1" ]; then
    echo "usage: checks/interop.sh [--write | --print] RELAY" >&2
    exit 2
fi
relay=$(readlink -f "$1")
has_tools checks/interop.sh python3 || exit 0
work=$(mktemp -d)
trap 'rm -rf "$work"' EXIT
readers=()

# The version of one of Debian's packages: as it is installed, or else as bin/setup unpacks it.
version_of() {
    # shellcheck disable=SC2016
    dpkg-query -W -f '`${Package}` ${Version}' "$1" 2>/dev/null ||
        apt-cache show --no-all-versions "$1" 2>/dev/null | awk '/^Package: /{ name = $2 } /^Version: /{ print "`" name "` " $2 }' | grep . ||
        echo "not of Debian's \`$1\`"
}

# Builds the parser of InfluxDB.
build_parser() {
    local go=(env GO111MODULE=off GOPROXY=off GOFLAGS= GOPATH="$sources" GOCACHE="$work/cache" go)
    "${go[@]}" build -o "$work/parser" "$here/interop.go" >"$work/log" 2>&1 || {
        tail -n 20 "$work/log" >&2
        echo "interop: checks/interop.go was not built" >&2
        exit 1
    }
    readers+=("parser=$(version_of golang-github-influxdb-influxdb-dev)=$work/parser")
}

! has_tools "InfluxDB of docs/INTEROP.md" influxd || readers+=("influx=$(version_of influxdb)")
lacking=$(golang_lacks)
if [ -n "$lacking" ]; then left_out "the parser of docs/INTEROP.md" "$lacking"; else build_parser; fi
! has_tools "VictoriaMetrics of docs/INTEROP.md" victoria-metrics || readers+=("victoria=$(version_of victoria-metrics)")
# The Python that has the writers: this one, or Debian's.
python=python3
"$python" -c 'import influxdb' 2>/dev/null || python=/usr/bin/python3
[ ${#mode[@]} != 0 ] || "$python" -B "$here/writers.py"
mkdir "$work/data"
python3 -B "$here/servers/measure.py" "${mode[@]}" "$work/data" "$relay" "${readers[@]}"
