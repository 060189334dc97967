#!/usr/bin/env bash
# Times the Go module beside ParsePoints of InfluxDB 1.x, over corpora, and prints a table for README.md.
#
#   bench/go.sh [FILE..]    these files, or corpora of 2 MB: telegraf, iot, escapes, strings and short
#
# It takes Go, `cc`, and Debian's golang-github-influxdb-influxdb-dev. ARCHIVE: the library, by default crates/lp_c/out/liblp_c.a.
set -eu
here=$(cd "$(dirname "$0")" && pwd)
top=$(dirname "$here")
archive=${ARCHIVE:-$top/crates/lp_c/out/liblp_c.a}
built=$(mktemp -d)
trap 'rm -rf "$built"' EXIT
if [ $# = 0 ]; then
    mapfile -t files < <(python3 -B "$here/corpora.py" --seed bench --size 2000000 --out "$built/corpora" telegraf iot escapes strings short)
    set -- "${files[@]}"
fi
cp "$archive" "$built/liblp_c.a"
# The parser is found where Debian has it, by Go without modules.
mkdir -p "$built/path/src/yomskafi.example/lineprotocol" "$built/path/src/golang"
cp -r "$top/bindings/go" "$built/path/src/yomskafi.example/lineprotocol/v3"
cp "$here/golang/main.go" "$built/path/src/golang/"
export GO111MODULE=off GOPATH=$built/path:/usr/share/gocode:/usr/local/share/gocode GOCACHE=$built/cache GOMAXPROCS=1
export CGO_CFLAGS="-O2 -I$top/include -I$top/bindings/c" CGO_LDFLAGS="-L$built"
go build -tags lp_lib_dir -o "$built/times" golang
"$built/times" "$@"
