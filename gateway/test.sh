#!/usr/bin/env bash
# Tests lp_gateway over the static library of crates/lp_c: `serve` and `send` with stubs in the place of servers, beside the race detector too, and the
# spool and its senders over a disk that forgets, by 3,000 random histories. Looks at the sources by gofmt and vet.
#
#     gateway/test.sh             makes the archive first
#     gateway/test.sh ARCHIVE     takes one that was made before
set -eu
here=$(cd "$(dirname "$0")" && pwd)
top=$(dirname "$here")
. "$top/checks/left_out.sh"
has_tools gateway go cc || exit 0
[ $# != 0 ] || "$top/bindings/build.sh" >/dev/null
built=$(mktemp -d)
trap 'chmod -R u+w "$built"; rm -rf "$built"' EXIT
cp "${1:-$top/crates/lp_c/out/liblp_c.a}" "$built/liblp_c.a"
export GOCACHE=$built/cache GOPATH=$built/path GOFLAGS=-tags=lp_lib_dir GOPROXY=off CGO_ENABLED=1 CGO_LDFLAGS="-L$built"
cd "$here"

# Runs a command of go, and tells what it says only if it fails.
try() {
    if ! "$@" >"$built/log" 2>&1; then
        cat "$built/log" >&2
        echo "gateway: $* failed" >&2
        exit 1
    fi
}
unformatted=$(gofmt -l .)
if [ -n "$unformatted" ]; then
    echo "gateway: gofmt lays these files out otherwise: $unformatted" >&2
    exit 1
fi
try go vet .
try go test -v -timeout 10m .
tests=$(grep -c '^--- PASS' "$built/log")
watched=''
if strace -o /dev/null true 2>/dev/null; then :; else
    left_out "a run of lp_gateway send that is killed at each call" "there is no strace, or it may not watch"
fi
printf 'package main\n\nfunc main() {}\n' >"$built/nothing.go"
if go run -race "$built/nothing.go" >"$built/log" 2>&1; then
    try go test -race -timeout 20m . -histories 200
    watched=", also watched by the race detector"
else
    left_out "race detector of Go, for gateway" "$(tail -n 1 "$built/log")"
fi
echo "gateway: $tests tests passed$watched"
