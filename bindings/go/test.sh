#!/usr/bin/env bash
# Tests the Go package of this folder over the static library of crates/lp_c: its own tests, the table of answers and its examples, as they
# are, beside the race detector, and with each pointer watched that goes to C; refuses each request for memory in turn; looks at it by gofmt and
# vet; makes the program of docs/BINDINGS.md as the page says; and compares it with
# ParsePoints by checks/go_beside.sh.
#
#     bindings/go/test.sh             makes the archive first
#     bindings/go/test.sh ARCHIVE     takes one that was made before
set -eu
here=$(cd "$(dirname "$0")" && pwd)
top=$(dirname "$(dirname "$here")")
. "$top/checks/left_out.sh"
if ! command -v go >/dev/null; then
    left_out bindings/go "there is no go"
    exit 0
fi
[ $# != 0 ] || "$(dirname "$here")/build.sh" >/dev/null
archive=${1:-$top/crates/lp_c/out/liblp_c.a}
built=$(mktemp -d)
trap 'chmod -R u+w "$built"; rm -rf "$built"' EXIT
cp "$archive" "$built/liblp_c.a"
export GOCACHE=$built/cache GOPATH=$built/path GOFLAGS=-tags=lp_lib_dir GOPROXY=off CGO_ENABLED=1 CGO_LDFLAGS="-L$built"
cd "$here"

# Runs a command of go, and tells what it says only if it fails.
try() {
    if ! "$@" >"$built/log" 2>&1; then
        cat "$built/log" >&2
        echo "go: $* failed" >&2
        exit 1
    fi
}
unformatted=$(gofmt -l . "$top/checks/golang" "$top/bench/golang" "$top/gateway")
if [ -n "$unformatted" ]; then
    echo "go: gofmt lays these files out otherwise: $unformatted" >&2
    exit 1
fi
try go vet .
try go test -v .
tests=$(grep -c '^--- PASS' "$built/log")
if [ "$(grep -c '^--- PASS: Example' "$built/log")" != "$(cat ./*_test.go | grep -c '^func Example')" ]; then
    echo "go: an example was not run: a blank line comes before what it prints" >&2
    exit 1
fi
answers=$(sed -n 's/.*\(answers.tsv: .*\)/\1/p' "$built/log")
try env GODEBUG=cgocheck=2 go test .
watched="cgocheck"
try go test -tags lp_lib_dir,lp_refuse -run TestRefused .
printf 'package main\n\nfunc main() {}\n' >"$built/nothing.go"
if go run -race "$built/nothing.go" >"$built/log" 2>&1; then
    try go test -race -timeout 30m .
    watched+=" and the race detector"
else
    left_out "race detector of Go" "$(tail -n 1 "$built/log")"
fi
# The program of docs/BINDINGS.md is made in an empty folder, as the page says.
part_of_page() {
    sed -n '/^## Go$/,/^## /p' "$top/docs/BINDINGS.md" | sed -n "/^\`\`\`$1\$/,/^\`\`\`\$/ { /^\`\`\`/d; p; }"
}
mkdir -p "$built/home/lines/crates/lp_c/out" "$built/empty"
ln -s "$top/bindings" "$top/include" "$built/home/lines/"
ln -s "$built/liblp_c.a" "$built/home/lines/crates/lp_c/out/"
part_of_page sh >"$built/page.sh"
part_of_page text >"$built/wanted"
if [ ! -s "$built/wanted" ] || ! (cd "$built/empty" && env -u GOFLAGS -u CGO_LDFLAGS HOME="$built/home" bash -e "$built/page.sh") >"$built/said" 2>"$built/log" ||
    ! cmp -s "$built/said" "$built/wanted"; then
    cat "$built/log" "$built/said" >&2
    echo "go: the program of docs/BINDINGS.md does not print what the page says" >&2
    exit 1
fi
echo "go: $answers"
echo "go: $tests tests and examples passed, also watched by $watched, with $(go version | cut -d ' ' -f 3)"
"$top/checks/go_beside.sh" "$built/liblp_c.a"
