#!/bin/sh
# Prints try.html, with all that it needs in it:
#
#     packaging/page/make.sh MODULE VERSION
#
# MODULE is lp_page_32.wasm. The calls of bindings/js/core.js are in the page as a text, of which its worker is made: so it needs no web server.
set -eu
[ $# = 2 ] || { echo "usage: packaging/page/make.sh MODULE VERSION" >&2; exit 2; }
here=$(cd "$(dirname "$0")" && pwd)
made=$(mktemp -d)
trap 'rm -rf "$made"' EXIT
base64 -w 0 "$1" >"$made/module"
sed 's/^export //' "$here/../../bindings/js/core.js" >"$made/core.js"
if grep -l '</script' "$made/core.js" "$here/worker.js" "$here/page.js" >&2; then
    echo "page: these files cannot stand in a page" >&2
    exit 1
fi
awk -v folder="$made" -v here="$here" -v version="$2" '
    function put(file, line) { while ((getline line <file) > 0) print line; close(file) }
    $0 == "@STYLE@" { put(here "/style.css"); next }
    $0 == "@CORE@" { put(folder "/core.js"); next }
    $0 == "@WORKER@" { put(here "/worker.js"); next }
    $0 == "@PAGE@" { put(here "/page.js"); next }
    /@MODULE@/ { getline module <(folder "/module"); at = index($0, "@MODULE@"); print substr($0, 1, at - 1) module substr($0, at + 8); next }
    { sub(/@VERSION@/, version); print }
' "$here/page.html"
