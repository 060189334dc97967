#!/usr/bin/env bash
# Tests the package for JavaScript in Node, and the page in Chromium: the table of answers in both, also as the cards show it; the text of each
# card of the examples; faults and their places, beside those of lp_relay, if that is built; the items of random texts in parts, with limits,
# beside a model; that the module with 32-bit memory gives what the proved one gives; `require`, and bundles by esbuild and rollup, in Chromium;
# each control, by clicks and by the keyboard alone; 10 MB of pasted text; and that the console says nothing, and nothing is fetched. What is
# portable is compared by checks/portable.sh.
#
#     checks/page.sh [FOLDER [PICTURES]]
#     checks/page.sh --can-run              status 0 if the package can be made and run: there are wasm-opt and Node 20 or later
#
# FOLDER is one that packaging/page/build.sh made; without it one is made. PICTURES is a folder for pictures of each example at two widths, light
# and dark; without it they are thrown away. LP_RELAY names a built lp_relay; without it that of this repository is taken.
set -euo pipefail
here=$(cd "$(dirname "$0")" && pwd)
top=$(dirname "$here")
. "$here/left_out.sh"
node=$(node -p 'process.versions.node.split(".")[0]' 2>/dev/null) || node=0
can_run=$((node >= 20)) && command -v wasm-opt >/dev/null || can_run=0
[ "${1-}" != --can-run ] || exit $((can_run == 0))
if [ "$can_run" = 0 ]; then
    left_out checks/page.sh "there is no Node 20 or later, or no wasm-opt"
    exit 0
fi
work=$(mktemp -d)
trap 'rm -rf "$work"' EXIT
folder=${1-$work/made} pictures=${2-$work/pictures}
[ $# != 0 ] || "$top/packaging/page/build.sh" "$folder"
mkdir -p "$pictures"
package=$(realpath "$folder")/influxdb-line-protocol-js table=$top/checks/tables/answers.tsv
size=$(stat -c %s "$package/lp_page.wasm")
if [ "$size" -gt 150000 ]; then
    echo "page: the module has $size bytes, where it may have 150,000: without vectors it had 191,080" >&2
    exit 1
fi
echo "page: the module has $size bytes, and the page $(stat -c %s "$folder/try.html")"
relay=${LP_RELAY:-$top/crates/lp_relay_program/out/lp_relay_program}
[ -x "$relay" ] || { relay='' && left_out "faults by checks/page.sh" "lp_relay is not built"; }
node "$here/page/in_node.mjs" "$package" "$table" ${relay:+"$relay"}
node "$here/page/streams.mjs" "$package"
node "$here/page/memory.mjs" "$package"
wide=--experimental-wasm-memory64
[ "$node" -lt 24 ] || wide=--no-warnings
node "$wide" "$here/page/both.mjs" "$package" 20000
if command -v tsc >/dev/null; then
    mkdir -p "$work/node_modules"
    ln -s "$package" "$work/node_modules/influxdb-line-protocol"
    cp "$here/page/types.ts" "$work/types.ts"
    echo 'import { parse } from "influxdb-line-protocol"; for (const item of parse("m f=1")) console.log(item);' >"$work/types.cts"
    echo '{"type":"module"}' >"$work/package.json"
    (cd "$work" && tsc --noEmit --strict --target es2022 --module nodenext --moduleResolution nodenext --lib es2022,dom,dom.iterable types.ts types.cts)
    echo "page: the types take a program that uses each call, says $(tsc --version)"
else
    left_out "types of bindings/js" "there is no tsc"
fi
corpus=()
if python3 "$top/bench/corpora.py" --seed page --size 8000000 --out "$work" telegraf >/dev/null 2>&1; then
    corpus=("$work/telegraf.lp")
    node "$here/page/speed.mjs" "$package" "${corpus[0]}"
fi
chromium=$(command -v chromium || command -v chromium-browser || command -v google-chrome) || chromium=
if command -v esbuild >/dev/null && command -v rollup >/dev/null; then
    node "$here/page/bundles.mjs" "$package" "$work/bundles" ${chromium:+"$chromium"}
else
    left_out "bundles of bindings/js" "there is no esbuild or no rollup"
fi
if [ -n "$chromium" ]; then
    node "$here/page/in_chromium.mjs" "$chromium" "$(realpath "$folder/try.html")" "$table" "$(realpath "$pictures")" "${corpus[@]}"
else
    left_out "the page by checks/page.sh" "there is no Chromium"
fi
