#!/usr/bin/env bash
# Makes the page and the package for JavaScript, for bin/dist:
#
#     packaging/page/build.sh FOLDER           proves and builds the module of crates/lp_page first
#     packaging/page/build.sh FOLDER BUILT     takes the module lp_page.wasm of the folder BUILT; without one nothing is made
#
# FOLDER then has try.html, the folder influxdb-line-protocol-js, and `verdict`: what the kit says of the crate for WebAssembly, if it was built
# now. The proved module lp_page.wasm has 64-bit memory. wasm-opt, of Debian's package binaryen, makes lp_page_32.wasm of it: the same code with
# 32-bit memory, which each engine can load. The package and the page load that module. `rt` takes no crate for WebAssembly into the gate. So the crate is proved and built for x86-64 as any other, and then proved and compiled
# here for wasm64: of the libraries below the kit keeps proved code, which is compiled for any processor.
set -euo pipefail
. "$(dirname "$(readlink -f "$0")")/../../launch.sh"
here=$top/packaging/page
target=wasm64-unknown-unknown

# Puts into a folder the toolchain of the kit, whose clang then uses the vectors of WebAssembly: without them each of the 16 lanes of a load of
# `lp_scan` is worked on by itself. Each engine that has 64-bit memory has vectors.
take_toolchain() {
    mkdir -p "$1/bin"
    ln -s "$kit/toolchain/lib" "$1"
    ln -s "$kit"/toolchain/bin/* "$1/bin"
    rm "$1/bin/clang"
    printf '#!/bin/sh\nexec "%s" "$@" -msimd128\n' "$kit/toolchain/bin/clang" >"$1/bin/clang"
    chmod +x "$1/bin/clang"
}

# Proves the crate for WebAssembly, and links the module FILE.
compile() {
    local low words=() below=()
    take_toolchain "$made/toolchain"
    for low in std $(line_of lp_page | cut -d : -f 2); do
        words+=(--extern "$low=$(if [ -d "$top/crates/$low" ]; then echo "$top/crates/$low/out/rlib"; else echo "$kit/rlibs"; fi)/$low.rlib")
    done
    add_below lp_page
    for low in "${below[@]}"; do words+=(-L "dependency=$top/crates/$low/out/rlib"); done
    if ! (cd "$top/crates/lp_page" && rattle build --crate-name lp_page src/lib.rt "${words[@]}" -L "dependency=$kit/rlibs" --links lp_page= \
        --antt-project "$kit/rattle/logic/antt-project.json" --logic-built "$kit/logic_built" --toolchain "$made/toolchain" --jobs 2 \
        --incremental out/incremental --crate-type staticlib --target "$target" -o "$made/lp_page.a" &&
        rattle-link --target "$target" --toolchain "$kit/toolchain" -o "$1" "$made/lp_page.a") >"$made/log" 2>&1; then
        cat "$made/log" >&2
        echo "page: lp_page was not built" >&2
        exit 1
    fi
    sed -n 's/^logic=/lp_page: &/p' "$made/log" >"$made/verdict"
}

[ $# = 1 ] || [ $# = 2 ] || { echo "usage: packaging/page/build.sh FOLDER [BUILT]" >&2; exit 2; }
command -v wasm-opt >/dev/null || { echo "page: there is no wasm-opt, which Debian's package binaryen has" >&2; exit 1; }
made=$(mktemp -d)
trap 'rm -rf "$made"' EXIT
if [ -n "${2-}" ]; then
    [ -f "$2/lp_page.wasm" ] || exit 0
    cp "$2/lp_page.wasm" "$made/"
else
    line_of lp_page >/dev/null || exit 0
    build_if_changed page lp_page || exit 1
    kit=$(kit)
    compile "$made/lp_page.wasm"
fi
python3 -B "$here/narrow.py" "$made/lp_page.wasm" "$made/lp_page_32.wasm"
package=$1/influxdb-line-protocol-js
rm -rf "$package"
mkdir -p "$package"
cp "$top"/bindings/js/{core.js,core.d.ts,index.js,index.d.ts,node.js,README.md} "$top"/LICENSE-* "$made"/lp_page{,_32}.wasm "$package/"
cp "$top/bindings/js/index.d.ts" "$package/index.d.cts"
sed 's/^export //' "$top"/bindings/js/{core.js,require.js} >"$package/index.cjs"
sed "s/\"version\": \"[^\"]*\"/\"version\": \"$(version)\"/" "$top/bindings/js/package.json" >"$package/package.json"
chmod -R u=rwX,go=rX "$package"
"$here/make.sh" "$made/lp_page_32.wasm" "$(version)" >"$1/try.html"
[ ! -f "$made/verdict" ] || cp "$made/verdict" "$1/verdict"
