#!/usr/bin/env bash
# Builds the programs and the static library for Linux on ARM64, for bin/dist:
#
#     packaging/arm64/build.sh FOLDER
#
# FOLDER then has lp_rebuild_program, lp_relay_program, lp_series_program, liblp_c.a, and `verdicts`: what the kit says of each crate.
# `rt` links for x86-64 alone. So each crate is proved and compiled as `rt` does it, but for ARM64, and linked here by
# aarch64-linux-gnu-gcc, or what CC names, with os.c in the place of the kit's C. All is proved and built for x86-64 first, if it was not
# built from these sources: of the libraries below the kit keeps proved code, which is compiled with the crate for any processor, and of the
# crate what was proved, so that it is not proved twice.
set -euo pipefail
. "$(dirname "$(readlink -f "$0")")/../../launch.sh"
here=$top/packaging/arm64
target=aarch64-unknown-linux-gnu

# compile CRATE FILE [FLAG..]: proves a crate and compiles it into FILE. What is said of it comes into `verdicts`.
compile() {
    local crate=$1 low source=src/lib.rt below=() words=()
    for low in std $(line_of "$crate" | cut -d : -f 2); do
        words+=(--extern "$low=$(if [ -d "$top/crates/$low" ]; then echo "$top/crates/$low/out/rlib"; else echo "$kit/rlibs"; fi)/$low.rlib")
    done
    add_below "$crate"
    for low in "${below[@]}"; do words+=(-L "dependency=$top/crates/$low/out/rlib"); done
    [ ! -f "$top/crates/$crate/src/main.rt" ] || source=src/main.rt
    (cd "$top/crates/$crate" && rattle build --crate-name "$crate" "$source" "${words[@]}" -L "dependency=$kit/rlibs" --links "$crate=" \
        --antt-project "$kit/rattle/logic/antt-project.json" --logic-built "$kit/logic_built" --toolchain "$kit/toolchain" --jobs "${RT_JOBS:-2}" \
        --incremental out/incremental --target "$target" -o "$2" "${@:3}") >"$made/log" 2>&1 || { cat "$made/log" >&2; echo "arm64: $crate was not built" >&2; exit 1; }
    sed -n "s/^logic=/$crate: &/p" "$made/log" >>"$made/verdicts"
}

[ $# = 1 ] || { echo "usage: packaging/arm64/build.sh FOLDER" >&2; exit 2; }
cc=${CC:-aarch64-linux-gnu-gcc}
command -v "$cc" >/dev/null || { echo "arm64: there is no $cc, which links the programs; Debian's package gcc-aarch64-linux-gnu has it" >&2; exit 1; }
crates=(lp_rebuild_program lp_relay_program lp_series_program lp_c)
build_if_changed arm64 "${crates[@]}" || exit 1
kit=$(kit)
made=$(mktemp -d)
trap 'rm -rf "$made"' EXIT
verdicts "${crates[@]}" | grep -v "^\(lp_c\|lp_[a-z]*_program\): " >"$made/verdicts" || true
compile lp_c "$made/liblp_c.a" --crate-type staticlib
for crate in "${crates[@]:0:3}"; do
    compile "$crate" "$made/$crate.o"
    "$cc" -O2 -Wl,-z,relro,-z,now "$made/$crate.o" "$here/os.c" "$top/bindings/c/heap.c" -lm -o "$made/$crate"
done
mkdir -p "$1"
cp "$made"/{"${crates[0]}","${crates[1]}","${crates[2]}",liblp_c.a,verdicts} "$1"
