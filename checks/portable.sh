#!/usr/bin/env bash
# Compares the verdicts that rows of the library tell with the verdicts of portable.py, which knows no code of the library: on each text of
# portable_rows.txt, and on random hostile texts. verdicts.py prints the verdicts of the library. If there is a package for JavaScript, its
# `brokenClauses` must tell the same of each text.
#
#     checks/portable.sh                                    makes the archive of crates/lp_c first
#     checks/portable.sh ARCHIVE [COUNT [SEED [PACKAGE]]]   takes an archive that was made before; COUNT texts, 100,000 if it is not given;
#                                                           PACKAGE, a folder that has the package for JavaScript with its module
set -eu
here=$(cd "$(dirname "$0")" && pwd)
top=$(dirname "$here")
. "$here/left_out.sh"
has_tools checks/portable.sh "${CC:-cc}" python3 || exit 0
archive=${1-}
if [ -z "$archive" ]; then
    . "$here/library.sh"
    build_library lp_c
fi
count=${2:-100000} seed=${3:-1} package=${4-}
if [ -z "$package" ] || [ ! -f "$package/lp_page.wasm" ] || ! "$here/page.sh" --can-run; then
    left_out "brokenClauses by checks/portable.sh" "there is no package for JavaScript, or no Node 20 or later"
    package=
fi
made=$(mktemp -d)
trap 'rm -rf "$made"' EXIT
"${CC:-cc}" -O2 -shared -fPIC -I"$top/include" "$top/bindings/c/heap.c" -Wl,--whole-archive "$archive" -Wl,--no-whole-archive -o "$made/lp_c.so"

# same WHAT WHO: ends with status 1 unless `given` has the verdicts of `wanted`.
same() {
    local line
    if cmp -s "$made/wanted" "$made/given"; then return; fi
    line=$(diff --unchanged-line-format= --old-line-format='%dn
' --new-line-format= "$made/wanted" "$made/given" | head -1)
    echo "portable: of $1 the oracle says $(sed -n "${line}p" "$made/wanted"), $2 $(sed -n "${line}p" "$made/given"), of the text" >&2
    sed -n "${line}p" "$made/texts" | cut -c 1-2000 >&2
    exit 1
}

# compare WHAT ARGUMENTS..: compares the verdicts on the texts that portable.py prints with these arguments.
compare() {
    local what=$1
    shift
    python3 -B "$here/portable.py" "$@" >"$made/texts"
    python3 -B "$here/portable.py" <"$made/texts" >"$made/wanted"
    python3 -B "$here/verdicts.py" "$made/lp_c.so" <"$made/texts" >"$made/given"
    same "$what" "the library"
    [ -n "$package" ] || return 0
    node "$here/page/in_node.mjs" "$package" --bits <"$made/texts" >"$made/given"
    same "$what" "brokenClauses in JavaScript"
}

python3 -B "$here/portable.py" --check
compare "a row" --rows
rows=$(wc -l <"$made/texts")
compare "a random text" --random "$seed" "$count"
echo "portable: the verdicts${package:+, those of JavaScript too,} on $rows rows and on $count random texts of seed $seed are those of the oracle, which says that" \
    "$(grep -cx 0 "$made/wanted") of these break nothing, and $(grep -cx 1 "$made/wanted") are no lines"
