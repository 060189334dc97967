#!/usr/bin/env bash
# Runs bin/take: what comes to an empty folder, to one that has crates and lines of its own, and again; and what is refused.
set -euo pipefail
top=$(cd "$(dirname "$0")/.." && pwd)
made=$(mktemp -d)
trap 'rm -rf "$made"' EXIT
runs=0

# Runs bin/take with these words: it must end with that status.
take() {
    local wanted=$1 status=0
    shift
    "$top/bin/take" "$@" >"$made/log" 2>&1 || status=$?
    runs=$((runs + 1))
    if [ "$status" = "$wanted" ]; then return; fi
    cat "$made/log"
    echo "take: bin/take $* ended with $status, not with $wanted"
    exit 1
}

# What was taken must be as it is here, and each crate must have the licences that stand at the top here.
compare() {
    local crate licence
    for crate in "$@"; do
        diff -r -x out -x must-fail -x 'LICENSE-*' "$top/crates/$crate" "$made/to/crates/$crate"
        for licence in LICENSE-APACHE LICENSE-MIT; do cmp "$top/$licence" "$made/to/crates/$crate/$licence"; done
        [ ! -e "$made/to/crates/$crate/must-fail" ]
        [ "$(grep -cE "^$crate( [^:]*)?:" "$made/to/crates.txt")" = 1 ]
    done
}

library=(lp_format lp_scan lp_split lp_values lp_events lp_lines lp_build lp_written lp_portable influxdb_line_protocol)
mkdir -p "$made/to/crates/app/src"
# The last line ends with the file.
printf '# mine\napp: influxdb_line_protocol\nlp_lines_of_mine: app' >"$made/to/crates.txt"
cd "$made"
take 0 to
compare "${library[@]}"
grep -q '^# mine$' "$made/to/crates.txt"
grep -q '^app:' "$made/to/crates.txt"
grep -q '^lp_lines_of_mine: app$' "$made/to/crates.txt"
[ -d "$made/to/crates/app/src" ]
mkdir "$made/to/crates/lp_scan/out" "$made/to/crates/lp_lines/out"
touch "$made/to/crates/lp_scan/out/mine" "$made/to/crates/lp_lines/out/mine"
take 1 "$made/to"
echo "// mine" >>"$made/to/crates/lp_scan/src/lib.rt"
# One of its crates is not there, and the others are.
take 1 "$made/to" lp_relay
[ ! -e "$made/to/crates/lp_relay" ]
grep -q '^// mine$' "$made/to/crates/lp_scan/src/lib.rt"
# A file that the crate does not have here goes with the old copy.
touch "$made/to/crates/lp_scan/src/of_an_older_state.rt"
# A static library is named in another form. Its line comes once, however often it is taken.
for _ in 1 2; do
    take 0 --update "$made/to" lp_examples lp_c
    compare "${library[@]}" lp_rebuild lp_examples lp_offsets lp_c
done
[ -e "$made/to/crates/lp_scan/out/mine" ] && [ -e "$made/to/crates/lp_lines/out/mine" ]
[ ! -e "$made/to/crates/lp_relay" ]
# A program, with the crates that another program shares with it.
take 0 --update "$made/to" lp_series_program
compare "${library[@]}" lp_rebuild lp_{escapes,conditions,cuts,faults,relay,series,words,places,endings,files,inputs,programs,series_program}
[ ! -e "$made/to/crates/lp_relay_program" ]
# A copy that fails, after three that do not.
mkdir "$made/broken" "$made/half"
printf '#!/bin/sh\ncase "$*" in *-xf*/lp_values) cat >/dev/null; exit 1 ;; esac\nexec %s "$@"\n' "$(command -v tar)" >"$made/broken/tar"
chmod +x "$made/broken/tar"
PATH=$made/broken:$PATH take 1 "$made/half"
[ -z "$(ls -A "$made/half/crates")" ] && [ ! -e "$made/half/crates.txt" ]
# A crate whose folder changes while tar reads it, as where its out/ is made beside.
mkdir -p "$made/copy/crates" "$made/changing" "$made/beside"
cp -r "$top/bin" "$top/launch.sh" "$top/crates.txt" "$top"/LICENSE-* "$made/copy"
cp -r "$top/crates/lp_format" "$made/copy/crates"
printf '#!/usr/bin/env bash\nset -o pipefail\ncase "$*" in *-cf*) %s "$@" | { sleep 0.1; mkdir out.beside; rmdir out.beside; cat; } ;; *) exec %s "$@" ;; esac\n' \
    "$(command -v tar)" "$(command -v tar)" >"$made/changing/tar"
chmod +x "$made/changing/tar"
top=$made/copy PATH=$made/changing:$PATH take 0 "$made/beside" lp_format
take 1 "$made/nowhere"
take 1 "$made/to" no_such_crate
take 1 "$made/to" lp_relay no_such_crate
take 2
take 2 --all "$made/to"
[ -z "$(find "$made/to/crates" -name '.take.*')" ]
echo "take: $runs runs of bin/take"
