#!/usr/bin/env bash
# What to run after an edit: `checks/quick.sh CRATE`. It takes less than five minutes if the crate, and those below it, were proved here before.
#
#   1. `rt check` proves the crate.
#   2. `checks/bugs.py --some CRATE` tries bugs of the crate for at most 90 seconds, those that were tried longest ago.
#   3. Rows. Of `lp_c` and `lp_checks` the archive is built, and `bindings/c/test.sh` or `checks/tables.sh` runs over it. Over any other crate
#      no archive is proved: the first of `programs` that uses the crate must print its `stdout` for its `stdin`, unproved.
#   4. `checks/documents.py`.
#
# It stops at the first that fails. All other checks, and the proofs of the crates above, are for `./test.sh`.
set -euo pipefail
cd "$(dirname "$0")/.."
. ./launch.sh
. checks/left_out.sh
programs=(lp_examples lp_relay_program lp_series_program lp_rebuild_program)
crate=${1-}
if [ $# != 1 ] || ! line_of "$crate" >/dev/null; then
    echo "usage: checks/quick.sh CRATE, with a crate of crates.txt" >&2
    exit 2
fi
need_kit quick && need quick python3 || exit

# Compares what a program prints for its `stdin` with its `stdout`. The status is that of the comparison, since a program has its own.
compare() { (cd "crates/$1" && { rt try <stdin || true; } | diff stdout - && echo "quick: $1 prints its stdout"); }

# Whether a program uses the crate.
uses() (below=() && add_below "$1" && [[ " ${below[*]} " == *" $crate "* ]])

(cd "crates/$crate" && rt check </dev/null)
checks/bugs.py --some "$crate"
case $crate in
lp_c) bindings/c/test.sh ;;
lp_checks) checks/tables.sh ;;
*)
    for program in "${programs[@]}" ''; do ! uses "$program" || break; done
    if [ -n "$program" ]; then compare "$program"; else left_out "rows of $crate" "no program uses it"; fi
    ;;
esac
checks/documents.py
