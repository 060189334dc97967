#!/usr/bin/env bash
# Compares what events tell, what blocks of crates/lp_c have, and where the splitter cuts, over every short text of bytes that mean something
# (events.py). And lets newline_delimited.py compare what is given in the third dialect with what each line gives alone, and keys.py the keys
# of series with Python's own.
set -eu
top=$(cd "$(dirname "$0")/.." && pwd)
. "$top/checks/library.sh"
begin lp_checks lp_c
share_library "$built/lp_checks.so" "$top"/checks/{rows,events}.c
for program in events newline_delimited keys; do
    python3 -B "$top/checks/$program.py" "$built/lp_checks.so"
done
