#!/usr/bin/env bash
# Compares each row of checks/tables with what the library gives: `tables.py` says by which calls.
set -eu
top=$(cd "$(dirname "$0")/.." && pwd)
. "$top/checks/library.sh"
begin lp_checks lp_c
share_library "$built/lp_checks.so" "$top/checks/rows.c"
python3 -B "$top/checks/tables.py" "$built/lp_checks.so"
