#!/usr/bin/env bash
# Relays short and large texts by many settings, and compares the time of each call that reads with that of a text of a tenth: `sizes.py`
# says what should come.
set -eu
top=$(cd "$(dirname "$0")/.." && pwd)
. "$top/checks/library.sh"
begin lp_checks lp_c
share_library "$built/lp_checks.so" "$top/checks/rows.c"
python3 -B "$top/checks/sizes.py" "$built/lp_checks.so"
