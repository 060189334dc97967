#!/usr/bin/env bash
# Refuses each request for memory in turn, fails each call of a device, and looks at what comes: `refusals.py` says what should. The address
# sanitizer of the C compiler watches, where it has one.
set -eu
top=$(cd "$(dirname "$0")/.." && pwd)
. "$top/checks/library.sh"
begin lp_checks lp_c
share_library "$built/lp_checks.so" -Wl,--wrap=malloc,--wrap=realloc,--wrap=free "$top/checks/memory.c"
watched=(env "LD_PRELOAD=$(cc -print-file-name=libasan.so)" PYTHONMALLOC=malloc ASAN_OPTIONS=detect_leaks=0)
if [ "$("${watched[@]}" python3 -c 'print(open("/proc/self/maps").read().count("libasan") > 0)' 2>/dev/null)" != True ]; then
    watched=()
    left_out "address sanitizer" "cc has none, so checks/refusals.sh runs without one"
fi
"${watched[@]}" python3 -B "$top/checks/refusals.py" "$built/lp_checks.so"
