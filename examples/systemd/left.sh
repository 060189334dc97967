#!/bin/sh
# Puts what relays that were killed have left to its place, in the folders of --output and --refused.
#
#   examples/systemd/left.sh FOLDER..
#
# A relay writes NAME.lp beside its place, as NAME.lp.lp_relay-PROCESS-N, and holds the lock of flock on that file until it ends. A signal
# that ends it, or a machine that stops, leaves the file there: whole lines, and perhaps the beginning of one, which goes. This is for lines
# that each newline ends, as --newline-delimited has them. A file that is locked is left alone. If something is in the place, the file gets
# a name like it that is free, as NAME_.lp.
set -eu
LC_ALL=C
export LC_ALL
command -v flock >/dev/null || { echo "left.sh: there is no flock" >&2 && exit 2; }

for folder in "$@"; do
    for left in "$folder"/*.lp.lp_relay-*; do
        # It may come to its place meanwhile: then it is not there, or not under this name once it is locked.
        if [ ! -f "$left" ] || ! { command exec 9<"$left"; } 2>/dev/null; then continue; fi
        if ! flock -n 9 || [ ! -f "$left" ]; then continue; fi
        place=${left%.lp_relay-*}
        while [ -e "$place" ]; do place=${place%.lp}_.lp; done
        # The byte makes the last line, or what is after it, one that has not ended.
        size=$({ cat "$left" && printf x; } | sed '$d' | wc -c)
        [ ! -s "$left" ] || echo "left.sh: $place: $size of $(wc -c <"$left") bytes are whole lines" >&2
        truncate -c -s "$size" "$left"
        sync "$left"
        if [ "$size" = 0 ]; then rm "$left"; else mv -n "$left" "$place"; fi
    done
done
