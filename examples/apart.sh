#!/usr/bin/env bash
# Relays a file in parts, by as many processes at once as there are processors.
#
#   examples/apart.sh FILE PARTS [OPTION..] >again.lp 2>faults
#
# FILE: a regular file, since it is read more than once. PARTS: 1 to 999. The options are those of a relay, as `lp_relay --help`
# lists them, but for those that name files or a part, say where numbers begin, or look at what came before, as --types does.
# LP_RELAY: the program, by default ../lp_relay of this script, or else lp_relay of the path. LP_JOBS: how many processes, if not
# as many as there are processors. TMPDIR: where the outputs wait for their turn.
#
# Both outputs are what one lp_relay writes. The lines of a part are put out while later parts are relayed, so with several parts for each
# processor less waits; if the output is a file that is written at its end, those of several parts at once. The counts of the parts before
# it tell which numbers the faults of a part have, so the faults come once all parts were relayed. Where they are more than 10,000, or are
# not told on a line each, a part that refused something is relayed a second time, to check alone, from these numbers on.
#
# Status 0: every item was written again; 1: some item was not; 2: the arguments are wrong, or the run failed. The last line of
# standard error, which starts with `apart: `, then says why, and both outputs have a beginning of what was meant for them: where a
# part failed, the lines of the parts before it; where it failed the second time, all lines, and the faults of the parts before it. What
# the failed part wrote to standard error comes before that line, each line after `part N, `.
set -eu -o pipefail
. "$(dirname "$(readlink -f "$0")")/parts.sh"

[ $# -ge 2 ] || fail "usage: examples/apart.sh FILE PARTS [OPTION..]"
take_parts "$@"
# What was begun ends before the folder goes in which it writes.
trap 'wait; rm -rf "$waiting"' EXIT
# shellcheck disable=SC2016
list_parts | xargs -P "${LP_JOBS:-$(nproc)}" -I PART bash -c 'relay_part "$1" "$program" "${@:2}"' relay_part PART "${options[@]}" &
relays=$!
put_parts
