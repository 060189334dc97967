#!/usr/bin/env bash
# Relays a file by several hosts at once, to which GNU parallel sends its parts by ssh. A host needs the program and nothing else.
#
#   examples/ssh.sh FILE PARTS HOST[,HOST..] [OPTION..] >again.lp 2>faults
#
# The arguments, both outputs and the status are those of apart.sh; here the last line of a run that failed starts with `ssh: `.
# Each host has one part at a time. A part that a host did not relay goes to the host that is named after it; at the third time, the
# run fails. A host that says nothing for 30 seconds is lost. What a host's shell writes by itself would be taken for faults, so it
# must write nothing.
#
# LP_RELAY: the program of this machine, which says where to cut; by default ../lp_relay of this script, or else lp_relay of
# the path. LP_RELAY_THERE: the program of the hosts, by default `lp_relay`. LP_SSH: the command, by default `ssh`; it must ask for
# nothing. TMPDIR: where the outputs wait for their turn.
set -eu -o pipefail
. "$(dirname "$(readlink -f "$0")")/parts.sh"

[ $# -ge 3 ] || fail "usage: examples/ssh.sh FILE PARTS HOST[,HOST..] [OPTION..]"
hosts=$3
[[ $hosts =~ ^[^,-][^,]*(,[^,-][^,]*)*$ ]] || fail "$hosts is not a list of hosts"
take_parts "$1" "$2" "${@:4}"
# The offsets that a host tells are those in what it is sent.
is_sent=1
there=$(printf '%q ' "${LP_RELAY_THERE:-lp_relay}" "${options[@]}")
IFS=, read -ra names <<<"$hosts"

# Sends a part, from a slot of parallel, to the host of the slot that had it first, and at each further try to the next host. GNU's dd
# cuts it out, and says how many bytes it gave. With `fullblock` it reads on after a short read, which would else count as a block.
# shellcheck disable=SC2317  # parallel calls it
send_part() {
    local names ssh number start count tries statuses said
    IFS=, read -ra names <<<"$hosts"
    read -ra ssh <<<"${LP_SSH:-ssh}"
    read -r number start count <<<"$2"
    echo "$1" >>"$waiting/$number.tries"
    mapfile -t tries <"$waiting/$number.tries"
    LC_ALL=C dd if="$file" iflag=fullblock,skip_bytes,count_bytes skip="$start" count="$count" bs=64K 2>"$waiting/$number.dd" |
        "${ssh[@]}" -o BatchMode=yes -o LogLevel=ERROR -o ServerAliveInterval=10 \
            "${names[(tries[0] + ${#tries[@]} - 2) % ${#names[@]}]}" "$there" >"$waiting/$number.out" 2>"$waiting/$number.err"
    statuses=("${PIPESTATUS[@]}")
    said=$(tail -n 1 "$waiting/$number.dd") || said=""
    if [ "${statuses[1]}" -le 1 ] && { [ "${statuses[0]}" != 0 ] || [ "${said%% *}" != "$count" ]; }; then
        cat "$waiting/$number.dd" >>"$waiting/$number.err"
        statuses[1]=2
    fi
    echo "${statuses[1]}" >"$waiting/$number.status" || true
    [ -z "$(why_not "$number")" ]
}
export -f send_part why_not
export hosts there
# The status of parallel is the number of parts that were not relayed; put_parts says why.
list_parts | PARALLEL_HOME=$waiting PARALLEL_SHELL=$BASH parallel --will-cite --jobs "${#names[@]}" --retries 3 \
    send_part '{%}' '{}' >&2 || true
put_parts
