#!/usr/bin/env bash
# Relays a file by a job array of Slurm, each task of which takes a part of it.
#
#   examples/slurm/relay.sh FILE PARTS [OPTION..] >again.lp 2>faults
#
# The arguments, both outputs and the status are those of ../apart.sh; here the last line of a run that failed starts with `relay: `.
# FILE, the program, this folder and TMPDIR are where all nodes see them by the same names. A task whose node is lost is run again.
# What else sbatch is to know comes from its variables, such as SBATCH_PARTITION.
set -eu -o pipefail
here=$(dirname "$(readlink -f "$0")")
. "$here/../parts.sh"

[ $# -ge 2 ] || fail "usage: examples/slurm/relay.sh FILE PARTS [OPTION..]"
take_parts "$@"
program=$(readlink -f -- "$(command -v "$program")")
list_parts >"$waiting/parts"
# Ends the job, if the run ends before it, and what waits for it.
# shellcheck disable=SC2317  # the trap calls it
end() {
    [ -z "$submitted" ] || kill "$submitted" 2>/dev/null || true
    [ ! -s "$waiting/job" ] || scancel -Q "$(cut -d ";" -f 1 "$waiting/job")" || true
    rm -rf "$waiting"
}
submitted=
trap end EXIT
# Its status is the highest of the tasks; put_parts says why.
sbatch --wait --parsable --job-name=lp_relay --array="1-$parts" --requeue --output="$waiting/%a.log" --open-mode=append \
    "$here/part.sh" "$here/../parts.sh" "$file" "$waiting" "$program" "${options[@]}" >"$waiting/job" &
submitted=$!
wait "$submitted" || true
submitted=
[ -s "$waiting/job" ] || fail "sbatch took no job"
put_parts
