#!/usr/bin/env bash
# A task of the job array of relay.sh: relays the part of its number. It succeeds also if items of the part were refused.
#
#   sbatch --array=1-PARTS part.sh PARTS.SH FILE FOLDER PROGRAM [OPTION..]
#
# A task that runs again writes into a folder of its own, since the node that was lost may still write. What was written comes to
# FOLDER at the end, the status last.
set -eu
# shellcheck source=examples/parts.sh
. "$1"
file=$2
folder=$3
shift 3
part=$(sed -n "${SLURM_ARRAY_TASK_ID}p" "$folder/parts")
read -r number _ <<<"$part"
waiting=$folder/$number.try.${SLURM_RESTART_COUNT:-0}
mkdir "$waiting"
# After `||` a status of 1 does not end the shell.
relay_part "$part" "$@" || true
why=$(why_not "$number")
mv "$waiting/$number".{out,err} "$folder"
mv "$waiting/$number.status" "$folder"
[ -z "$why" ] || fail "part $number: $why"
