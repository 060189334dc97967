#!/usr/bin/env bash
# Runs a command beside a Slurm of its own, whose controller and four nodes are processes of this machine, and ends them after it.
#
#   examples/slurm/nodes.sh examples/slurm/relay.sh FILE PARTS >again.lp 2>faults
#
# It takes root, and Debian's packages slurm-wlm and munge. The status is that of the command, or 2 if the servers did not start. They
# keep all in a folder of TMPDIR, which goes at the end. PORT: the first four digits of their ports, which are PORT0 to PORT4, by
# default 2681.
set -eu
here=$(dirname "$(readlink -f "$0")")
if [ $# = 0 ] || [ "$(id -u)" != 0 ]; then
    echo "usage, as root: examples/slurm/nodes.sh COMMAND.." >&2
    exit 2
fi
folder=$(mktemp -d)
servers=()

# Ends the command, if it runs, all jobs, and then the servers, the last one first, and waits for each.
# shellcheck disable=SC2317  # the trap calls it
end() {
    local place
    end_one "${command:-}"
    if [ ${#servers[@]} -gt 2 ] && kill -0 "${servers[1]}" 2>/dev/null; then
        scancel -Q --user=root 2>/dev/null || true
        for _ in $(seq 100); do
            [ -n "$(squeue -h 2>/dev/null)" ] || break
            sleep 0.1
        done
    fi
    for ((place = ${#servers[@]} - 1; place >= 0; place--)); do
        end_one "${servers[place]}"
    done
    rm -rf "$folder"
}
# shellcheck disable=SC2317
end_one() {
    [ -n "$1" ] || return 0
    kill "$1" 2>/dev/null || true
    wait "$1" 2>/dev/null || true
}
trap end EXIT

# Starts a server.
start() {
    "$@" >>"$folder/servers.log" 2>&1 &
    servers+=("$!")
}

# Waits until a command succeeds, for 30 seconds at most.
await() {
    for _ in $(seq 300); do
        ! "$@" >/dev/null 2>&1 || return 0
        sleep 0.1
    done
    echo "nodes: ($*) fails" >&2
    tail -n 5 "$folder"/*.log >&2
    exit 2
}

mkdir "$folder/state"
# The servers of munge and of Slurm are reached by users of all kinds.
chmod 755 "$folder"
export SLURM_CONF=$folder/slurm.conf
sed "s|@HOST@|$(hostname -s)|; s|@FOLDER@|$folder|; s|@PORT@|${PORT:-2681}|g" "$here/slurm.conf" >"$SLURM_CONF"
(umask 077 && head -c 128 /dev/urandom >"$folder/munge.key")
start munged --foreground --force --socket="$folder/munge.socket" --key-file="$folder/munge.key" --pid-file="$folder/munge.pid" \
    --log-file="$folder/munge.log" --seed-file="$folder/munge.seed"
await test -S "$folder/munge.socket"
start slurmctld -D
await timeout 5 scontrol ping
for number in 1 2 3 4; do
    start slurmd -D -N "node$number"
done
# shellcheck disable=SC2016
await timeout 5 sh -c '[ "$(sinfo -h -t idle -o %D)" = 4 ]'
"$@" <&0 &
command=$!
wait "$command"
