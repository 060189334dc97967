#!/usr/bin/env bash
# Runs examples/slurm and examples/ssh.sh for real, over 56 MB with a line at fault in some parts, and compares the lines and the fault
# lines that they write with those of one relay; also if a worker fails midway, whose part another then relays. So it does of the parts
# that GNU parallel cuts by itself, if each newline ends a line. Slurm and sshd are started here, and end here, and nothing may be left
# running.
#
#   checks/engines.sh RELAY
#
# RELAY: a built lp_relay. The part of Slurm takes root. What is missing here is left out.
set -eu
top=$(cd "$(dirname "$0")/.." && pwd)
. "$top/checks/left_out.sh"
relay=$(readlink -f "$1")
has_tools checks/engines.sh python3 || exit 0
work=$(mktemp -d)
mkdir "$work/waiting"
running=
sshd=
made=
# Ends what this check started; nodes.sh ends its servers.
# shellcheck disable=SC2317
end() {
    local pid
    for pid in $running $sshd; do
        kill "$pid" 2>/dev/null || true
        wait "$pid" 2>/dev/null || true
    done
    rm -rf "$work"
    [ -z "$made" ] || rmdir "$made"
}
trap end EXIT
cd "$work"

fail() {
    echo "engines: $1" >&2
    tail -n 20 ./*err >&2
    exit 1
}

# The input: three of its eight parts have a line at fault, of which the last one has no newline, and a string of many lines is where
# the second part would end.
names=(telegraf iot strings escapes short)
python3 "$top/bench/corpora.py" --seed engines --size 10000000 --out corpora "${names[@]}" >corpora.out
for name in "${names[@]}"; do
    cat "corpora/$name.lp"
    case $name in
    telegraf)
        echo "at fault"
        printf 'm s="'
        yes "a line of a string" | head -c 6000000
        echo '"'
        ;;
    iot) echo "at fault" ;;
    short) printf "at fault" ;;
    esac
done >input
rm -r corpora
"$relay" --cut 8 <input >ends
parts=$(grep -bx "at fault" input | cut -d : -f 1 |
    awk 'NR == FNR { end[NR] = $1; next } { for (part = 1; end[part] <= $1; part++); print part }' ends - | uniq | wc -l)
[ "$parts" = 3 ] || fail "the faults are in $parts parts"

# What is wanted of it: wanted_of NAME OPTION.. writes NAME.lp and NAME.faults.
wanted_of() {
    local name=$1 status=0
    shift
    "$relay" "$@" <input >"$name.lp" 2>"$name.faults" || status=$?
    [ "$status $(wc -l <"$name.faults")" = "1 3" ] || fail "one relay ($*) has status $status"
}
wanted_of items
wanted_of lines --strict --lines

# A relay whose first run over a part stops midway, or ends with status 2 if the file `fails` is there.
cat >stops <<STOPS
#!/bin/sh
PATH=/usr/bin:/bin
case " \$* " in *" --cut "*) exec "$relay" "\$@" ;; *" --range "*) ranged=yes ;; *) ranged= ;; esac
if { [ "\$ranged" ] || ! [ /dev/stdin -ef /dev/null ]; } && mkdir "$work/first" 2>/dev/null; then
    if [ "\$ranged" ]; then "$relay" "\$@" | head -c 3000000; else head -c 3000000 | "$relay" "\$@"; fi
    [ ! -e "$work/fails" ] || exit 2
    echo \$\$ >"$work/first/of"
    mv "$work/first/of" "$work/first/pid"
    sleep 600
fi
exec "$relay" "\$@"
STOPS
chmod +x stops

# Compares both outputs of a run with what is wanted.
compare() {
    [ "$status" = 1 ] || fail "$1 has status $status"
    cmp "$2.lp" out || fail "$1 does not write what one relay writes"
    cmp "$2.faults" err || fail "$1 does not tell the faults that one relay tells"
    nothing_runs "$1"
}

# Sees that no process has the waiting outputs among its words, its variables or its files, and that none of them are left.
nothing_runs() {
    local found files
    echo "$work/waiting" >mark
    files=(/proc/[0-9]*/cmdline /proc/[0-9]*/environ)
    found=$(grep -slF -f mark "${files[@]}" ||
        find /proc/[0-9]*/fd -lname "$work/waiting/*" 2>/dev/null || true)
    [ -z "$found" ] || fail "$1 has left running: $found"
    [ -z "$(ls -A waiting)" ] || fail "$1 has left in TMPDIR: $(ls -A waiting)"
}

# Waits for the relay that stops midway, and sets pid.
await_stop() {
    for _ in $(seq 600); do
        if [ -e first/pid ]; then
            pid=$(cat first/pid)
            rm first/pid
            return
        fi
        sleep 0.1
    done
    fail "no relay has stopped midway"
}
parent_of() { awk '$1 == "PPid:" { print $2 }' "/proc/$1/status"; }
group_of() { ps -o pgid= -p "$1" | tr -d ' '; }

# Waits for the end of the run that was started, and sets its status and how many seconds it took.
ended() {
    wait "$running" && status=0 || status=$?
    running=
    took=$((SECONDS - began))
}

# Starts a run by Slurm. It also writes the states of the tasks, as Slurm tells them.
start_slurm() {
    began=$SECONDS
    # shellcheck disable=SC2016
    LP_RELAY=$1 TMPDIR=$work/waiting "$top/examples/slurm/nodes.sh" sh -c '
        trap "kill \$relays; wait \$relays; exit 2" TERM
        "$0" input 8 "$@" >out 2>err &
        relays=$!
        wait $relays
        status=$?
        squeue -h -r -t all -o %T | sort | uniq -c | xargs >states
        exit $status' "$top/examples/slurm/relay.sh" "${@:2}" 2>nodes_err &
    running=$!
}

check_slurm() {
    local node step
    start_slurm "$relay"
    ended
    compare "a job array" items
    [ "$(cat states)" = "8 COMPLETED" ] || fail "the states of the tasks are $(cat states)"
    echo "engines: a job array of Slurm gives what one relay gives, in $took s"

    # A node goes with all its processes.
    start_slurm "$work/stops" --strict --lines
    await_stop
    node=$(tr '\0' '\n' <"/proc/$pid/environ" | sed -n 's/^SLURMD_NODENAME=//p')
    step=$(parent_of "$(parent_of "$pid")")
    kill -9 "$(cat waiting/*/"$node.pid")" "$step"
    kill -9 -- "-$(group_of "$pid")"
    ended
    compare "a job array that loses $node" lines
    [ "$(cat states)" = "8 COMPLETED" ] || fail "the states of the tasks are $(cat states)"
    echo "engines: a job array that loses a node midway does, too, in $took s"

    rm -r first
    start_slurm "$work/stops"
    await_stop
    kill "$running"
    ended
    nothing_runs "a job array that is interrupted"
    echo "engines: an interrupt ends a job array, and leaves nothing"

    rm -r first
    touch fails
    start_slurm "$work/stops"
    ended
    rm -r fails first
    head -c "$(wc -c <out)" items.lp | cmp - out
    if [ "$status" != 2 ] || [ "$(cat states)" != "7 COMPLETED 1 FAILED" ] ||
        [[ $(tail -n 1 err) != "relay: part "[1-8]": the status of the relay is 2" ]]; then
        fail "if a relay fails, the status is $status, and the states of the tasks are $(cat states)"
    fi
    nothing_runs "a job array that fails"
    echo "engines: a task whose relay fails fails, and so does the run"
}

# Starts sshd, on a port of its own, for the hosts one, two and three; nothing listens where the host gone is.
start_sshd() {
    local port=26820
    while (exec 3<>"/dev/tcp/127.0.0.1/$port") 2>/dev/null; do
        port=$((port + 1))
    done
    ssh-keygen -q -t ed25519 -N '' -f host
    ssh-keygen -q -t ed25519 -N '' -f key
    mkdir there
    cp "$relay" there/lp_relay
    printf '%s\n' "ListenAddress 127.0.0.1" "Port $port" "HostKey $work/host" "PidFile none" "AuthorizedKeysFile $work/key.pub" \
        "StrictModes no" "UsePAM no" "PasswordAuthentication no" "PermitRootLogin prohibit-password" "PermitUserRC no" \
        "SetEnv PATH=$work/there HOME=$work/there" >sshd_config
    printf '%s\n' "Host gone" "Port 1" "Host one two three" "Port $port" "Host *" "HostName 127.0.0.1" "User $(id -un)" \
        "IdentityFile $work/key" "IdentitiesOnly yes" "UserKnownHostsFile $work/known" "StrictHostKeyChecking accept-new" \
        "ServerAliveInterval 1" >ssh_config
    # As root, sshd wants this folder, which a start of the system makes.
    if [ "$(id -u)" = 0 ] && mkdir /run/sshd 2>/dev/null; then
        made=/run/sshd
    fi
    "$(command -v sshd)" -D -e -f sshd_config 2>sshd_err &
    sshd=$!
    for _ in $(seq 50); do
        ! grep -sq "listening on" sshd_err || return 0
        sleep 0.1
    done
    fail "sshd does not listen"
}

# Starts a run by ssh: PROGRAM HOSTS OPTION..
start_ssh() {
    began=$SECONDS
    LP_RELAY=$relay LP_RELAY_THERE=$1 LP_SSH="ssh -F $work/ssh_config" TMPDIR=$work/waiting \
        "$top/examples/ssh.sh" input 8 "${@:2}" >out 2>err &
    running=$!
}

# Sets session: the processes of sshd that lead to the relay that has stopped.
find_session() {
    local at=$pid
    session=()
    while at=$(parent_of "$at") && [ "$at" != "$sshd" ]; do
        session+=("$at")
    done
}

check_ssh() {
    start_ssh lp_relay one,gone,two
    ended
    compare "a run by ssh" items
    echo "engines: GNU parallel and ssh give what one relay gives, also if a host cannot be reached, in $took s"

    start_ssh "$work/stops" one,two,three --strict --lines
    await_stop
    find_session
    kill -9 "${session[@]}"
    kill -9 -- "-$(group_of "$pid")"
    ended
    compare "a run by ssh that loses a session" lines
    rm -r first
    # A host that says nothing any longer.
    start_ssh "$work/stops" one,two,three
    await_stop
    find_session
    kill -STOP "${session[@]}"
    ended
    kill -9 "${session[@]}"
    kill -9 -- "-$(group_of "$pid")"
    compare "a run by ssh whose host is silent" items
    rm -r first
    touch fails
    start_ssh "$work/stops" one,two,three
    ended
    compare "a run by ssh whose relay fails once" items
    rm -r fails first
    start_ssh lp_relay gone
    ended
    if [ "$status" != 2 ] || [ -s out ] || [ "$(tail -n 1 err)" != "ssh: part 1: the status of the relay is 255" ]; then
        fail "if no host can be reached, the status is $status"
    fi
    nothing_runs "a run by ssh to no host"
    echo "engines: so they do if a host is lost midway or says nothing any longer, or if its relay fails"
}

# Where each newline ends a line, what parallel cuts by itself gives the lines of one relay, and its faults but for their numbers.
# They are told raw, since how much is told of a long one on one line depends on its number.
check_lines() {
    "$relay" --newline-delimited --faults raw <input >each.lp 2>each.faults || [ $? = 1 ]
    began=$SECONDS
    parallel -k --pipepart -a input --block 3M "$relay --newline-delimited --faults raw || [ \$? = 1 ]" >out 2>err
    cmp each.lp out || fail "the parts of parallel are not relayed as the whole"
    cmp <(sed 's/^item [0-9]*//' each.faults) <(sed 's/^item [0-9]*//' err) || fail "the parts of parallel have other faults"
    echo "engines: what GNU parallel cuts at newlines gives what one relay gives, in $((SECONDS - began)) s"
}

PATH=$PATH:/usr/sbin
lacking=
for command in munged slurmctld slurmd sbatch; do
    command -v "$command" >/dev/null || lacking+=" $command"
done
if [ -n "$lacking" ]; then
    left_out "relays by Slurm" "there is no$lacking"
elif [ "$(id -u)" != 0 ]; then
    left_out "relays by Slurm" "only root starts its nodes"
else
    check_slurm
fi
if command -v parallel >/dev/null; then check_lines; else left_out "parts of parallel" "there is no parallel"; fi
lacking=
for command in parallel ssh ssh-keygen sshd; do
    command -v "$command" >/dev/null || lacking+=" $command"
done
if [ -n "$lacking" ]; then
    left_out "relays by ssh" "there is no$lacking"
else
    start_sshd
    check_ssh
    ! grep -sq "^PPid:.$sshd\$" /proc/[0-9]*/status || fail "sshd has sessions left"
    kill "$sshd"
    wait "$sshd" || true
    sshd=
fi
