#!/usr/bin/env bash
# Asks systemd-analyze of the units of examples/systemd and of gateway, whether it can read them and how much they let a service do. With a relay, runs what
# lp-relay@.service runs, over TCP as its socket does, and compares what comes; kills it, and sees what left.sh makes of what is left then;
# turns its faults by logrotate; and runs the lines of docs/OPERATING.md.
#
#   checks/systemd.sh [RELAY]
#
# RELAY: a built lp_relay. No unit is installed, and none is started.
set -eu
shopt -s nullglob
export LC_ALL=C
top=$(cd "$(dirname "$0")/.." && pwd)
. "$top/checks/left_out.sh"
relay=${1:+$(readlink -f "$1")}
work=$(mktemp -d)
# shellcheck disable=SC2046
trap '{ kill $(jobs -p) || true; umount "$work/lib" || true; } 2>/dev/null; rm -rf "$work"' EXIT

# wrong WHAT [FILE]: ends the check.
wrong() {
    echo "systemd: $1"
    [ -z "${2-}" ] || cat "$2"
    exit 1
}
# wait_for WHAT COMMAND..: waits until a command succeeds.
wait_for() {
    local what=$1 tries
    shift
    for ((tries = 0; tries < 1000; tries++)); do
        ! "$@" >"$work/said" 2>&1 || return 0
        sleep 0.02
    done
    wrong "$what is waited for, and does not come" "$work/said"
}
# same WHAT FILE TEXT: a file has what `printf %b` writes.
same() {
    printf '%b' "$3" >"$work/wanted"
    cmp "$2" "$work/wanted" || wrong "$1 is" "$2"
}

# Copies of the units and of what they name, with folders and programs that are here.
mkdir -p "$work/units" "$work/log" "$work/lib"/{spool,refused}
for unit in "$top"/examples/systemd/lp* "$top/gateway/lp-gateway.service"; do
    sed -e "s|^ExecStart=lp_gateway |ExecStart=/bin/true |" -e "s|^ExecReload=kill |ExecReload=/bin/kill |" -e "s|/usr/bin/lp_relay|${relay:-/bin/true}|" -e "s|/usr/local/lib/lp_relay/send.sh|$top/examples/send.sh|" \
        -e "s|/usr/local/lib/lp_relay/left.sh|$top/examples/systemd/left.sh|" -e "s|/var/log/lp_relay|$work/log|" \
        -e "s|/var/lib/lp_relay|$work/lib|g" "$unit" >"$work/units/${unit##*/}"
done

# words_of UNIT SETTING ID: the words of a command of a unit, for a run of this ID, as lines.
words_of() {
    sed -e ':join; /\\$/ { N; s/\\\n *//; b join }' "$work/units/$1" |
        sed -n -e "s/\${INVOCATION_ID}/$3/g" -e 's/%%/%/g' -e "s/^$2=//p" | xargs printf '%s\n'
}

# least UNIT THRESHOLD: a service may do no more than this, of 100.
least() {
    systemd-analyze security --offline=true --no-pager --threshold="$2" "$work/units/$1" >"$work/said" 2>&1 ||
        wrong "$1 lets its service do more than $2 of 100" "$work/said"
    exposed+=("$1 $(sed -n 's/.*exposure level for .*: \([0-9.]*\) .*/\1/p' "$work/said")")
}
if [[ $(systemd-analyze --help 2>/dev/null) = *--threshold* ]]; then
    systemd-analyze verify --man=no "$work/units"/*.{socket,service,timer} >"$work/said" 2>&1 || wrong "systemd-analyze verify says" "$work/said"
    [ ! -s "$work/said" ] || wrong "systemd-analyze verify says" "$work/said"
    exposed=()
    least lp-relay@.service 5
    least lp-send.service 15
    least lp-gateway.service 15
    echo "systemd: the units can be read, and their exposure is, of 10: $(printf '%s, ' "${exposed[@]}" | sed 's/, $//')"
else
    left_out "units of systemd" "there is no systemd-analyze of systemd 250 or later, for checks/systemd.sh"
fi
[ -n "$relay" ] || exit 0

# connect ID TEXT STATUS: sends a text to what the service runs for a connection of this ID, over TCP, and waits until that has ended.
opens() { exec 3<>"/dev/tcp/127.0.0.1/$port"; }
connect() {
    local words server port=$((20000 + RANDOM % 10000))
    mapfile -t words < <(words_of lp-relay@.service ExecStart "$1")
    # shellcheck disable=SC2016
    systemd-socket-activate --listen="127.0.0.1:$port" --accept --inetd sh -c 'exec "$@" 2>>"$0"' "$work/log/faults.jsonl" "${words[@]}" \
        2>"$work/server" &
    server=$!
    wait_for "the socket" opens
    printf '%b' "$2" >&3
    exec 3>&-
    wait_for "the end of the connection" grep 'died with code' "$work/server"
    kill "$server"
    grep -q "died with code $3\$" "$work/server" || wrong "the relay of a connection has a status that is not $3" "$work/server"
    mapfile -t words < <(words_of lp-relay@.service ExecStopPost "$1")
    "${words[@]}"
}

most() { sed -n "s/^$1=//p" "$work/units/lp-relay.socket"; }
[ "$(most MaxConnectionsPerSource)" -lt "$(most MaxConnections)" ] || wrong "one address can take all connections"
if command -v systemd-socket-activate >/dev/null; then
    connect one 'm f=1 1\nbad\nm f=2u 2\nm s="open 3\nm f=4 4\n' 1
    same "the batch" "$work/lib/spool/one-000001.lp" 'm f=1 1\nm f=4 4\n'
    same "what is refused" "$work/lib/refused/one.lp" 'bad\nm f=2u 2\nm s="open 3\n'
    [ "$(grep -o '"kind":"[a-z_0-9]*"' "$work/log/faults.jsonl" | cut -d '"' -f 4 | paste -sd ' ')" = \
        "generic_parsing_error not_portable field_set_missing" ] || wrong "the faults are" "$work/log/faults.jsonl"
    connect many "$(seq -f 'm f=%.0f' 5001)\\n" 0
    cat "$work/lib/spool"/many-*.lp >"$work/lines"
    [ "$(wc -l <"$work/lib/spool/many-000001.lp")" = 5000 ] || wrong "the first batch has no 5,000 lines"
    same "what comes in batches" "$work/lines" "$(seq -f 'm f=%.0f' 5001)\\n"
    connect one 'm f=5 5\n' 2
    same "the batch of before" "$work/lib/spool/one-000001.lp" 'm f=1 1\nm f=4 4\n'
    same "the list of refused files" <(cd "$work/lib/refused" && echo ./*) './one.lp\n'
    echo "systemd: the service relays connections to batches, each refused line is kept, and no batch is replaced"
else
    left_out "the service of a connection" "there is no systemd-socket-activate, for checks/systemd.sh"
fi

# What comes of the service's call on this input, for a run of this ID. Sets: status.
relay_input() {
    mapfile -t words < <(words_of lp-relay@.service ExecStart "$1")
    status=0
    "${words[@]}" <"$work/input" 2>>"$work/log/faults.jsonl" || status=$?
}

# One connection of refused lines alone, and what it writes to the file of all connections.
rm -f "$work/log/faults.jsonl"
yes x | head -n 20000 >"$work/input"
relay_input flood
[ "$status" = 1 ] || wrong "the status of a connection of refused lines alone is $status"
cmp "$work/input" "$work/lib/refused/flood.lp" || wrong "not all refused lines of a connection are kept"
[ "$(wc -l <"$work/log/faults.jsonl"):$(tail -n 1 "$work/log/faults.jsonl")" = '1001:{"faults_not_told":19000}' ] ||
    wrong "20,000 refused lines make a file of faults of $(wc -lc <"$work/log/faults.jsonl") lines and bytes"

# A device that is full in the middle of a connection.
if mount -t tmpfs -o size=1m systemd "$work/lib" 2>"$work/said"; then
    mkdir "$work/lib"/{spool,refused}
    { seq -f 'bad%.0f' 100 && seq -f 'm f=%.0f' 200000; } >"$work/input"
    relay_input full
    [ "$status" = 2 ] || wrong "the status of a connection on a full device is $status"
    same "what is refused before the device is full" "$work/lib/refused/full.lp" "$(seq -f 'bad%.0f' 100)\n"
    cat "$work/lib"/spool/full-*.lp >"$work/lines"
    [ -s "$work/lines" ] || wrong "a full device has no batch"
    sed 1,100d "$work/input" | head -c "$(wc -c <"$work/lines")" | cmp - "$work/lines" || wrong "the batches of a full device are not the first lines"
    umount "$work/lib"
    echo "systemd: a connection tells 1,000 faults at most, and what it refused is kept if the device is full"
else
    left_out "a full device of the service" "no tmpfs can be mounted here, for checks/systemd.sh"
fi

# What a relay leaves that is killed, before and after it is killed.
left_of() { (cd "$work/lib" && cat ./*/killed* && echo ./*/killed*); }
mapfile -t words < <(words_of lp-relay@.service ExecStart killed)
mkfifo "$work/fifo"
"${words[@]}" <"$work/fifo" 2>"$work/err" &
process=$!
exec 4>"$work/fifo"
printf 'm f=1 1\nbad\nm f=2 2\nm f=' >&4
wait_for "a file beside its place" test -s "$work/lib/refused/killed.lp" -a -s "$work/lib/spool/killed-000001.lp.lp_relay-$process-0"
"$top/examples/systemd/left.sh" "$work/lib/spool" "$work/lib/refused" 2>"$work/said"
same "what left.sh says of files that are written" "$work/said" ''
kill -9 "$process"
wait "$process" 2>/dev/null || true
exec 4>&-
same "what is left" <(left_of) \
    "bad\nm f=1 1\nm f=2 2\n./refused/killed.lp ./spool/killed-000001.lp.lp_relay-$process-0\n"
# A line that was cut is no line, since it could be read as another one.
printf 'm f=1 1\nm f=12' >"$work/lib/spool/cut-000001.lp.lp_relay-999999999-0"
printf 'm f=12' >"$work/lib/spool/cut-000002.lp.lp_relay-999999999-0"
"$top/examples/systemd/left.sh" "$work/lib/spool" "$work/lib/refused" 2>"$work/said"
same "what left.sh makes of it" <(left_of) "bad\nm f=1 1\nm f=2 2\n./refused/killed.lp ./spool/killed-000001.lp\n"
same "what left.sh makes of a cut line" <(cd "$work/lib/spool" && cat ./cut* && echo ./cut*) 'm f=1 1\n./cut-000001.lp\n'
echo "systemd: left.sh puts the whole lines that a killed relay leaves to their places"

# The faults are moved away while a relay writes them, and another one begins.
if PATH=$PATH:/usr/sbin command -v logrotate >/dev/null; then
    PATH=$PATH:/usr/sbin
    chmod 755 "$work/log" && chmod 644 "$work/units/lp_relay.logrotate"
    : >"$work/log/faults.jsonl"
    turned() { [ "$(grep -c . "$work/log/$1")" = "$2" ]; }
    "$relay" --check --faults json <"$work/fifo" 2>>"$work/log/faults.jsonl" &
    exec 4>"$work/fifo"
    echo x >&4
    wait_for "a fault" turned faults.jsonl 1
    logrotate -f -s "$work/state" "$work/units/lp_relay.logrotate" >"$work/said" 2>&1 || wrong "logrotate says" "$work/said"
    echo y | "$relay" --check --faults json 2>>"$work/log/faults.jsonl" || true
    echo z >&4
    exec 4>&-
    wait "$!" || true
    turned faults.jsonl.1 2 || wrong "the faults of a relay that runs on are" "$work/log/faults.jsonl.1"
    turned faults.jsonl 1 || wrong "the faults of the next relay are" "$work/log/faults.jsonl"
    echo "systemd: logrotate moves the faults away, and none is lost"
else
    left_out "logrotate" "there is no logrotate, for checks/systemd.sh"
fi

# The lines of the page, each block in the folder of those before it, and what it must tell.
mkdir "$work/bin" "$work/page"
ln -s "$relay" "$work/bin/lp_relay"
ln -s "$top/examples" "$work/page/examples"
cd "$work/page"
blocks=0
while IFS= read -r block; do
    blocks=$((blocks + 1))
    printf '%b' "${block%%$'\t'*}" >"$work/block"
    PATH=$work/bin:$PATH sh "$work/block" >"$work/out" 2>&1 </dev/null || true
    same "what the lines of docs/OPERATING.md tell (block $blocks)" "$work/out" "${block#*$'\t'}"
done < <(awk '
    function in_printf(text) { gsub(/\\/, "&&", text); return text "\\n" }
    /^```sh$/ { kind = "sh"; commands = ""; next }
    /^```text$/ { kind = commands != "" ? "text" : "other"; told = ""; next }
    /^```$/ { if (kind == "text") { print commands "\t" told; commands = "" } kind = ""; next }
    kind == "sh" { commands = commands in_printf($0) }
    kind == "text" { told = told in_printf($0) }
    kind == "" && /[^ ]/ && !/^(which tells|tells)$/ { commands = "" }' "$top/docs/OPERATING.md")
[ "$blocks" != 0 ] || wrong "docs/OPERATING.md has no block of commands with what it tells"
echo "systemd: $blocks blocks of docs/OPERATING.md tell what the page says"
