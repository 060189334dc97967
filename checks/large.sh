#!/usr/bin/env bash
# Relays more than 2^32 bytes with a fault after them, by each form of lines, and looks for each line and for the place of the fault;
# and has 276 MB, which both hold whole, rebuilt by lp_rebuild and cut by lp_relay.
#
#   checks/large.sh REBUILD RELAY
#
# REBUILD and RELAY are built programs, such as ./lp_rebuild and ./lp_relay.
set -eu
rebuild=$(readlink -f "$1")
relay=$(readlink -f "$2")
work=$(mktemp -d)
trap 'rm -rf "$work"' EXIT
cd "$work"
line='cpu,host=A,region=west usage_system=64i,idle=0.5 1590488773254420000'
# So many lines.
lines() { yes "$line" | head -n "$1"; }

count=$(((1 << 32) / (${#line} + 1) + 1))
bytes=$((count * (${#line} + 1)))
for form in "" --verbatim --canonical; do
    { lines "$count"; echo x; } | "$relay" --faults json --summary ${form:+"$form"} 2>err | cmp - <(lines "$count")
    status=${PIPESTATUS[1]}
    { read -r fault && read -r counts; } <err
    if [[ "$status $fault" != "1 {\"item\":$((count + 1)),\"line\":$((count + 1)),\"offset\":$bytes,"* ]] ||
        [[ $counts != "{\"summary\":{\"bytes\":$((bytes + 2)),\"lines\":$((count + 1)),\"items\":$((count + 1)),\"carried\":$count,\"refused\":1,"* ]]; then
        echo "large: of $((bytes + 2)) bytes lp_relay $form says, with status $status,"
        head -n 10 err
        exit 1
    fi
done
echo "large: lp_relay relays $((bytes + 2)) bytes, and tells of a fault after $bytes"

count=4000000
bytes=$((count * (${#line} + 1)))
lines "$count" | "$rebuild" | cmp - <(lines "$count")
ends=$(lines "$count" | "$relay" --cut 2)
if [ "$ends" != "$((bytes / 2))"$'\n'"$bytes" ]; then
    echo "large: the ends of two parts are $ends"
    exit 1
fi
echo "large: lp_rebuild rebuilds, and lp_relay cuts, $bytes bytes"
