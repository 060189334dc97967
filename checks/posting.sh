#!/usr/bin/env bash
# Runs the shell lines by which docs/INTEROP.md posts a batch, and sees that each line that is carried is posted once: also if a relay
# fails, its faults cannot be written, or the server does not answer.
#
#   checks/posting.sh RELAY [SERVER=ADDRESS..]
#
# RELAY: a built lp_relay. SERVER: `influx` or `victoria`, with the address of one that runs; without a server a stub is in the place of
# curl. The lines are read by Debian's sh, dash, and by bash.
set -eu
top=$(cd "$(dirname "$0")/.." && pwd)
. "$top/checks/left_out.sh"
relay=$(readlink -f "$1")
shift
work=$(mktemp -d)
trap 'rm -rf "$work"' EXIT
mkdir "$work/bin" "$work/killed" "$work/batches"
cd "$work/batches"

# The lines of the first block of the page after a heading, for a database and an address.
lines_of() {
    # shellcheck disable=SC2016
    sed -n "/^###* $1\$/,\$p" "$top/docs/INTEROP.md" | sed -n '/^```sh$/,/^```$/ { /^```sh$/d; /^```$/q; p; }' |
        sed -e "s|http://127.0.0.1:[0-9]*|$3|" -e "s|db=DB|db=$2|"
}

# While there is a file `down`, no server answers. What is posted to the stub goes to the file `posted`. Another relay ends as if it
# were killed.
cat >"$work/bin/curl" <<'STUB'
#!/bin/sh
[ ! -e down ] || exit 7
[ -z "$CURL" ] || exec "$CURL" "$@"
[ "$*" = "-sS --fail-with-body $ADDRESS/write?db=$DB&precision=ns --data-binary @again.lp" ] || exit 2
cat again.lp >>posted
STUB
chmod +x "$work/bin/curl"
ln -s "$relay" "$work/bin/lp_relay"
printf '#!/bin/sh\nexit 137\n' >"$work/killed/lp_relay"
chmod +x "$work/killed/lp_relay"

# The values that are stored.
stored() {
    local answer
    case $server in
    stub) ! [ -e posted ] || sed -n 's/^m.* f=//p' posted ;;
    influx)
        answer=$("$CURL" -sS -f -G -H 'Accept: application/csv' -d "db=$DB" --data-urlencode 'q=SELECT f FROM m' "$ADDRESS/query")
        sed -n 's/^m,.*,//p' <<<"$answer"
        ;;
    victoria)
        "$CURL" -sS -f "$ADDRESS/internal/force_flush"
        answer=$("$CURL" -sS -f -G -d start=0 -d end=$((1 << 33)) --data-urlencode "match[]={db=\"$DB\"}" "$ADDRESS/api/v1/export")
        sed -n 's/.*"values":\[\([^]]*\)\].*/\1/p' <<<"$answer" | tr , '\n'
        ;;
    esac
}

# posts STATUS VALUES FAULTS WHAT: runs the lines, which end with status 0, or with another one if STATUS is 1. The values are those of all
# batches so far, and the faults those of this one.
posts() {
    local status values faults
    PATH=$path "$shell" -c "$lines" >out 2>err && status=0 || status=$?
    values=$(stored | sort -n | paste -sd ' ')
    faults=$(cat faults 2>/dev/null) || true
    if [ "$((status != 0)): $values: $faults" != "$1: $2: $3" ]; then
        echo "posting: where $4, by $shell, the $server has the values $values, where $2 are wanted, with status $status and faults"
        echo "$faults"
        cat err
        exit 1
    fi
    runs=$((runs + 1))
}

# Posts batches, some of which cannot be relayed or posted, by the lines after a heading.
post_batches() {
    local path=$work/bin:$PATH lines none="lp_relay: cannot read the input: batch.lp: No such file or directory (os error 2)"
    local refused="A generic parsing error occurred: TakeWhile1" long=""
    [ "$1" = "Before InfluxDB 1.x" ] || long="line 1: not portable to VictoriaMetrics: too long a line"
    lines=$(lines_of "$1" "$DB" "$ADDRESS")
    rm -rf ./*
    printf 'm,t=u f=1\nx\nm f=2\n' >batch.lp
    posts 0 "1 2" "line 2: $refused" "a line of the batch is refused"
    rm batch.lp
    posts 1 "1 2" "$none" "there is no batch"
    printf 'm f=3\n' >batch.lp
    path=$work/killed:$PATH
    posts 1 "1 2" "" "the relay is killed"
    path=$work/bin:$PATH
    ln -sf none/faults faults
    posts 1 "1 2" "" "the faults cannot be written"
    rm faults
    posts 0 "1 2 3" "" "nothing fails"
    printf 'm f=4\n' >batch.lp
    : >down
    posts 1 "1 2 3" "" "the server does not answer"
    [ "$(cat again.lp)" = "m f=4" ]
    rm down
    posts 0 "1 2 3 4" "" "the server answers again"
    printf 'x\n' >batch.lp
    posts 0 "1 2 3 4" "line 1: $refused" "no line of the batch is carried"
    { printf 'm s="' && head -c 600000 /dev/zero | tr '\0' x && printf '"\nm f=5\n'; } >batch.lp
    posts 0 "1 2 3 4 5" "$long" "a line is longer than VictoriaMetrics takes"
}

# Posts to VictoriaMetrics, after those batches, one with a line in a string, which is refused alone.
post_strings() {
    local path=$work/bin:$PATH lines refused="A generic parsing error occurred: TakeWhile1"
    lines=$(lines_of "Before VictoriaMetrics" "$DB" "$ADDRESS")
    printf 'm s="\nm f=8\n"\nm f=6\nx\n' >batch.lp
    posts 0 "1 2 3 4 5 6" "line 1: not portable to VictoriaMetrics: a newline in the line
line 5: $refused" "a string has a line in it"
}

runs=0
names=${*%%=*}
export CURL='' DB ADDRESS
[ $# = 0 ] || CURL=$(command -v curl)
for shell in dash bash; do
    if ! shell=$(command -v "$shell"); then
        left_out "lines of docs/INTEROP.md" "there is no dash, for checks/posting.sh"
        continue
    fi
    DB=by_${shell##*/}
    for server in "${@:-stub=http://127.0.0.1:1}"; do
        ADDRESS=${server#*=}
        server=${server%%=*}
        [ "$server" != influx ] || "$CURL" -sS -f --data-urlencode "q=CREATE DATABASE $DB" "$ADDRESS/query" >/dev/null
        [ "$server" = victoria ] || post_batches "Before InfluxDB 1.x"
        [ "$server" != influx ] || continue
        post_batches "Before VictoriaMetrics"
        post_strings
    done
done
echo "posting: the lines of docs/INTEROP.md post each line once, to ${names:-a stub}, in $runs runs"
