#!/bin/sh
# Posts the batches of a folder to a server, in the order of their names, until each line is stored or refused.
#
#   examples/send.sh FOLDER URL
#
# FOLDER: where `lp_relay --batch-lines 5000 --batch-bytes 1000000 --output FOLDER/NAME-%06d.lp` puts batches. Each is there whole or not
# at all, so relays may run meanwhile. URL: where InfluxDB 1.x or VictoriaMetrics takes lines, with its database and precision. What
# the server answers says what becomes of a batch:
#
#   204                     all of it is stored, and it is removed
#   400 that names lines    these go to the dead letters; the others are stored
#   another 400, 413        it is cut in two, which are posted in its place, until all lines of a part are stored, or all are refused
#   500, at the last try    the same; a line for which the server fails is refused if the server stores others
#   429, other 5xx, none    it stays, and so do those after it
#   anything else           the same, and nothing is tried again: the address or the credentials are wrong
#
# A batch that cannot be read to its end stays too, whatever the server answers. The batches after it are sent, and the status is 2.
#
# Dead letters are files of lines as they came. A comment before them has the answer, so `lp_relay --strict` reads them as they are. A batch
# that has what `lp_relay --strict` refuses cannot be cut: all of it goes there then.
#
# What is stored is not sent again, with two exceptions. If an answer is lost, the call is made again. If a 400 names no line, it does not
# tell what is stored: then lines that have a time are sent again. InfluxDB keeps these once, VictoriaMetrics twice. Lines that have no
# time would be other points, so they go to the dead letters, below a comment that they may be stored.
#
# If the device is full, the script removes FOLDER/.send/reserve, 4 MiB that an earlier run has put there. If there is none, it first posts
# batches without a note of the call in .send, until those that are stored have made room. If it is killed meanwhile, that call is made again.
#
# LP_TRIES: how often a batch is posted if its answer may change, by default 5. LP_WAIT: the seconds before the second try, by default 1;
# each next wait is twice as long. LP_TIMEOUT: the seconds that a call may take, by default 60. LP_CURL: a file of options for curl, as
# `user = "NAME:PASSWORD"`, which the list of processes does not show. LP_DEAD: the folder of dead letters, by default FOLDER/dead. LP_SENT: a
# folder to which stored lines are moved, instead of being removed. LP_RELAY: the program that cuts batches, by default ../lp_relay of this
# script, or else lp_relay of the path.
#
# Status 0: no batch is left, and no line was refused; 1: no batch is left; 75: some are, for the next run; 2: the arguments are wrong, or the
# run failed, and the last line of standard error says why. A run may be cut off anywhere, by kill -9 too: the call that is under way
# ends by itself, and the next run reads its answer, and what else there is to finish, in FOLDER/.send.
set -eu
LC_ALL=C
export LC_ALL

# Writes a line to standard error, on a terminal in the place of the line that shows how far the run is.
say() {
    printf '%ssend: %s\n' "$back" "$1" >&2 || true
}
fail() {
    say "$1"
    exit 2
}

# Ends the run, since its state cannot be written. The next run has the room of the reserve.
fail_full() {
    rm -f .send/reserve
    fail "$folder/.send cannot be written"
}

# Prints a path as it is from the root, since the run goes on in the folder.
from_root() {
    case $1 in
    /*) printf '%s\n' "$1" ;;
    *) printf '%s\n' "$PWD/$1" ;;
    esac
}

# Sets what the arguments and the environment ask for.
take_words() {
    [ $# = 2 ] || fail "usage: examples/send.sh FOLDER URL"
    folder=$1 url=$2 tries=${LP_TRIES:-5} first_wait=${LP_WAIT:-1} timeout=${LP_TIMEOUT:-60}
    for number in "$tries" "$first_wait" "$timeout"; do
        case $number in '' | *[!0-9]* | 0?* | ????????*) fail "LP_TRIES, LP_WAIT and LP_TIMEOUT are numbers, which $number is not" ;; esac
    done
    [ -d "$folder" ] || fail "there is no folder $folder"
    dead=$(from_root "${LP_DEAD:-$folder/dead}")
    sent=${LP_SENT:+$(from_root "$LP_SENT")}
    options=${LP_CURL:+$(from_root "$LP_CURL")}
    [ -z "$options" ] || [ -r "$options" ] || fail "$options cannot be read"
    relay=${LP_RELAY:-$(dirname "$(readlink -f "$0")")/../lp_relay}
    [ -n "${LP_RELAY-}" ] || [ -e "$relay" ] || relay=lp_relay
    case $relay in */*) relay=$(from_root "$relay") ;; esac
    command -v curl >/dev/null || fail "there is no curl"
}

# Ends the run if another one, or the last call of one that was cut off, is at work in this folder. Both hold the lock of flock.
# Without flock it is a link that names the process, beside a file that names its call.
lock() {
    busy="another send.sh is at work in $folder"
    touch .send/lock || fail_full
    if command -v flock >/dev/null; then
        exec 9>.send/lock
        flock -n 9 || fail "$busy"
        return
    fi
    if ! ln -s $$ .send/held 2>/dev/null; then
        holder=$(readlink .send/held) || fail "$busy"
        ! kill -0 "$holder" 2>/dev/null || fail "$busy: the process $holder, as .send/held says"
        # The call has ended once the status of curl comes after the code.
        call=$(cat .send/call 2>/dev/null) || call=none
        grep -qs ' ' .send/answer || ! kill -0 "$call" 2>/dev/null || fail "$busy: the process $call, as .send/call says"
        # Of two runs that find it stale, one moves it away.
        mv .send/held ".send/stale.$$" 2>/dev/null || fail "$busy"
        [ "$(readlink ".send/stale.$$")" = "$holder" ] || { mv ".send/stale.$$" .send/held && fail "$busy"; }
        rm ".send/stale.$$"
        ln -s $$ .send/held 2>/dev/null || fail "$busy"
    fi
    trap 'rm -f .send/held; [ -n "$is_told" ] || exit 2' EXIT
}

# Calls the server, and prints the code of its answer, how many bytes of the file were posted, and the status of curl. It goes on if the
# run is cut off.
call() {
    curl_status=0
    set -- --data-binary "@$1" --url "$url"
    [ -z "$options" ] || set -- -K "$options" "$@"
    told=$(curl -sS -g --max-time "$timeout" -H 'Content-Type: text/plain; charset=utf-8' -o .send/text -w '%{http_code} %{size_upload}' "$@") ||
        curl_status=$?
    echo "${told:-000 0} $curl_status"
}

# Prints what a call is of: the sum of its file, the size, and the sum of the URL. Fails if the file cannot be read.
call_of() {
    cksum "$1" && wc -c <"$1" && printf '%s\n' "$url" | cksum
}

# Posts a file once. `.send/posted` says which call the answer is for.
post() {
    rm -f .send/answer
    if ! answer=$(call_of "$1" 2>&1); then
        code=unread
        return
    fi
    { printf '%s\n' "$answer" >.send/posted && : >.send/text; } || fail_full
    call "$1" >.send/answer 2>.send/why &
    echo $! >.send/call
    wait $! || true
    read_answer
    [ -n "$curl_status" ] || fail "${1#./}: its answer is lost, since $folder/.send cannot be written"
}

# What moves a terminal, beside the controls of ASCII, in UTF-8: those of C1, and marks of direction.
moving=$(printf '\302[\200-\237]|\342(\200[\216\217\252-\256]|\201[\246-\251])')

# Sets: code, that of the answer, or 000 if there is none, or `unread` if curl did not read all of the file; answer, that and what is said, on
# one line; uploaded and size, how many bytes were posted and how many the file has.
read_answer() {
    code='' uploaded='' curl_status='' size=''
    read -r code uploaded curl_status <.send/answer || true
    { read -r _ && read -r size; } <.send/posted || true
    case $curl_status:$code:$uploaded in
    "0:204:$size") answer=204 ;;
    0:204:*) code=unread answer="$uploaded of its $size bytes were read" ;;
    0:*) answer="$code $(head -c 1000 .send/text | tr '[:cntrl:]' '[ *]' | sed -E "s/$moving/ /g; s/ *\$//")" ;;
    26:*) code=unread answer=$(head -n 1 .send/why) ;;
    *) code=000 answer=$(tail -n 1 .send/why) ;;
    esac
}

# Tells whether a run that was cut off has left an answer that decides what becomes of a file, and reads it.
is_answered() {
    [ -s .send/answer ] && [ "$(cat .send/posted)" = "$(call_of "$1" 2>/dev/null)" ] || return 1
    read_answer
    case $code in 204 | 400 | 413) ;; *) return 1 ;; esac
}

# Tells whether a further call may be answered otherwise. By these statuses curl says that it cannot call, or cannot keep the answer.
may_change() {
    case $code:$curl_status in
    000:[1-4] | 000:23 | 000:60 | 000:12[67]) return 1 ;;
    000:* | 408:* | 429:* | 5??:*) ;;
    *) return 1 ;;
    esac
}

# Posts a file, and again while the answer may change, so often at most.
post_again() {
    left=$2 pause=$first_wait
    post "$1"
    while may_change && [ "$left" -gt 1 ]; do
        say "${1#./}: $answer: again in $pause s"
        sleep "$pause"
        left=$((left - 1)) pause=$((pause * 2))
        post "$1"
    done
}

# Moves a file of `.send`, if it is there, to a name, or to one like it that is free. Sets: placed, that name.
place() {
    placed=''
    [ -e "$1" ] || return 0
    placed=$2
    while [ -e "$placed" ]; do placed=${placed%.lp}_.lp; done
    mv -- "$1" "$placed" || { rm -f -- "$placed" && fail "$placed cannot be written; what is meant for it is $folder/$1"; }
}

# Does what is left to do once a batch is out of the folder.
finish() {
    rm -f .send/answer
    IFS= read -r name <.send/name
    count=$(grep -csv '^#' .send/dead.lp) || true
    refused=$((refused + ${count:-0}))
    place .send/dead.lp "$dead/$name"
    [ -z "$sent" ] || place .send/stored.lp "$sent/$name"
    place .send/part-1.lp "./${name%.lp}.0.lp"
    first=$placed
    place .send/part-2.lp "./${name%.lp}.1.lp"
    second=$placed
    rm -f .send/stored.lp .send/out
}

# Takes a batch out of the folder, for what is beside it in `.send`: dead letters, stored lines or halves. Before it goes, nothing of
# these counts; from then on the next run finishes what this one does not. All of it is on the device then.
take_out() {
    printf '%s\n' "${1#./}" >.send/name || fail_full
    for made in .send/name .send/*.lp; do
        [ ! -e "$made" ] || sync "$made" 2>/dev/null || sync
    done
    mv -f -- "$1" .send/out || fail "$folder/$1 cannot be moved"
    finish
}

# Sets: lines, how many a batch has, or 0 if it cannot be cut, since it has texts that are no lines.
count_lines() {
    status=0
    told=$("$relay" --strict --check --summary "$1" 2>&1) || status=$?
    [ "$status" -le 1 ] || fail "to cut $1, $relay: $told"
    lines=$(printf '%s\n' "$told" | sed -n 's/^.* \([0-9]*\) items: [0-9]* carried, 0 refused$/\1/p')
    lines=${lines:-0}
}

# Cuts a batch, and posts its halves in its place.
post_halves() {
    rm -f .send/part-*
    told=$("$relay" --strict --verbatim --batch-lines $(((lines + 1) / 2)) --output .send/part-%01d.lp "$1" 2>&1) ||
        fail "to cut $1, $relay: $told"
    take_out "$1"
    send_both "$first" "$second" "$2"
}
send_both() {
    [ -z "$1" ] || send "$1" "$3"
    [ -z "$2" ] || send "$2" "$3"
}

# Puts all lines of a batch to the dead letters.
refuse_all() {
    { printf '# %s\n' "$answer" && cat "$1"; } >.send/dead.lp || fail_full
    take_out "$1"
}

# For awk: a text as Go writes it in a string of JSON.
# shellcheck disable=SC2016
in_json='
    function in_json(text) {
        gsub(/\\/, "&&", text)
        gsub(/"/, "\\\"", text)
        gsub(/\t/, "\\t", text)
        gsub(/\r/, "\\r", text)
        gsub(/&/, "\\u0026", text)
        gsub(/</, "\\u003c", text)
        gsub(/>/, "\\u003e", text)
        return text
    }'

# Puts the lines that an answer of InfluxDB names to the dead letters, and the others to those that are stored. An answer names all lines that it
# refuses, in their order, each as `unable to parse 'LINE': REASON`, as a string of JSON. Fails if a name is of no line, or if nothing is
# stored and a line is not named.
# shellcheck disable=SC2016
name_lines() {
    status=0
    awk -v moving="$moving" -v size="$(wc -c <"$1")" -v dead=.send/dead.lp -v stored="${sent:+.send/stored.lp}" "$in_json"'
        # The last line of the text that the next name has, if that text begins at this line, and else 0.
        function last_named(line,    text, at, part) {
            part = line_at[line]
            sub(/^[ \t]+/, "", part)
            for (at = 1; ; at += 2) {
                text = in_json(part)
                if (substr(name[next_name], at, length(text)) != text) return 0
                at += length(text)
                if (substr(name[next_name], at, 3) == "\047: ") break
                if (substr(name[next_name], at, 2) != "\\n" || line == count) return 0
                part = line_at[++line]
            }
            reason = substr(name[next_name], at + 3)
            gsub(moving, " ", reason)
            return line
        }
        FNR == 1 { file++ }
        file == 1 && FNR == 1 {
            is_partial = sub(/^\{"error":"partial write: unable to parse \047/, "") && sub(/ dropped=0"\}$/, "")
            if (!is_partial && !(sub(/^\{"error":"unable to parse \047/, "") && sub(/"\}$/, ""))) exit
            names = split($0, name, /\\nunable to parse \047/)
        }
        file == 2 { line_at[++count] = $0; size -= length($0) + 1 }
        END {
            next_name = 1
            for (line = 1; line <= count; line++) {
                last = next_name <= names ? last_named(line) : 0
                if (!last) { if (stored) print line_at[line] >stored; others++; continue }
                print "# 400 unable to parse: " reason >dead
                while (line < last) print line_at[line++] >dead
                print line_at[line] >dead
                next_name++
            }
            exit !names || next_name <= names || size != 0 || (others && !is_partial)
        }' .send/text "$1" || status=$?
    [ "$status" -le 1 ] || fail_full
    return "$status"
}

# Parts a batch of which some lines are stored: lines that have no time go to the dead letters, lines that have the field that the answer names
# to the first part, and the others to the second. Fails if all are of one kind, or have no time where nothing is stored.
# shellcheck disable=SC2016
part_lines() {
    status=0 name='[A-Za-z0-9_./:@%-]*'
    printf '# may be stored: %s\n' "$answer" >.send/dead.lp || fail_full
    named=$(sed -n "s/^.*input field .\"\\($name\\).\" on measurement .\"\\($name\\).\" is type \\([a-z]*\\), .*/\\1 \\2 \\3/p" .send/text)
    awk -v named="$named" -v dead=.send/dead.lp -v part=.send/part- -v nothing="$2" '
        # What begins a line that has the field, with a value of that type.
        function with_field(words,    field) {
            if (split(words, field, " ") != 3) return "^$"
            gsub(/\./, "[.]", field[1])
            gsub(/\./, "[.]", field[2])
            return "^[ \t]*" field[2] "[, ](.*[, ])?" field[1] "=" value[field[3]]
        }
        BEGIN {
            series = "^[ \t]*([^\\\\ ]|\\\\.)+ +"
            fields = "([^\"\\\\ ]|\\\\.|\"([^\"\\\\]|\\\\.)*\")"
            has_time = series fields "+ +-?[0-9]+ *$"
            is_open = series fields "*\"([^\"\\\\]|\\\\.)*\\\\?$"
            value["boolean"] = "[tTfF]"; value["string"] = "\""; value["integer"] = "[-+]?[0-9]+i"
            value["float"] = "[-+0-9.eE]+([, ]|$)"; value["unsigned"] = "[0-9]+u"
            has_field = with_field(named)
        }
        !is_going && /^[ \t]*(#|$)/ { next }
        { text = is_going ? text "\n" $0 : $0 }
        { is_going = text ~ is_open || text ~ /(^|[^\\])(\\\\)*\\$/ }
        is_going { next }
        text !~ has_time { print text >>dead; timeless++; next }
        { print text >(part (text ~ has_field ? 1 : 2) ".lp"); text ~ has_field ? first++ : second++ }
        END {
            if (is_going) { print text >>dead; timeless++ }
            exit timeless ? nothing && !first && !second : !first || !second
        }' "$1" || status=$?
    [ "$status" -le 1 ] || fail_full
    return "$status"
}

# Judges a batch of which the answer refuses lines that it does not name.
refuse_some() {
    count_lines "$1"
    dropped=$(sed -n 's/^{"error":"partial write: .* dropped=\([0-9]*\)"}$/\1/p' .send/text)
    nothing=''
    [ "$answer" != '400 {"error":"field type conflict"}' ] || nothing=yes
    rm -f .send/part-*
    if [ "$lines" -le 1 ] || [ "$dropped" = "$lines" ]; then
        refuse_all "$1"
    elif part_lines "$1" "$nothing"; then
        [ "$(wc -l <.send/dead.lp)" -gt 1 ] || rm .send/dead.lp
        take_out "$1"
        send_both "$first" "$second" full
    else
        rm -f .send/dead.lp
        post_halves "$1" full
    fi
}

# Judges a batch that is answered with 400.
refuse() {
    case $answer in
    '400 {"error":"unable to parse '* | '400 {"error":"partial write: unable to parse '*)
        rm -f .send/dead.lp .send/stored.lp
        if [ "$uploaded" = "$size" ] && name_lines "$1"; then
            case $answer in *'"partial'*) well=yes failures=0 ;; esac
            take_out "$1"
            return
        fi
        rm -f .send/dead.lp .send/stored.lp
        ;;
    *'partial write: '* | *'field type conflict'* | *'too long line'*) ;;
    *)
        search "$1" "$2"
        return
        ;;
    esac
    refuse_some "$1"
}

# Ends the run if the server answers a call without lines as it does one with them, or if it failed for too many calls.
want_well() {
    well='' told=$answer
    : >.send/nothing
    post .send/nothing
    answer="$told; and of no lines: $answer"
    [ "$code" = 204 ] || ! may_change || stop "$1"
    [ "$code" = 204 ] || fail "${1#./}: $answer"
    answer=$told
    [ "$failures" -lt 25 ] || stop "$1"
}

# Looks for the lines of a batch for which the server fails: of a batch with such a line it stores nothing. If it stores nothing
# meanwhile, it may fail for each line, and the batch is left.
search() {
    [ "$2" = once ] || want_well "$1"
    failures=$((failures + 1))
    count_lines "$1"
    if [ "$lines" -gt 1 ] && { [ -n "$well" ] || [ "$failures" -lt 25 ]; }; then
        post_halves "$1" once
    elif [ "$lines" -le 1 ] && [ -n "$well" ]; then
        refuse_all "$1"
    else
        say "${1#./}: $answer: it is left"
        batches_left=$((batches_left + 1))
        printf '%s\n' "$1" >>.send/left
    fi
}

# Posts a batch, `full` times or `once`, and what it is cut into, and judges the answers.
send() {
    if ! is_answered "$1"; then
        case $2 in full) post_again "$1" "$tries" ;; once) post "$1" ;; esac
    fi
    case $code in
    204)
        well=yes failures=0
        [ -z "$sent" ] || cp -- "$1" .send/stored.lp || fail_full
        take_out "$1"
        ;;
    400) refuse "$1" "$2" ;;
    413)
        count_lines "$1"
        if [ "$lines" -gt 1 ]; then post_halves "$1" "$2"; else refuse_all "$1"; fi
        ;;
    500) search "$1" "$2" ;;
    unread)
        unread="${1#./}: $answer"
        say "$unread: it is left"
        batches_left=$((batches_left + 1))
        ;;
    *) if may_change; then stop "$1"; else fail "${1#./}: $answer"; fi ;;
    esac
}

# Makes the reserve, if the device has room for four of these.
keep_reserve() {
    [ ! -e .send/reserve ] || return 0
    [ "$(df -Pk .send | awk 'NR == 2 { print $4 }')" -lt 16384 ] || head -c 4194304 /dev/urandom >.send/reserve || rm -f .send/reserve
}

# Tells whether `.send` has room for so many bytes.
has_room() {
    status=0
    head -c "$1" /dev/zero 2>/dev/null >.send/room || status=1
    rm -f .send/room
    return "$status"
}

# Makes room on a full device for what becomes of the first batch. Without the reserve, batches that the server stores make it.
make_room() {
    need=$(wc -c 2>/dev/null <"$1") || need=0
    need=$((32768 + 2 * need))
    ! has_room "$need" || return 0
    rm -f .send/reserve
    for batch in "$@"; do
        ! has_room "$need" || return 0
        is_answered "$batch" || post_unnoted "$batch"
        case $code in
        204) batches=$((batches + 1)) ;;
        400 | 413 | 500 | unread) continue ;;
        *) return 0 ;;
        esac
        if [ -n "$sent" ]; then place "$batch" "$sent/${batch#./}"; else rm -- "$batch"; fi
    done
}

# Posts a batch without a note of the call. Sets: code, as `read_answer` does.
post_unnoted() {
    code=unread
    size=$(wc -c 2>/dev/null <"$1") || return 0
    answer=$(call "$1" 2>/dev/null)
    case $answer in
    "204 $size 0") code=204 ;;
    204\ *) ;;
    *) code=${answer%% *} ;;
    esac
}

# Ends the run, since what is left would be answered in the same way for now.
stop() {
    say "${1#./}: $answer: nothing more is sent for now"
    end
}

# Tells the counts, and ends the run.
end() {
    is_told=yes batches_left=0
    for batch in ./*.lp; do
        [ ! -f "$batch" ] || batches_left=$((batches_left + 1))
    done
    keep_reserve
    say "$batches batches sent, $refused lines refused, $batches_left batches left"
    [ -z "$unread" ] || fail "$unread"
    [ "$batches_left" = 0 ] || exit 75
    [ "$refused" = 0 ] || exit 1
    exit 0
}

# well: yes if the server has stored lines since the first answer of the batch under way that may be a failure of the server.
# failures: how often it has failed since it stored lines.
# unread: which batch cannot be read, and why.
refused=0 well='' failures=0 batches=0 batches_left=0 is_told='' unread=''
back=''
[ ! -t 2 ] || back=$(printf '\r\033[K')
# Where a command fails unlooked for, the status is that of a failure.
trap '[ -n "$is_told" ] || exit 2' EXIT
take_words "$@"
mkdir -p "$folder/.send" "$dead" ${sent:+"$sent"} || fail "the folders cannot be made"
for other in "$dead" ${sent:+"$sent"}; do
    [ "$(cd "$other" && pwd -P)" != "$(cd "$folder" && pwd -P)" ] || fail "$other is the folder of the batches"
done
cd "$folder"
lock
rm -f .send/left
if [ -e .send/out ]; then finish; else rm -f .send/dead.lp .send/stored.lp .send/part-*; fi
set -- ./*.lp
[ ! -f "$1" ] || make_room "$@"
for batch in "$@"; do
    [ -f "$batch" ] || continue
    [ -z "$back" ] || printf '%ssend: %s of %s batches' "$back" "$batches" "$#" >&2
    left_before=$batches_left
    send "$batch" full
    [ "$batches_left" != "$left_before" ] || batches=$((batches + 1))
done
# Each batch that was left is tried once more, if the server stored the last lines that it was sent.
if [ -s .send/left ] && [ "$failures" = 0 ]; then
    well=yes
    mv .send/left .send/again
    while IFS= read -r batch <&3; do send "$batch" once; done 3<.send/again
fi
end
