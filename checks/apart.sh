#!/usr/bin/env bash
# Runs examples/apart.sh over a sparse file of more than 2^32 bytes, and then where its arguments are wrong, or a command, a folder or
# an output fails. A stub is in the relay's place.
#
#   checks/apart.sh [RELAY]
#
# RELAY: a built lp_relay, which then relays files in parts too, also by random options, with `split`, and by checks/ranges.py. SEED: the
# number that these tell, to try the same options and texts again.
# shellcheck disable=SC2016
set -eu
top=$(cd "$(dirname "$0")/.." && pwd)
apart=$top/examples/apart.sh
relay=${1:+$(readlink -f "$1")}
work=$(mktemp -d)
trap 'rm -rf "$work"' EXIT
cd "$work"

# For --cut the stub does what CUTS says. It knows one wrong option. Without a file it counts nothing. Of a range of a file, which it reads
# as its input, it writes what RELAYS says of its other words, and then what COUNTS says. `first` is the number that its items begin with,
# and `again` is set if it relays a part once more.
cat >stub <<'STUB'
#!/bin/bash
first=1
again=
case " $* " in
*" --cut "*) eval "$CUTS"; exit ;;
*" --wrong "* | *" --summary --summary "*) echo 'usage: stub' >&2; exit 2 ;;
*" --help "*) echo 'usage: stub'; exit ;;
esac
[ "${*: -3:1}" = --range ] || { echo "0 bytes, 0 lines, 0 items: 0 carried, 0 refused" >&2; exit; }
file=${*: -1}
range=${*: -2:1}
set -- "${@:1:$#-3}"
case " $* " in *" --check --first-"*) again=yes first=${*: -1} ;; esac
start=${range%..*} end=${range#*..}
dd if="$file" iflag=fullblock,skip_bytes,count_bytes skip="$start" count=$((end - start)) bs=64K status=none | (eval "$RELAYS")
status=${PIPESTATUS[1]}
[ $status -gt 1 ] || eval "$COUNTS" >&2
exit $status
STUB
chmod +x stub
mkdir waiting
export LP_RELAY=$work/stub TMPDIR=$work/waiting CUTS RELAYS COUNTS counts
counts='echo "7 bytes, 1 lines, 1 items: $((1 - status)) carried, $status refused"'
COUNTS=$counts

# Runs a command, and leaves `out`, `err` and `status`. Both outputs are pipes, also where no file can be written.
run() {
    { { "$@" 2>&3 | cat >out; echo "${PIPESTATUS[0]}" >ended; } 3>&1 | cat >err; }
    status=$(cat ended)
}

# wanted STATUS OUTPUT ERROR COMMAND..: ERROR is a pattern for the last line of standard error.
wanted() {
    local status status_wanted=$1 output=$2 error=$3 last
    shift 3
    run "$@"
    last=$(tail -n 1 err)
    # shellcheck disable=SC2053
    if [ "$status" != "$status_wanted" ] || [ "$(cat out)" != "$output" ] || [[ $last != $error ]]; then
        echo "apart: ($*) ends with status $status, where $status_wanted is wanted, writes $(head -c 200 out), and says"
        head -n 20 err
        exit 1
    fi
    tried=$((tried + 1))
}
tried=0

# A file whose parts begin and end with marks: 2^31 and 2^32 bytes are within the second part and the fourth.
ends=(2147483640 2147483653 2325000000 4294967300 4300000000)
truncate -s "${ends[-1]}" large
sums=
start=0
for number in 1 2 3 4 5; do
    end=${ends[number - 1]}
    printf '<%s' "$number" | dd of=large seek="$start" oflag=seek_bytes conv=notrunc status=none
    printf '%s>' "$number" | dd of=large seek="$((end - 2))" oflag=seek_bytes conv=notrunc status=none
    sums+=$({ printf '<%s' "$number"; head -c "$((end - start - 4))" /dev/zero; printf '%s>' "$number"; } | cksum)$'\n'
    start=$end
done
CUTS="printf '%s\n' ${ends[*]}"
RELAYS="cksum"
wanted 0 "${sums%?}" "" "$apart" large 5
rm large

# From here on the file has 30 bytes, and each relay writes again what it reads.
text='first line,second one,the rest'
printf '%s' "$text" >"a small file"
file="a small file"
cuts="printf '%s\n' 10 10 20 30"
CUTS=$cuts
RELAYS="cat"
wanted 0 "$text" "" "$apart" "$file" 4
cp "$file" ./--in
wanted 0 "$text" "" "$apart" --in 4
from_a_file() { "$apart" /dev/stdin 4 <"$file"; }
whole=$(readlink -f "$file")
wanted 0 "$text" "" from_a_file
CUTS="echo \"\$*\" >&2; $cuts"
RELAYS='cat >&2; echo >&2; echo "$*"'
for dialect in --strict --newline-delimited; do
    words="--summary --lines $dialect"
    wanted 0 "$words"$'\n'"$words"$'\n'"$words"$'\n'"$words" "e,the rest" "$apart" "$file" 4 --lines "$dialect"
    grep -qx -- "$dialect --cut 4 $whole" err
done
CUTS=$cuts
# Parts that refuse something: none, all, and the third one, of which the first relay writes two lines. All but the first one are
# relayed once more.
faults_wanted() {
    if [ "$(cat err)" != "$1" ]; then
        echo "apart: the faults are not $1, but"
        cat err
        exit 1
    fi
}
RELAYS='cat; case " $* " in *" --strict "*) echo "item $first: no line" >&2; exit 1 ;; esac'
wanted 0 "$text" "" "$apart" "$file" 4
wanted 1 "$text" "item 4: *" "$apart" "$file" 4 --strict
faults_wanted $'item 1: no line\nitem 2: no line\nitem 3: no line\nitem 4: no line'
wanted 1 "$text" "28 bytes, 4 lines, 4 items: 0 carried, 4 refused" "$apart" "$file" 4 --summary --strict
wanted 0 "$text" "28 bytes, 4 lines, 4 items: 4 carried, 0 refused" "$apart" "$file" 4 --summary
RELAYS='text=$(cat); printf %s "$text"; case $text in ,*) echo "item $first: no line" >&2; exit 1 ;; esac'
wanted 1 "$text" "item 3: *" "$apart" "$file" 4
faults_wanted "item 3: no line"
RELAYS='cat; echo "$*" >&2; exit 1'
wanted 1 "$text" "--summary *" "$apart" "$file" 4 --check --max-line 7
faults_wanted "--summary --check --max-line 7
--summary --max-line 7 --check --first-item 2
--summary --max-line 7 --check --first-item 3
--summary --max-line 7 --check --first-item 4"
# An object names its item and its line, in whichever order the options come.
for words in "--lines --faults json" "--faults json --lines"; do
    # shellcheck disable=SC2086
    wanted 1 "$text" "--summary --faults json --check --first-item 4 --first-line 4" "$apart" "$file" 4 $words
    faults_wanted "--summary $words
--summary --faults json --check --first-item 2 --first-line 2
--summary --faults json --check --first-item 3 --first-line 3
--summary --faults json --check --first-item 4 --first-line 4"
done
# Each of twelve relays waits until all run.
CUTS="seq 19 30"
RELAYS='echo >>running; tries=0; while [ "$(wc -l <running)" -lt 12 ] && [ $tries -lt 100 ]; do sleep 0.1; tries=$((tries + 1)); done
[ $tries -lt 100 ] || exit 2; cat'
wanted 0 "$text" "" env LP_JOBS=12 "$apart" "$file" 12
# A hundred parts, of which the last one has all.
CUTS="yes 0 | head -n 99; echo 30"
RELAYS="cat"
wanted 0 "$text" "" "$apart" "$file" 100
CUTS=$cuts

# Wrong arguments. What can be read only once is not read.
wanted 2 "" "apart: usage: *" "$apart"
wanted 2 "" "apart: usage: *" "$apart" "$file"
for parts in "" 0 04 -1 +4 4.0 1e2 1000 18446744073709551620 x; do
    wanted 2 "" "apart: $parts is not a number of parts*" "$apart" "$file" "$parts"
done
wanted 2 "" "apart: with the options (--wrong) the status of * is 2" "$apart" "$file" 4 --wrong
wanted 2 "" "apart: the options (--help) are not *" "$apart" "$file" 4 --help
for words in "--output again" "--output=again" "--strict -o again" "--refused again" "--refused=again" "--append" "again" "--lines -" \
    "--max-line 7 7" "--batch-lines=9" "--portable influx1 again"; do
    # shellcheck disable=SC2086
    wanted 2 "" "apart: the options ($words) name a file" "$apart" "$file" 4 $words
done
for words in "--strict --first-item 7" "--first-line 7" "--first-item=7"; do
    # shellcheck disable=SC2086
    wanted 2 "" "apart: the options ($words) say where the numbers begin*" "$apart" "$file" 4 $words
done
for words in "--range 7.." "--range=7.." "--cut 7"; do
    # shellcheck disable=SC2086
    wanted 2 "" "apart: the options ($words) name a part" "$apart" "$file" 4 $words
done
for words in --now "--types strict" --types=strict "--max-faults 7"; do
    # shellcheck disable=SC2086
    wanted 2 "" "apart: the options ($words) give otherwise in parts than in one run" "$apart" "$file" 4 $words
done
[ ! -e again ] || { echo "apart: a run that is refused makes a file"; exit 1; }
# Words after options, and a value after an equals sign.
RELAYS='cat; echo "$*" >&2; exit 1'
for words in "--portable influx1 --time-unit=ms" "--faults editor --times=1..2"; do
    # shellcheck disable=SC2086
    wanted 1 "$text" "--summary *" "$apart" "$file" 4 --check $words
done
faults_wanted "--summary --check --faults editor --times 1..2
--summary --faults editor --times 1..2 --check --first-line 2
--summary --faults editor --times 1..2 --check --first-line 3
--summary --faults editor --times 1..2 --check --first-line 4"
RELAYS="cat"
wanted 2 "" "apart: with the options (--summary --summary) the status of * is 2" "$apart" "$file" 4 --summary --summary
wanted 2 "" "apart: * is not a regular file*" "$apart" "$work" 4
wanted 2 "" "apart: none is not a regular file*" "$apart" none 4
wanted 2 "" "apart: * is not a regular file*" "$apart" <(cat "$file") 4
from_a_pipe() { printf '%s' "$text" | { "$apart" /dev/stdin 4 && ended=0 || ended=$?; cat; return "$ended"; }; }
wanted 2 "$text" "apart: /dev/stdin is not a regular file*" from_a_pipe
wanted 2 "" "apart: with the options () the status of none is 127" env LP_RELAY=none "$apart" "$file" 4

# Ends that are none.
ends_wanted() {
    CUTS=$1
    wanted 2 "" "$2" "$apart" "$file" 4
}
ends_wanted "$cuts; exit 3" "apart: the status of --cut is 3"
ends_wanted ":" "apart: --cut gives 1 ends for 4 parts"
ends_wanted "printf '%s\n' 10 20 30" "apart: --cut gives 3 ends for 4 parts"
ends_wanted "printf '%s\n' 10 20 30 30 30" "apart: --cut gives 5 ends for 4 parts"
ends_wanted "printf '%s\n' 10 2e+01 30 30" "apart: --cut gives the end 2e+01 after 10"
ends_wanted "printf '%s\n' 10 020 30 30" "apart: --cut gives the end 020 after 10"
ends_wanted "printf '%s\n' 20 10 30 30" "apart: --cut gives the end 10 after 20"
ends_wanted "printf '%s\n' 10 20 20 29" "apart: a small file has 30 bytes, but the last part ends at 29"
ends_wanted "printf '%s\n' 10 20 30 40" "apart: a small file has 30 bytes, but the last part ends at 40"
CUTS=$cuts

# A relay that fails, at the third part. What the parts before it gave was put out.
relays_wanted() {
    RELAYS=$1
    wanted 2 "${3-first line}" "$2" "$apart" "$file" 4 "${@:4}"
}
relays_wanted 'text=$(cat); case $text in ,*) printf "%s\n" "item 1: no line" "lp_relay: why" >&2; exit 2 ;; *) printf %s "$text" ;; esac' \
    "apart: part 3: the status of the relay is 2"
grep -qx 'part 3, item 1: no line' err
grep -qx 'part 3, lp_relay: why' err
relays_wanted 'text=$(cat); case $text in ,*) kill -9 $$ ;; *) printf %s "$text" ;; esac' \
    "apart: part 3: the status of the relay is 137"
# So does a relay that tells no counts, and one that fails, or counts otherwise, when the part is relayed once more, as for raw faults: all
# lines came before.
COUNTS=:
relays_wanted 'text=$(cat); printf %s "$text"; case $text in ,*) ;; *) status=0; eval "$counts" >&2 ;; esac' \
    "apart: part 3: its counts are not known"
relays_wanted 'text=$(cat); printf %s "$text"; echo "item $first: no line" >&2; status=1
case $text$again in ,*yes) echo "7 bytes, 1 lines, 2 items: 1 carried, 1 refused" >&2 ;; *) eval "$counts" >&2 ;; esac; exit 1' \
    "apart: part 3: a second relay counts otherwise" "$text" --faults raw
COUNTS=$counts
relays_wanted 'text=$(cat); printf %s "$text"; echo "item $first: no line" >&2
case $text$again in ,*yes) echo "lp_relay: why" >&2; exit 2 ;; esac; exit 1' \
    "apart: part 3: the status of the relay is 2" "$text" --faults raw
faults_wanted "item 1: no line
item 2: no line
part 3, item 3: no line
part 3, lp_relay: why
apart: part 3: the status of the relay is 2"
RELAYS="cat"

# The lines of the parts before tell the number of the first line.
RELAYS='text=$(cat); printf %s "$text"; case $text in ,*) echo "line $first: no line" >&2; exit 1 ;; esac'
COUNTS='echo "7 bytes, 5 lines, 1 items: $((1 - status)) carried, $status refused"'
wanted 1 "$text" "line 11: *" "$apart" "$file" 4 --lines
COUNTS=$counts

# A TMPDIR that is missing, that holds nothing, and that holds too little. A limit of the shell is in the place of a full disk.
limited() { (trap '' XFSZ; ulimit -f "$1"; shift; exec "$@"); }
wanted 2 "" "apart: there is no TMPDIR to write to" env TMPDIR="$work/none" "$apart" "$file" 4
wanted 2 "" "apart: part 1: its status is not known" limited 0 "$apart" "$file" 4
grep -qx 'apart: nothing more can be written to TMPDIR' err
RELAYS='head -c 100000 /dev/zero || exit 2'
wanted 2 "" "apart: part 1: the status of the relay is 2" limited 8 "$apart" "$file" 4

# An output that is full, that is closed, or that nobody reads any longer.
RELAYS='yes | head -c 1000000; echo "item 1: no line" >&2; exit 1'
to_full() { "$apart" "$file" 4 >/dev/full; }
wanted 2 "" "apart: the output cannot be written" to_full
to_closed() { "$apart" "$file" 4 >&-; }
wanted 2 "" "apart: the output cannot be written" to_closed
to_a_closed_pipe() { "$apart" "$file" 4 | head -c 1; return "${PIPESTATUS[0]}"; }
wanted 2 y "apart: the output cannot be written" to_a_closed_pipe
faults_to_full() { "$apart" "$file" 4 2>/dev/full; }
RELAYS='cat; echo "item 1: no line" >&2; exit 1'
wanted 2 "$text" "" faults_to_full

# An output that is a file: the parts come to their places, what came before stays, and what comes after follows. So it is if the file is
# appended to, or written over in its midst, and if its parts fail or it is full: then it ends with a part.
# in_file OUTPUT STATUS ERROR [TEXT]: runs `into_file`, which writes to the file `filed`, in which a text may be.
in_file() {
    local status=0 output=$1
    printf %s "${4-}" >filed
    into_file 2>err || status=$?
    # shellcheck disable=SC2053
    if [ "$status" != "$2" ] || [ "$(cat filed)" != "$output" ] || [[ $(tail -n 1 err) != $3 ]]; then
        echo "apart: in a file, status is $status, where $2 is wanted, and its output is $(head -c 200 filed)"
        head -n 20 err
        exit 1
    fi
    tried=$((tried + 1))
}
RELAYS="cat"
into_file() { "$apart" "$file" 4 >filed; }
in_file "$text" 0 ""
into_file() { { printf '<'; "$apart" "$file" 4; printf '>'; } >filed; }
in_file "<$text>" 0 ""
into_file() { { "$apart" "$file" 4; printf '>'; } >>filed; }
in_file "before $text>" 0 "" "before "
into_file() { { "$apart" "$file" 4; printf '>'; } 1<>filed; }
in_file "$text> and more" 0 "" "0123456789012345678901234567890 and more"
RELAYS='text=$(cat); case $text in ,*) echo "lp_relay: why" >&2; exit 2 ;; *) printf %s "$text" ;; esac'
into_file() { { printf '<'; "$apart" "$file" 4 && ended=0 || ended=$?; printf '>'; return "$ended"; } >filed; }
in_file "<first line>" 2 "apart: part 3: the status of the relay is 2"
# A limit of 4 KiB. Each part fits, and three of them do not.
RELAYS='head -c 2000 /dev/zero | tr "\0" x'
CUTS="seq 27 30"
into_file() { limited 4 "$apart" "$file" 4 >filed; }
in_file "$(head -c 4000 /dev/zero | tr '\0' x)" 2 "apart: the output cannot be written"
CUTS=$cuts
if [ -n "$(ls -A waiting)" ]; then
    echo "apart: a run has left $(ls -A waiting) in TMPDIR"
    exit 1
fi
echo "apart: $tried runs with a stub ended as they should"
[ -n "$relay" ] || exit 0

# Compares both outputs of a relay in parts, which are files, and its status, with those of one relay: INPUT "PARTS.." OPTION..
compared=0
seed=${SEED:-$RANDOM}
compare() {
    local input=$1 counts=$2 parts status_wanted=0
    shift 2
    "$relay" "$@" "$(readlink -f "$input")" >wanted 2>wanted_err || status_wanted=$?
    for parts in $counts; do
        LP_RELAY=$relay "$apart" "$input" "$parts" "$@" >out 2>err && status=0 || status=$?
        if [ "$status" != "$status_wanted" ] || ! cmp out wanted || ! cmp err wanted_err; then
            echo "apart: of $input in $parts parts ($*) lp_relay writes something else, or has status $status, not $status_wanted; SEED=$seed"
            exit 1
        fi
        compared=$((compared + 1))
    done
}
# Lines that a relay carries, one of which has a newline within a string, and three that it refuses, the last one after a comment,
# with which it is one piece in the crate's dialect.
item='m s="a
b"'
yes "$item"$'\nx\n# c\ncpu f=1i,g=2 5\ny\n#\\\n x' | head -n 6000 >lines
# Three of eight parts have faults, and the text does not end in a newline.
{
    yes 'cpu f=1i 5' | head -n 8000 | sed '2500s/.*/x/; 2600s/.*/m s="a/; 2601s/.*/b"/; 4500s/.*/\xff/; 7999s/.*/a name w\\\t f=1/'
    printf 'y'
} >three
# A string over many lines is where most of the cuts would be, and after it one that is not closed.
{ echo x; printf 'm s="'; yes 'a line of the string' | head -n 5000; printf '"\ny\nm s="'; yes $'\nz' | head -n 2000; } >string
: >empty
echo >newline
inputs=(lines three string empty newline)
for input in "${inputs[@]}"; do
    compare "$input" "1 8 64"
    compare "$input" "1 8 64" --lines --summary
    compare "$input" "1 8 64" --strict --verbatim --check --lines
    compare "$input" "1 8 64" --max-line 11 --summary
    compare "$input" "1 8 64" --faults json --strict
    compare "$input" "1 8 64" --newline-delimited --lines
    compare "$input" "1 8" --newline-delimited --whole-lines --summary
done
# Each option in half of the runs, in any order.
RANDOM=$seed
for _ in $(seq 24); do
    left=(--lines --check --summary --progress "--max-line $((RANDOM % 20))")
    case $((RANDOM % 2)) in 0) left+=(--strict) ;; 1) left+=(--newline-delimited) ;; esac
    case $((RANDOM % 3)) in 0) left+=(--verbatim) ;; 1) left+=(--canonical) ;; esac
    case $((RANDOM % 4)) in 0) left+=("--faults raw") ;; 1) left+=("--faults line") ;; *) left+=("--faults json") ;; esac
    options=
    while [ ${#left[@]} != 0 ]; do
        place=$((RANDOM % ${#left[@]}))
        [ $((RANDOM % 2)) = 0 ] || options+=" ${left[place]}"
        left=("${left[@]:0:place}" "${left[@]:place+1}")
    done
    # shellcheck disable=SC2086
    compare "${inputs[RANDOM % 3]}" $((2 + RANDOM % 63)) $options
done
echo "apart: a relay's parts give what the whole gives, also its faults, in $compared runs, by random options of SEED=$seed"

python3 -B "$top/checks/ranges.py" "$relay" "$seed"

# Where each newline ends a line, parts that `split` cuts give the same lines, and the same faults but for their numbers.
export relay
compared=0
for input in "${inputs[@]}"; do
    "$relay" --newline-delimited "$input" >wanted 2>wanted_err || [ $? = 1 ]
    for how in "-C 1000" "-n l/64"; do
        # shellcheck disable=SC2086
        split $how --filter='"$relay" --newline-delimited || [ $? = 1 ]' "$input" >out 2>err
        if ! cmp out wanted || ! cmp <(sed 's/^item [0-9]*//' err) <(sed 's/^item [0-9]*//' wanted_err); then
            echo "apart: of $input in the parts of split $how lp_relay --newline-delimited writes something else"
            exit 1
        fi
        compared=$((compared + 1))
    done
done
echo "apart: so do the parts that split cuts, if each newline ends a line, in $compared runs"
