#!/usr/bin/env bash
# Runs the launchers, and builds several crates at once, in a copy of this repository that has small crates, where a stub is in the place
# of `rt`: when they build, in which order and what side by side, what the program gets and gives, and what comes if a crate cannot be
# built or the run is ended.
set -euo pipefail
repository=$(cd "$(dirname "$0")/.." && pwd)
. "$repository/checks/left_out.sh"
made=$(mktemp -d)
trap 'rm -rf "$made"' EXIT
mkdir -p "$made"/{kit/bin,elsewhere,kept}
copy="$made/a copy"
for crate in lp_low lp_relay_program lp_rebuild_program lp_series_program lp_other lp_left lp_right lp_both lp_c; do
    mkdir -p "$copy/crates/$crate"/{src,specs,proofs/f}
    touch "$copy/crates/$crate"/{src/lib.rt,specs/Lib.antt,proofs/f/Answers.antt}
done
for crate in lp_relay_program lp_rebuild_program lp_series_program lp_both; do mv "$copy/crates/$crate/src"/{lib,main}.rt; done
cat >"$copy/crates.txt" <<'LINES'
lp_rebuild_program: lp_low
lp_relay_program: lp_low std_lib
lp_series_program: lp_low
lp_other:
lp_low:
lp_both: lp_right std_lib lp_left
lp_left: lp_low
lp_right: lp_low
lp_c staticlib: lp_left
LINES
cp -r "$repository"/{launch.sh,lp_relay,lp_rebuild,lp_series,bin} "$repository"/LICENSE-* "$copy"
ln -s "$copy/lp_relay" "$made/elsewhere/relay"
cat >"$copy/several" <<'SCRIPT'
#!/usr/bin/env bash
. "$(dirname "$0")/launch.sh"
build_if_changed several lp_both lp_c || exit 2
SCRIPT
chmod +x "$copy/several"

# The stub notes the crate and the command. It fails where a lower crate is not built. It says WHY and fails in the crate that FAILS names,
# once SLOW is being built, which takes a minute. Each crate of MEET waits until all of them are being built. In the crate SHOWN it says how far
# it is, and waits for a moment. The program that it makes prints its arguments, a line each, and its input, and ends with status 7.
cat >"$made/kit/bin/rt" <<'STUB'
#!/bin/sh
until_called() { timeout 30 sh -c 'until grep -q "^$0 " "$CALLS"; do sleep 0.05; done' "$1"; }
crate=$(basename "$PWD")
for low in $(sed -n "s/^$crate[^:]*://p" ../../crates.txt); do
    [ ! -d "../$low" ] || [ -e "../$low/out/rlib/stamp" ] || { echo "$low is not built"; exit 1; }
done
echo "$crate $1" >>"$CALLS"
[ "$crate" != "$FAILS" ] || { [ -z "$SLOW" ] || until_called "$SLOW"; echo "$WHY" >&2; exit 1; }
[ "$crate" != "$SLOW" ] || { echo $$ >"$KEPT/slow"; exec sleep 60; }
case " $MEET " in *" $crate "*) for other in $MEET; do until_called "$other" || exit 1; done ;; esac
[ "$crate" != "$SHOWN" ] || { sleep 1.5; echo "so far: 5 of 10 functions checked"; sleep 2.5; }
mkdir -p out/incremental out/rlib
echo "$crate" >>out/incremental/runs
touch out/rlib/stamp
made=out/$crate
[ "$1" = run ] || made=out/lib$crate.a
printf '#!/bin/sh\necho %s\nprintf "%%s\\n" "$@"\ncat\nexit 7\n' "$crate" >"$made"
chmod +x "$made"
STUB
cat >"$made/kit/bin/nproc" <<'STUB'
#!/bin/sh
echo "$PROCESSORS"
STUB
chmod +x "$made/kit/bin"/*
export PATH=$made/kit/bin:$PATH CALLS=$made/calls FAILS=none SLOW='' MEET='' SHOWN='' WHY="so far: a reason" KEPT=$made/kept PROCESSORS=4

# wanted STATUS OUTPUT CALLS LAUNCHER: what a launcher gives for the arguments `--strict`, `a  b` and an empty one, and the input `in`;
# and what it had the stub do, in this order or, if CALLS begins with `sorted`, in any. The last line of standard error is left in `last`.
runs=0
wanted() {
    local status=0 calls
    : >"$CALLS"
    printf in | "$4" --strict "a  b" "" >"$made/out" 2>"$made/err" || status=$?
    last=$(tail -n 1 "$made/err")
    runs=$((runs + 1))
    calls=$(cat "$CALLS")
    [[ $3 != sorted* ]] || calls=sorted$'\n'$(sort "$CALLS")
    if [ "$status" = "$1" ] && [ "$(cat "$made/out")" = "$2" ] && [ "$calls" = "$3" ] && [ ! -e "$copy/out" ] &&
        { [ "$status" = 2 ] || [ ! -s "$made/err" ]; }; then return; fi
    echo "launch: $4 ends with status $status, where $1 is wanted, calls rt for ($(paste -sd, "$CALLS")), and prints"
    cat "$made/out" "$made/err"
    exit 1
}
# said LAST LINE: these are the last line of standard error and one of its lines.
said() {
    if [ "$last" = "$1" ] && grep -qxF "$2" "$made/err"; then return; fi
    echo "launch: standard error has not these lines: $1, $2"
    cat "$made/err"
    exit 1
}
# Whether what takes a minute has ended, with no copy of the sources left, and nothing noted as built.
is_clean() {
    [ -z "$(find "$copy"/crates/lp_{both,c} -name launcher.stamp)" ] && [ ! -e "$copy/out" ] && ! kill -0 "$(cat "$KEPT/slow")" 2>/dev/null
}
# ended WHAT: sees that this is so in a moment.
ended() {
    for _ in $(seq 200); do
        ! is_clean || return 0
        sleep 0.05
    done
    echo "launch: where $1, something runs on, a copy is left, or a crate is noted as built"
    exit 1
}
given=$'--strict\na  b\n\nin'
relay=$'lp_low lib\nlp_relay_program run'
wanted 7 "lp_relay_program"$'\n'"$given" "$relay" "$copy/lp_relay"
wanted 7 "lp_rebuild_program"$'\n'"$given" $'lp_low lib\nlp_rebuild_program run' "$copy/lp_rebuild"
wanted 7 "lp_series_program"$'\n'"$given" $'lp_low lib\nlp_series_program run' "$copy/lp_series"
# What was built is run as it is, also by a link and from another folder, and after a change of a crate that it is not built from.
cd "$made/elsewhere"
touch "$copy/crates/lp_other/src/more.rt"
echo '// more' >>"$copy/crates/lp_other/src/lib.rt"
wanted 7 "lp_relay_program"$'\n'"$given" "" ./relay
# A change of what it is built from, of its own or of a crate below, and a program that is gone.
for file in crates/lp_relay_program/src/main.rt crates/lp_low/src/lib.rt crates/lp_low/specs/Lib.antt crates/lp_low/proofs/f/Answers.antt \
    crates/lp_relay_program/proofs/f/Answers.antt crates.txt; do
    echo "# more" >>"$copy/$file"
    wanted 7 "lp_relay_program"$'\n'"$given" "$relay" ./relay
    wanted 7 "lp_relay_program"$'\n'"$given" "" ./relay
done
rm "$copy/crates/lp_relay_program/out/lp_relay_program"
wanted 7 "lp_relay_program"$'\n'"$given" "$relay" ./relay
# A file of another script in out/ stays there, and a script that ends at its first failure builds all the same, as bin/install does.
rm "$copy/crates/lp_relay_program/out/lp_relay_program"
mkdir "$copy/out" && touch "$copy/out/of_another_script"
runs=$((runs + 1))
if ! bash -euc '. "$0/launch.sh"; build_if_changed test lp_relay_program || exit' "$copy" || [ "$(ls "$copy/out")" != of_another_script ]; then
    echo "launch: with a file in out/ the build fails"
    exit 1
fi
rm -r "$copy/out"
# A build that fails, each time that it is tried; the program that was built before is not run. Then a build that does not.
echo '// wrong' >>"$copy/crates/lp_low/src/lib.rt"
for _ in 1 2; do
    FAILS=lp_low wanted 2 "" "lp_low lib" ./relay
    said "lp_relay: lp_low was not built" "$WHY"
    FAILS=lp_relay_program wanted 2 "" "$relay" ./relay
    said "lp_relay: lp_relay_program was not built" "$WHY"
done
# Where Python is missing, which rt needs, one line says so, and nothing is built.
mkdir "$made/commands"
for folder in ${PATH//:/ }; do ln -s "$folder"/* "$made/commands" 2>/dev/null || true; done
rm "$made/commands"/python3*
PATH=$made/commands wanted 2 "" "" ./relay
[ "$(cat "$made/err")" = "lp_relay: missing Debian packages: python3; to install them, run as root: $copy/bin/setup" ] ||
    { echo "launch: without Python the launcher says: $(cat "$made/err")" && exit 1; }
wanted 7 "lp_relay_program"$'\n'"$given" "$relay" ./relay
wanted 7 "lp_relay_program"$'\n'"$given" "" ./relay

# Several crates at once: those that do not stand on one another are built side by side, where that can be done, and each once.
several=$'lp_both run\nlp_c lib\nlp_left lib\nlp_low lib\nlp_right lib'
. "$copy/launch.sh"
choose_most
if [ "$most" -gt 1 ]; then
    # One fails, or the run is ended, while another is being built.
    FAILS=lp_left SLOW=lp_right wanted 2 "" $'sorted\nlp_left lib\nlp_low lib\nlp_right lib' "$copy/several"
    said "several: lp_left was not built" "$WHY"
    ended "a crate fails"
    for signal in INT TERM; do
        : >"$CALLS"
        SLOW=lp_right setsid env --default-signal=INT "$copy/several" >"$made/out" 2>&1 &
        # shellcheck disable=SC2016
        timeout 30 sh -c 'until grep -q lp_left "$CALLS" && grep -q lp_right "$CALLS"; do sleep 0.05; done'
        kill -s "$signal" -- "-$!"
        wait "$!" && status=0 || status=$?
        runs=$((runs + 1))
        [ "$status" -gt 128 ] || { echo "launch: after SIG$signal the status is $status" && exit 1; }
        ended "SIG$signal comes"
    done
    MEET="lp_left lp_right" wanted 0 "" "sorted"$'\n'"$several" "$copy/several"
    wanted 0 "" "" "$copy/several"
    # A copy begins with what was kept of an earlier proof of its crate, and what it adds is kept.
    cp "$copy/crates/lp_left/out/incremental/runs" "$made/runs"
    echo '// more' >>"$copy/crates/lp_left/src/lib.rt"
    MEET="lp_left lp_right" wanted 0 "" "sorted"$'\n'"$several" "$copy/several"
    echo lp_left | diff - <(tail -n +$(($(wc -l <"$made/runs") + 1)) "$copy/crates/lp_left/out/incremental/runs") ||
        { echo "launch: what was kept of an earlier proof is lost" && exit 1; }
else
    left_out "crates side by side" "there is less than 6 GB of memory, for checks/launch.sh"
fi
# One after the other, where there is one processor.
rm -r "$copy"/crates/*/out
PROCESSORS=1 wanted 0 "" $'lp_low lib\nlp_right lib\nlp_left lib\nlp_both run\nlp_c lib' "$copy/several"

# A terminal sees from the start how long the crates take that are still to come, and then by how far they are.
shown() {
    (cd "$copy" && SHOWN=lp_low python3 -c 'import pty, sys; pty.spawn(sys.argv[1:])' sh -c './lp_relay --strict </dev/null' >"$made/screen" </dev/null) || true
    for line in "$@"; do
        ! grep -qF "$line" "$made/screen" || continue
        echo "launch: a terminal does not see: $line"
        tr '\r' '\n' <"$made/screen"
        exit 1
    done
    runs=$((runs + 1))
}
cat >"$copy/CONTRIBUTING.md" <<'PAGE'
| `lp_low` | 1000 | 0 |
| `lp_relay_program` | 2000 | 0 |
PAGE
rm -r "$copy"/crates/*/out
shown "lp_relay: lp_relay_program: not built from these sources yet" "lp_relay: 0 of 2 crates, about 31 min left, lp_low" \
    "lp_relay: 0 of 2 crates, about 13 min left, lp_low (5 of 10)" "lp_relay: lp_low: done in " "lp_relay: 1 of 2 crates, about "
# Of a crate that was built since its last change no proof is awaited.
echo '// more' >>"$copy/crates/lp_relay_program/src/main.rt"
shown "lp_relay: 0 of 2 crates, about 21 min left, lp_low"
# A crate that was never measured weighs as a small one; these were.
top=$repository below=()
add_below lp_relay
for crate in "${below[@]}"; do
    grep -q "^| \`$crate\` | [0-9]" "$top/CONTRIBUTING.md" || { echo "launch: CONTRIBUTING.md does not say how long the proof of $crate takes" && exit 1; }
done
echo "launch: $runs runs of the launchers"
