#!/usr/bin/env bash
# The test command:
#
#   1. The checks of documents and scripts. If one fails, nothing else is run.
#   2. The gate, which proves all; beside it the checks of bin/take, of the launchers and of completion. If the gate fails, nothing else is run.
#   3. Side by side: the checks of the programs that the gate made; the misuses, and for at most ten minutes of one processor the bugs that were
#      tried longest ago; and the archives of lp_c and lp_checks, over the libraries that the gate proved, with the module of lp_page for
#      WebAssembly where Node can run it. Then come, side by side too, the checks of the library, of the bindings, and of the page.
#
# Before the gate's last line, which comes last, it prints how long each part took, what the checks left out, and which checks failed. The
# status is the status of the gate, or 1 if a check failed.
# shellcheck disable=SC2317  # functions that `part` calls
set -eu
cd "$(dirname "$0")"
. ./launch.sh
need_kit test && need test python3 gcc libc6-dev git || exit
if ! python3 -c 'import sys; sys.exit(sys.version_info < (3, 10))'; then
    echo "test: Python 3.10 or later is needed, and python3 is $(python3 --version)" >&2
    exit 1
fi
made=$(mktemp -d)
export LEFT_OUT=$made/left_out
touch "$made"/{left_out,times,failed,last}
# shellcheck disable=SC2046
trap '{ kill $(jobs -p) || true; } 2>/dev/null; rm -rf "$made"' EXIT

# part NAME COMMAND..: runs a part of the test command, and keeps how long it took, and that it failed if it did.
part() {
    local name=$1 status=0 TIMEFORMAT="$1|%0R|%0U|%0S"
    shift
    { time "$@" 2>&3; } 3>&2 2>>"$made/times" || status=$?
    [ "$status" = 0 ] || echo "$name" >>"$made/failed"
    return "$status"
}

# stop WHAT: ends where a part failed without which the others are of no use.
stop() {
    echo "test: $1 failed, so nothing else is run"
    exit 1
}

# Each of these runs its parts to the end, whether or not one fails.
beside_gate() {
    part checks/take.sh checks/take.sh
    part checks/launch.sh checks/launch.sh
    part checks/completion.sh checks/completion.sh
}
check_programs() {
    local check
    part checks/readme.sh checks/readme.sh "$made"/lp_{relay,rebuild,series}_program
    part checks/runs.py checks/runs.py "$made"/lp_{rebuild,relay,series}_program
    part checks/program_cases.py checks/program_cases.py "$made"/lp_{rebuild,relay,series}_program
    part checks/series.sh checks/series.sh "$made/lp_relay_program" "$made/lp_series_program"
    for check in objects settings forms batch_files grammar recording; do
        part "checks/$check.py" "checks/$check.py" "$made/lp_relay_program"
    done
    part checks/failing_calls.py checks/failing_calls.py "$made"/lp_{relay,series}_program
    part checks/posting.sh checks/posting.sh "$made/lp_relay_program"
    part checks/sending.sh checks/sending.sh "$made/lp_relay_program"
    part checks/systemd.sh checks/systemd.sh "$made/lp_relay_program"
    part checks/apart.sh checks/apart.sh "$made/lp_relay_program"
}
check_refusals() {
    part misuses/check.sh misuses/check.sh
    part checks/bugs.py checks/bugs.py --some
}
check_library() {
    part checks/tables.sh checks/tables.sh
    part checks/refusals.sh checks/refusals.sh
    part checks/events.sh checks/events.sh
    part checks/sizes.sh checks/sizes.sh
    part checks/portable.sh checks/portable.sh "$made/liblp_c.a" 100000 1 "$made/page/influxdb-line-protocol-js"
    part checks/influx.sh checks/influx.sh --fast
    part checks/differential.sh checks/differential.sh
}
check_bindings() {
    part bindings/c bindings/c/test.sh "$made/liblp_c.a"
    LP_LIB_DIR=$made part bindings/rust bindings/rust/test.sh
    part bindings/go bindings/go/test.sh "$made/liblp_c.a"
    part bindings/python bindings/python/test.sh "$made/liblp_c.a"
    part gateway gateway/test.sh "$made/liblp_c.a"
    part checks/gateway.sh checks/gateway.sh "$made/liblp_c.a"
    part checks/instructions.sh checks/instructions.sh "$made/liblp_c.a"
}
check_page() {
    LP_RELAY=$made/lp_relay_program part checks/page.sh checks/page.sh "$made/page"
}
# beside FUNCTION: starts one of them. `joined` waits for all, shows what they said, and takes note of those that did not come to their end.
beside() {
    { "$1" >"$made/$1" 2>&1 || true; touch "$made/$1.ended"; } &
    started+=("$1")
}
joined() {
    local each
    wait
    for each in "${started[@]}"; do
        cat "$made/$each"
        [ -e "$made/$each.ended" ] || echo "$each, which was cut off" >>"$made/failed"
    done
    started=()
}

# Hands on the lines of the gate but the last, which comes to a file.
hold_last() {
    local line last
    while IFS= read -r line || [ -n "$line" ]; do
        [ -z "${last+set}" ] || printf '%s\n' "$last"
        last=$line
    done
    [ -z "${last+set}" ] || printf '%s\n' "$last" >"$made/last"
}

# Prints how long each part took, in seconds of the clock and of processors.
print_times() {
    local name clock user system
    while IFS='|' read -r name clock user system; do
        printf 'time: %-26s %5s s, %6s s of processors\n' "$name" "$clock" "$((user + system))"
    done <"$made/times"
}

# Prints what the checks left out.
print_left_out() {
    local line
    [ -s "$LEFT_OUT" ] || echo "left out: nothing"
    while IFS= read -r line; do
        line=${line#left out: }
        printf 'left out: %-26s  %s\n' "${line%%: *}" "${line#*: }"
    done <"$LEFT_OUT"
}

part checks/documents.py checks/documents.py || stop checks/documents.py
part checks/lint.sh checks/lint.sh || stop checks/lint.sh
started=()
beside beside_gate
set +e
part "rt ci" rt ci | hold_last
gate=${PIPESTATUS[0]}
joined
if [ "$gate" != 0 ]; then
    sed 's/^/failed: /' "$made/failed"
    cat "$made/last"
    exit "$gate"
fi
cp crates/lp_{rebuild_program/out/lp_rebuild_program,relay_program/out/lp_relay_program,series_program/out/lp_series_program} "$made" ||
    stop "the copy of the programs that the gate made"
beside check_programs
take_proofs
archives=(lp_checks lp_c)
! checks/page.sh --can-run || archives+=(lp_page)
part "the archives, proved" build_all test "${archives[@]}" || stop "the build of ${archives[*]}"
cp crates/lp_c/out/liblp_c.a crates/lp_checks/out/liblp_checks.a "$made"
export ARCHIVES=$made
beside check_refusals
beside check_bindings
if [[ ${archives[*]} == *lp_page* ]]; then
    sources lp_page >crates/lp_page/out/launcher.stamp
    part packaging/page packaging/page/build.sh "$made/page"
fi
beside check_page
check_library
joined
print_times
print_left_out
sed 's/^/failed: /' "$made/failed"
cat "$made/last"
[ ! -s "$made/failed" ] || exit 1
