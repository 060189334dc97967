#!/usr/bin/env bash
# Counts by callgrind how many instructions each way to read a text takes, and compares them with checks/instructions.tsv: of a call over no
# line, and how many more a line takes, ten lines, and 64 KiB of lines, of three corpora of the bench. Fails if a count is more than 1.05
# times the recorded one, or if the keys of lines take more than 1.1 times their bases: both are texts to group lines by. Counts depend on no
# other work of the machine, but on the compiler: the table says which one there was as it was recorded, and what another one made is left out.
#
#   checks/instructions.sh [--write] [ARCHIVE]     --write records the counts
#
# ARCHIVE: the library, by default crates/lp_c/out/liblp_c.a, which is made first. In Go, a new decoder reads each text from a reader.
# JavaScript has no row: V8 compiles code while it runs, so that its counts differ from run to run.
set -eu
here=$(cd "$(dirname "$0")" && pwd)
top=$(dirname "$here")
. "$here/left_out.sh"
. "$top/bindings/rust/flags.sh"
table=$here/instructions.tsv
write=
[ "${1:-}" != --write ] || { write=1 && shift; }
lacking=$(for tool in valgrind cc python3; do command -v "$tool" >/dev/null || echo "$tool"; done)
[ -z "$lacking" ] || { left_out checks/instructions.sh "there is no ${lacking//$'\n'/ and no }" && exit; }
[ $# != 0 ] || "$top/bindings/build.sh" >/dev/null
built=$(mktemp -d)
trap 'chmod -R u+w "$built"; rm -rf "$built"' EXIT
archive=$built/liblp_c.a
cp "${1:-$top/crates/lp_c/out/liblp_c.a}" "$archive"
touch "$built"/{tools,rows}

# The texts: one without a line, and of each corpus a line, ten and all.
texts=("$built"/{telegraf.0,{telegraf,strings,escapes}.{1,10,9999}}.lp)
python3 -B - "$top/bench" "${texts[@]}" <<'END'
import sys
from pathlib import Path

sys.path.insert(0, sys.argv[1])
from corpora import corpus
for path in map(Path, sys.argv[2:]):
    name, count = path.stem.split(".")
    path.write_bytes(b"".join(list(corpus(name, "instructions", 1 << 16))[: int(count)]))
END

# has NAME COMMAND [WORD]: whether this command is there, and says the version by which the counts of this name were recorded.
has() {
    local recorded version
    version=$("$2" "${3:---version}" 2>/dev/null | head -n 1)
    recorded=$(sed -n "s/^# by $1: //p" "$table")
    if [ -z "$version" ]; then
        left_out "instructions by $1" "there is no $2"
    elif [ -z "$write" ] && [ "$version" != "$recorded" ]; then
        left_out "instructions by $1" "they were recorded by $recorded, and this is $version"
    else
        echo "# by $1: $version" >>"$built/tools" && return
    fi
    return 1
}

# count CALL COMMAND..: counts what the command does over each text, in the function `counted` or where `how` says.
how=(--toggle-collect=counted --dump-after=counted)
count() {
    local call=$1 total totals
    shift
    rm -f "$built"/out*
    valgrind --tool=callgrind --callgrind-out-file="$built/out" "${how[@]}" "$@" "${texts[@]}" >"$built/log" 2>&1 || true
    mapfile -t totals < <(find "$built" -maxdepth 1 -name 'out.*' | sort -V | xargs sed -n 's/^totals: //p')
    if [ ${#totals[@]} != ${#texts[@]} ]; then
        cat "$built/log" >&2
        echo "instructions: $call was not counted" >&2
        exit 1
    fi
    printf '%s\t%d' "$call" "${totals[0]}"
    for total in "${totals[@]:1}"; do
        printf '\t%d' $((total - totals[0]))
    done
    echo
} >>"$built/rows"

c=(-I"$top/include" "$top"/bindings/c/{heap,empty}.c "$archive")
if has C cc; then
    cc -O2 "$top"/bench/{driver,callers}.c "${c[@]}" -o "$built/callers"
    for call in lp_lines_{next,block} lp_offsets_{block,keys,verdicts,block_verdicts} bases keys; do
        count "C, $call" "$built/callers" --once "$call"
    done
fi
if has C++ g++; then
    cc -O2 -c "$top/bench/driver.c" -o "$built/driver.o"
    g++ -std=c++17 -O2 "$built/driver.o" "$top/bench/ranges.cpp" -x c++ "${c[@]:0:3}" -x none "$archive" -o "$built/ranges"
    count "C++, lp::items" "$built/ranges" --once ranges
fi
mkdir "$built/rust"
cp -r "$top/bench/crate" "$top/bindings/rust" "$built/rust"
sed -i 's|^influxdb-line-protocol = .*|influxdb-line-protocol = { path = "../rust" }|' "$built/rust/crate/Cargo.toml"
if has Rust rustc; then
    if find_crates "$built/rust/crate" "$built/log"; then
        (cd "$built/rust/crate" && LP_LIB_DIR=$built CARGO_TARGET_DIR=$built/target cargo build -q --release "${flags[@]}")
        count "Rust, parse_lines" "$built/target/release/lp_bench_crate" --once
    else
        left_out "instructions by Rust" "$found"
    fi
fi
# What has no function of C around it says itself from where to where it is to be counted.
how=(--collect-atstart=no)
cat >"$built/marks.c" <<'END'
#include <valgrind/callgrind.h>
void begin(void) { CALLGRIND_TOGGLE_COLLECT; }
void end(void) { CALLGRIND_TOGGLE_COLLECT; CALLGRIND_DUMP_STATS; }
END
if has Python /usr/bin/python3; then
    ARCHIVE=$archive /usr/bin/python3 -B "$top/bindings/python/build_backend.py" "$built/package"
    cc -O2 -shared -fPIC "$built/marks.c" -o "$built/marks.so"
    cat >"$built/list.py" <<'END'
import ctypes
import sys

import line_protocol

marks = ctypes.CDLL(sys.argv[1])
begin, end = marks.begin, marks.end
for path in sys.argv[2:]:
    data = open(path, "rb").read()
    list(line_protocol.parse(data))
    begin()
    list(line_protocol.parse(data))
    end()
END
    PYTHONPATH=$built/package PYTHONHASHSEED=0 count "Python, list of parse" /usr/bin/python3 -BS "$built/list.py" "$built/marks.so"
fi
if has Go go version; then
    mkdir "$built/go"
    printf 'module counted\nrequire %s v3.0.0\nreplace %s => %s\n' yomskafi.example/lineprotocol/v3{,} "$top/bindings/go" >"$built/go/go.mod"
    cat >"$built/go/main.go" <<'END'
package main

// #include "../marks.c"
import "C"

import (
	"bytes"
	"os"
	"runtime"

	"yomskafi.example/lineprotocol/v3"
)

func main() {
	runtime.LockOSThread()
	for _, path := range os.Args[1:] {
		text, _ := os.ReadFile(path)
		for turn, kinds := 0, 0; turn < 2; turn++ {
			if turn == 1 {
				C.begin()
			}
			for d := lineprotocol.NewDecoder(bytes.NewReader(text)); d.Next(); {
				for key, _, _ := d.NextTag(); key != nil; key, _, _ = d.NextTag() {
				}
				for key, value, _ := d.NextField(); key != nil; key, value, _ = d.NextField() {
					kinds += int(value.Kind())
				}
			}
		}
		C.end()
	}
}
END
    (cd "$built/go" && GOFLAGS="-mod=mod -tags=lp_lib_dir" GOPROXY=off CGO_LDFLAGS=-L$built go build -o "$built/decoder")
    GOMAXPROCS=1 GOGC=off GODEBUG=asyncpreemptoff=1 count "Go, NewDecoder" "$built/decoder"
fi

{
    echo "# Instructions, as checks/instructions.sh --write records them: of no line, and of 1 line, 10 and 64 KiB of each corpus."
    cat "$built/tools"
    printf '# call\tnone\ttelegraf\t10\tall\tstrings\t10\tall\tescapes\t10\tall\n'
    cat "$built/rows"
} >"$built/counted"
[ -z "$write" ] || cp "$built/counted" "$table"
awk -F '\t' '
    /^#/ { next }
    FNR == NR { recorded[$1] = $0; next }
    { split(recorded[$1], old)
      for (at = 2; at <= NF; at++)
          if ($at <= 0 || $at > 1.05 * old[at]) {
              printf "instructions: %s, column %d: %d, and %d were recorded\n", $1, at, $at, old[at]
              failed = 1
          } }
    $1 == "C, bases" { split($0, bases) }
    $1 == "C, keys" {
      for (at = 3; at <= NF; at++)
          if ($at > 1.1 * bases[at]) {
              printf "instructions: column %d: %d for keys, and %d for bases\n", at, $at, bases[at]
              failed = 1
          } }
    END { if (!failed) print "instructions: no count is over 1.05 times the recorded one"; exit failed }' "$table" "$built/counted"
