#!/usr/bin/env bash
# Times this library over texts, from Rattle, C, Rust and Python, and the Rust crate beside it where cargo can have it.
#
#   bench/run.sh           makes the corpora, times all, and writes the .tsv files that table.py and picture.py read
#   bench/run.sh FILE..    times these files alone
#   COUNT=1 bench/run.sh   counts by valgrind the instructions of the library's own calls in place of the times, over corpora of 1 MB, and
#                          prints `call corpus instructions`; each count includes the test for UTF-8, whose own count is `utf8`
#
# CARGO_FLAGS: more words for cargo, as where the crate lies if crates.io is out of reach.
# PYTHON: python3 by default. Debian's own has NumPy, pandas, influxdb and aioinflux, if they are installed.
# ROUNDS: how often both take turns, 3 by default; the best round of each counts.
# SEED, SIZE: of the corpora, `bench` and 16000000 bytes by default. CORPORA: the folder to make them in, and keep.
# FIGURES, CALLERS, PYTHONS, STREAMS: where the figures are written, by default bench/figures.tsv, bench/callers.tsv,
# bench/python.tsv and bench/streams.tsv, and nowhere if files are given.
set -eu
here=$(cd "$(dirname "$0")" && pwd)
. "$here/../launch.sh"
export PYTHONDONTWRITEBYTECODE=1
built=$(mktemp -d)
trap 'rm -rf "$built"' EXIT

figures=${FIGURES:-$here/figures.tsv}
callers=${CALLERS:-$here/callers.tsv}
pythons=${PYTHONS:-$here/python.tsv}
streams=${STREAMS:-$here/streams.tsv}
corpora="files that were given"
if [ $# -gt 0 ] || [ -n "${COUNT:-}" ]; then
    figures=${FIGURES:-$built/figures.tsv}
    callers=${CALLERS:-$built/callers.tsv}
    pythons=${PYTHONS:-$built/python.tsv}
    streams=${STREAMS:-$built/streams.tsv}
else
    corpora="seed ${SEED:-bench}, ${SIZE:-16000000} bytes each"
    folder=${CORPORA:-$built/corpora}
    python3 "$here/corpora.py" --seed "${SEED:-bench}" --size "${SIZE:-16000000}" --out "$folder" > "$built/files"
    mapfile -t files < "$built/files"
    set -- "${files[@]}"
fi

build_if_changed bench lp_bench lp_bench_streams lp_c || exit 1
heap=$(kit)/c/liblibc_c.a
archive=$top/crates/lp_c/out/liblp_c.a
ARCHIVE=$archive "${PYTHON:-python3}" "$top/bindings/python/build_backend.py" "$built/package"
cc -O2 "$here"/{driver,library}.c "$top/crates/lp_bench/out/liblp_bench.a" "$heap" -o "$built/library"
cc -O2 "$here"/{driver,streams}.c "$top/crates/lp_bench_streams/out/liblp_bench_streams.a" "$heap" -o "$built/streams"
cc -O2 -I"$top/include" "$here"/{driver,callers}.c "$archive" "$heap" -o "$built/c"
"$top/bindings/build.sh" "$archive" > "$built/build.log"

if [ -n "${COUNT:-}" ]; then
    python3 "$here/corpora.py" --seed "${SEED:-bench}" --size 1000000 --out "$built/counted" > "$built/files"
    for file in "$built"/counted/*.lp; do
        for call in utf8 parse next_into events pull split rebuild; do
            valgrind --tool=callgrind --callgrind-out-file=/dev/null --toggle-collect=counted "$built/library" --once "$call" "$file" 2>&1 |
                sed -n "s/.*Collected : /$call $(basename "$file" .lp) /p"
        done
    done
    exit
fi

# Builds the driver in Rust over the crate that its Cargo.toml names. From a copy, since cargo writes its lock file beside it.
build_crate() {
    # shellcheck disable=SC2086
    if ! (cd "$built/$1" && LP_LIB_DIR=$(dirname "$archive") cargo build --release ${CARGO_FLAGS:-} > "$built/cargo.log" 2>&1); then
        echo "cargo could not build $1:" >&2
        tail -n 3 "$built/cargo.log" >&2
    fi
}
cp -r "$here/crate" "$built/crate"
build_crate crate
cp -r "$here/crate" "$built/rust"
cp -r "$top/bindings/rust" "$built/bindings"
sed -i 's|^influxdb-line-protocol = .*|influxdb-line-protocol = { path = "../bindings" }|' "$built/rust/Cargo.toml"
build_crate rust

# Runs a driver, if it was built: its rows go to the file of this name, with these words before the calls.
take_turn() {
    local name=$1 words=$2 driver=$3
    shift 3
    if [ -x "$driver" ]; then
        "$driver" "$@" | sed "s/^/$words/" >> "$built/$name.rows"
    fi
}

# All take turns, file by file, so that a machine that slows down for a while slows down all.
take_turns() {
    take_turn figures "" "$built/library" "$@"
    [ $# -eq 0 ] || take_turn streams "" "$built/streams" "$@"
    take_turn crate "" "$built/crate/target/release/lp_bench_crate" "$@"
    take_turn callers "" "$built/c" "$@"
    take_turn callers "rust " "$built/rust/target/release/lp_bench_crate" "$@"
    if [ $# -gt 0 ]; then
        PYTHONPATH=$built/package "${PYTHON:-python3}" "$here/python.py" "$@" >> "$built/python.rows"
    fi
}
touch "$built"/{figures,crate,callers,python,streams}.rows
for _ in $(seq "${ROUNDS:-3}"); do
    for file in "$@"; do
        take_turns "$file"
    done
    take_turns
done
{ sed 's/^/library /' "$built/figures.rows" && sed 's/^/crate /' "$built/crate.rows"; } > "$built/beside.rows"

processor=$(sed -n 's/^model name[^:]*: //p' /proc/cpuinfo | head -n 1)
notes=(
    "$(date +%Y-%m-%d), ${processor:-a processor that tells no name}, best of ${ROUNDS:-3} rounds"
    "corpora: $corpora"
    "$(rt version | head -n 1), $(rustc --version 2> "$built/rustc.log" || echo 'no rustc')"
)
python3 "$here/figures.py" "$built/figures.rows" "$built/crate.rows" "$figures" "${notes[@]}"
python3 "$here/figures.py" "$built/callers.rows" "$built/beside.rows" "$callers" "${notes[@]}"
sed -n 's/^python aioinflux/aioinflux/p' "$built/python.rows" > "$built/aioinflux.rows"
python3 "$here/figures.py" "$built/python.rows" "$built/aioinflux.rows" "$pythons" "${notes[@]}" "$("${PYTHON:-python3}" --version)"
python3 "$here/figures.py" "$built/streams.rows" "$built/beside.rows" "$streams" "${notes[@]}"
