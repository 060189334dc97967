#!/usr/bin/env bash
# Looks with libFuzzer for a text of which something does not hold that `fuzz.c` states. It ends at the first one.
#
#   checks/fuzz.sh SECONDS
#
# CORPUS: a folder of texts to begin with, which gains those that were found to reach more; none by default.
# It needs a clang with libFuzzer. The library is compiled with counters by the kit's clang.
set -eu
here=$(cd "$(dirname "$0")" && pwd)
top=$(dirname "$here")
if [ $# -ne 1 ]; then
    echo "usage: checks/fuzz.sh SECONDS" >&2
    exit 2
fi
seconds=$1
. "$here/library.sh"
. "$here/left_out.sh"
built=$(mktemp -d)
trap 'rm -rf "$built"' EXIT

echo 'int LLVMFuzzerTestOneInput(const char *t, long n) { return t && n < 0; }' >"$built/probe.c"
if ! clang -fsanitize=fuzzer,address "$built/probe.c" -o "$built/probe" >/dev/null 2>&1; then
    left_out checks/fuzz.sh "there is no clang with libFuzzer"
    exit 0
fi
build_library lp_checks lp_c

# The kit's toolchain, but for a clang that adds counters.
kit=$(kit)
mkdir -p "$built/toolchain/bin"
ln -s "$kit/toolchain/lib" "$built/toolchain/lib"
ln -s "$kit"/toolchain/bin/* "$built/toolchain/bin/"
rm "$built/toolchain/bin/clang"
cat >"$built/toolchain/bin/clang" <<EOF
#!/bin/sh
exec "$kit/toolchain/bin/clang" "\$@" -fsanitize-coverage=inline-8bit-counters,pc-table,trace-cmp
EOF
chmod +x "$built/toolchain/bin/clang"
libraries=() below=()
add_below lp_checks
for crate in "${below[@]}"; do
    [ "$crate" = lp_checks ] || libraries+=(-L "dependency=$top/crates/$crate/out/rlib")
done
(cd "$top/crates/lp_checks" && "$kit/bin/rattle" build --crate-name lp_checks src/lib.rt --crate-type staticlib \
    --extern "std=$kit/rlibs/std.rlib" -L "dependency=$kit/rlibs" \
    --extern "lp_influx=$top/crates/lp_influx/out/rlib/lp_influx.rlib" \
    --extern "influxdb_line_protocol=$top/crates/influxdb_line_protocol/out/rlib/influxdb_line_protocol.rlib" \
    --extern "lp_rebuild=$top/crates/lp_rebuild/out/rlib/lp_rebuild.rlib" \
    --extern "lp_relay=$top/crates/lp_relay/out/rlib/lp_relay.rlib" \
    --extern "lp_series=$top/crates/lp_series/out/rlib/lp_series.rlib" \
    "${libraries[@]}" \
    --antt-project "$kit/rattle/logic/antt-project.json" --logic-built "$kit/logic_built" --links lp_checks= \
    --incremental out/incremental --backend llvm --toolchain "$built/toolchain" -o "$built/liblp_checks.a") \
    >"$built/log" 2>&1 || { tail -n 20 "$built/log" >&2; exit 1; }
clang -O2 -g -Wall -Wextra -I"$top/include" -fsanitize=fuzzer,address "$here/fuzz.c" "$here/rows.c" "$built/liblp_checks.a" "$archive" "$heap" \
    -o "$built/fuzz"

corpus=${CORPUS:-$built/corpus}
mkdir -p "$corpus"
printf 'cpu,host=A,region=west usage_system=64i,idle=0.5 1590488773254420000\nm 5\n' >"$corpus/lines"
printf 'log,app=a\\ b,k\\,1=v\\=w message="say \\"hi\\"\nthere",n=3u,t=T,f=false 17\n# it a="\nm b=1i,' >"$corpus/escapes"
printf 'm\1\0\0\0m\0\0\0\0i\1\0\0\0a\1\0\0\0005@\0\0\0\0\1\0\0\0007.\0\0\0\0\0\0\0\0' >"$corpus/calls"
cat >"$built/words" <<'EOF'
"\\\\"
"\\ "
"\\,"
"\\="
"\\\""
"\\\x0a"
"\x0a"
"# "
",k=v"
" a=1i"
",b=\""
"\"\x0a"
" 5\x0a"
EOF
"$built/fuzz" -max_total_time="$seconds" -max_len=2048 -dict="$built/words" -artifact_prefix="$top/crates/lp_checks/out/" \
    -print_final_stats=1 "$corpus" 2>"$built/said" || {
    tail -n 40 "$built/said" >&2
    echo "fuzz: something that should hold of every text is broken; the text is in crates/lp_checks/out" >&2
    exit 1
}
edges=$(grep -o 'cov: [0-9]*' "$built/said" | tail -n 1)
count=$(grep -o 'stat::number_of_executed_units: [0-9]*' "$built/said")
echo "fuzz: ${count##* } texts in $seconds seconds, ${edges##* } edges reached, nothing is broken"
