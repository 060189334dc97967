#!/usr/bin/env bash
# Makes what bin/dist makes for ARM64, twice, unpacks the packages, and runs what they have under qemu: the programs with their arguments and
# files, and C, Go, Rust and Python over the library; compares what both processors give for 100,000 texts; and calls each function of
# packaging/arm64/os.c. What is missing here is left out.
#
#     checks/arm64.sh                    proves and builds first what was not built from these sources
#     checks/arm64.sh FOLDER [COUNT]     takes files that were built before, as bin/dist does, those for ARM64 of FOLDER/arm64; COUNT texts
#
# Python is that of Debian's libpython3-dev:arm64, which is installed, or unpacked with what it depends on into the folder that PYTHON_ROOT
# names. Rust takes a cargo whose rustc has the library of Rust for aarch64-unknown-linux-gnu.
set -euo pipefail
top=$(cd "$(dirname "$0")/.." && pwd)
. "$top/checks/left_out.sh"
. "$top/launch.sh"
cross=aarch64-linux-gnu count=${2:-100000}
. "$top/bindings/rust/flags.sh"
while read -r tool package; do
    command -v "$tool" >/dev/null || { left_out checks/arm64.sh "there is no $tool: Debian's package $package has it"; exit 0; }
done <<TOOLS
$cross-gcc gcc-$cross
qemu-aarch64 qemu-user
dpkg-deb dpkg
python3 python3
${CC:-cc} gcc
TOOLS
work=$(mktemp -d)
trap 'chmod -R u+w "$work"; rm -rf "$work"' EXIT
emulated=(qemu-aarch64 -L "/usr/$cross")
c_flags=(-std=c11 -O2 -Wall -Wextra -Wpedantic -Werror "-I$top/include")
set -E
trap 'echo "arm64: line $LINENO: a command ended with status $?: $BASH_COMMAND" >&2' ERR
told=()

fail() {
    echo "arm64: $1" >&2
    exit 1
}
# equal WHAT WANTED GOT: two texts must be equal.
equal() {
    [ "$2" = "$3" ] || { diff <(echo "$2") <(echo "$3") || true; fail "$1 is not as it should be (<: wanted)"; }
}
# same WHAT WANTED GOT: two files must be equal.
same() { cmp "$2" "$3" || fail "$1 is not the same on both processors"; }

programs=(lp_rebuild lp_relay lp_series)
if [ $# = 0 ]; then
    mkdir "$work/built"
    "$top/packaging/arm64/build.sh" "$work/built/arm64" || exit 1
    cp "$top"/crates/lp_{rebuild,relay,series}_program/out/lp_*_program "$top/crates/lp_c/out/liblp_c.a" "$work/built"
    set -- "$work/built"
fi
built=$(readlink -f "$1")
version=$(version)

# The packages for ARM64 are the same alone and beside those for x86-64, and have files for that processor alone.
look_at_dist() {
    local package file
    "$top/bin/dist" --arch arm64 --built "$built" "$work/alone" >"$work/said"
    "$top/bin/dist" --arch all --built "$built" "$work/both" >"$work/said"
    "$top/bin/dist" --built "$built" "$work/other" >"$work/said"
    equal "what is made for both" "$(cat "$work"/{alone,other}/SHA256SUMS | LC_ALL=C sort)" "$(LC_ALL=C sort "$work/both/SHA256SUMS")"
    for package in "$work"/alone/*_"${version}"_arm64.deb; do
        equal "the processor of $package" arm64 "$(dpkg-deb -f "$package" Architecture)"
        dpkg-deb -x "$package" "$work/root"
    done
    for file in "$work"/root/usr/{bin/*,"lib/$cross/"*.{a,so}}; do
        [[ $(readelf -hW "$file" | sed -n 's/^ *Machine: *//p' | sort -u) = AArch64 ]] || fail "$file is not for ARM64"
    done
    if [ -e "$built/arm64/verdicts" ]; then
        equal "the verdicts of the package" "$(sed -E 's/ (incremental|batches)=trusted//g' "$built/arm64/verdicts")" \
            "$(cat "$work/root/usr/share/doc/influxdb-line-protocol/VERDICTS")"
        for file in lp_{rebuild,relay,series}_program lp_c; do
            grep -q "^$file: logic=proved .* target=aarch64-unknown-linux-gnu " "$built/arm64/verdicts" || fail "no verdict on $file names ARM64"
        done
    else
        left_out "verdicts on ARM64" "$built/arm64 has no file verdicts"
    fi
    equal "what is in the package of the library" "libinfluxdb-line-protocol${version%%.*}" \
        "$(dpkg-deb -f "$work/alone/libinfluxdb-line-protocol${version%%.*}_${version}_arm64.deb" Package)"
    told+=("three packages, alone and beside those for x86-64")
}

# refused MESSAGE STATUS COMMAND..: it ends with this status, and its last line on standard error is like this pattern.
refused() {
    local message=$1 wanted=$2 status=0
    shift 2
    "$@" >"$work/out" 2>"$work/err" || status=$?
    # shellcheck disable=SC2053
    [[ $status = "$wanted" && $(tail -n 1 "$work/err") = $message ]] ||
        fail "$* ends with status $status, not with $wanted, and says: $(tail -n 1 "$work/err")"
    refusals=$((refusals + 1))
}
# What is said of another processor, and of what is missing, before anything is made.
refuse() {
    local dist=$top/bin/dist word wheel=$work/alone/influxdb_line_protocol-$version-cp38-abi3-manylinux2014_aarch64.whl
    refusals=0
    mkdir "$work/bare" "$work/wrong"
    for word in riscv64 "" ARM64 x86_64; do
        refused "dist: --arch $word: nothing is made for that: it is amd64, arm64 or all" 2 "$dist" --arch "$word" --built "$built" "$work/no"
    done
    refused "dist: there is no no-gcc, which compiles for arm64; *" 1 env CC=no-gcc "$dist" --arch arm64 --built "$built" "$work/no"
    refused "arm64: there is no no-gcc, which links the programs; *" 1 env CC=no-gcc "$top/packaging/arm64/build.sh" "$work/no"
    # shellcheck disable=SC2016
    printf '#!/bin/sh\n[ "$1" = -dumpmachine ] && echo aarch64-linux-gnu\n' >"$work/bare/gcc"
    chmod +x "$work/bare/gcc"
    refused "dist: $work/bare/gcc finds no header of the C library; *" 1 env CC="$work/bare/gcc" "$dist" --arch arm64 --built "$built" "$work/no"
    refused "dist: ${CC:-cc} compiles for *, and not for arm64" 1 env CC="${CC:-cc}" "$dist" --arch arm64 --built "$built" "$work/no"
    refused "dist: $cross-gcc compiles for aarch64-linux-gnu, and not for amd64" 1 env CC="$cross-gcc" "$dist" --built "$built" "$work/no"
    refused "dist: $built/arm64/lp_rebuild_program is for the processor AArch64, and not for amd64" 1 "$dist" --built "$built/arm64" "$work/no"
    ln -s "$built" "$work/wrong/arm64"
    refused "dist: *lp_rebuild_program is for the processor *X86-64, and not for arm64" 1 "$dist" --arch arm64 --built "$work/wrong" "$work/no"
    refused "install: $work/bare/arm64/*: there is no such file" 1 "$dist" --arch arm64 --built "$work/bare" "$work/no"
    refused "install: $work/bare/arm64/*: there is no such file" 1 "$dist" --arch all --built "$work/bare" "$work/no"
    equal "what is made where something is refused" "" "$(ls -A "$work/no")"
    if [ "$(dpkg --print-architecture)" = amd64 ]; then
        # By a dpkg of its own, since the one of this machine may take packages for ARM64.
        mkdir -p "$work/dpkg/updates" "$work/dpkg/info"
        touch "$work/dpkg/status"
        dpkg --admindir="$work/dpkg" --simulate --install "$work/alone/influxdb-line-protocol_${version}_arm64.deb" >"$work/out" 2>&1 &&
            fail "dpkg takes the package of another processor"
        grep -qF "package architecture (arm64) does not match system (amd64)" "$work/out" || fail "of another processor dpkg says: $(cat "$work/out")"
        refusals=$((refusals + 1))
    fi
    if [ -e "$wheel" ] && [ "$(uname -m)" = x86_64 ] && python3 -m pip --version >/dev/null 2>&1; then
        refused "ERROR: $(basename "$wheel") is not a supported wheel on this platform." 1 \
            python3 -m pip install --no-index --no-deps --disable-pip-version-check --target "$work/no" "$wheel"
    fi
    told+=("$refusals refusals")
}

# Each function of os.c does what the kit's does.
call_os() {
    local words=("" one "two words" 0123456789) kit
    "$cross-gcc" "${c_flags[@]}" "$top/checks/os.c" "$top/packaging/arm64/os.c" -o "$work/os"
    (cd "$work" && "${emulated[@]}" ./os "${words[@]}") >"$work/out" || fail "$(cat "$work/out")"
    kit=$(command -v rt >/dev/null && kit) || kit=
    if [ -e "$kit/c/libos_c.a" ] && [ "$(uname -m)" = x86_64 ]; then
        "${CC:-cc}" "${c_flags[@]}" "$top/checks/os.c" "$kit/c/libos_c.a" -o "$work/os-kit"
        equal "what the kit's own functions give" "$(cat "$work/out")" "$(cd "$work" && ./os-kit "${words[@]}")"
    else
        left_out "functions of the kit on x86-64" "there is no kit, or this is another processor"
    fi
    told+=("$(cat "$work/out")")
}

# A script in the place of each program, which runs it under qemu.
run_programs() {
    local program status
    mkdir "$work/bin"
    for program in "${programs[@]}"; do
        printf '#!/bin/sh\nexec %s "%s" "$@"\n' "${emulated[*]}" "$work/root/usr/bin/$program" >"$work/bin/$program"
        cp "$built/${program}_program" "$work/bin/$program-x86_64"
    done
    chmod +x "$work"/bin/*
    for program in lp_rebuild lp_relay; do
        "$work/bin/$program" <"$top/examples/two_lines.lp" >"$work/out" 2>"$work/err" && status=0 || status=$?
        equal "what $program gives for the two lines" "cpu usage=64i|item 2: No fields were provided|1" "$(cat "$work/out")|$(cat "$work/err")|$status"
    done
}

# What the programs give with arguments and files.
run_arguments() {
    local check
    for check in runs program_cases; do
        EMULATED=1 "$top/checks/$check.py" "$work"/bin/lp_{rebuild,relay,series} >"$work/log" 2>&1 || { cat "$work/log" >&2; fail "programs are not as checks/$check.py wants them"; }
        told+=("programs: $(tail -n 1 "$work/log")")
    done
    "$top/checks/objects.py" "$work/bin/lp_relay" >"$work/log" 2>&1 || { cat "$work/log" >&2; fail "objects of faults are not as they should be"; }
}

# Both processors give the same for hostile texts: the library for each alone, in each dialect; and the programs for all of them.
compare_texts() {
    local words program
    python3 -B "$top/checks/portable.py" --random 7 "$count" >"$work/texts"
    for program in told portable; do
        "${CC:-cc}" "${c_flags[@]}" "$top/checks/$program.c" "$top/bindings/c/heap.c" "$built/liblp_c.a" -o "$work/$program"
        "$cross-gcc" "${c_flags[@]}" "$top/checks/$program.c" "$work/root/usr/lib/$cross/libinfluxdb_line_protocol.a" -o "$work/$program-arm64"
        "$work/$program" <"$work/texts" >"$work/wanted"
        "${emulated[@]}" "$work/$program-arm64" <"$work/texts" >"$work/given"
        [ "$(wc -l <"$work/given")" -ge "$count" ] || fail "$program.c says too little"
        same "what $program.c prints" "$work/wanted" "$work/given"
    done
    python3 - "$work/texts" "$work/lines" "$work/lines-lp_rebuild" <<'CODE'
import pathlib, sys
texts = [bytes.fromhex(line) + b"\n" for line in open(sys.argv[1])]
pathlib.Path(sys.argv[2]).write_bytes(b"".join(texts))
pathlib.Path(sys.argv[3]).write_bytes(b"".join(text for text in texts if text.decode(errors="ignore").encode() == text))
CODE
    while read -r program words; do
        run_both "$program" "$words"
    done <<'TEXT'
lp_rebuild
lp_rebuild --strict
lp_relay
lp_relay --strict --faults json --first-item 7
lp_relay --newline-delimited --faults json --max-line 100
lp_relay --newline-delimited --verbatim --faults raw
lp_relay --newline-delimited --canonical --summary --first-line 9
lp_series --newline-delimited
lp_series --newline-delimited --json
lp_series --newline-delimited --key
lp_series --newline-delimited --shard 1/3
TEXT
    told+=("what the library and the programs give for $count texts, byte for byte")
}
# run_both PROGRAM WORDS: what a program gives for the texts, with these words. lp_rebuild takes those that are UTF-8.
run_both() {
    local suffix words lines=$work/lines
    [ ! -e "$lines-$1" ] || lines+=-$1
    read -ra words <<<"$2"
    for suffix in "" -x86_64; do
        "$work/bin/$1$suffix" "${words[@]}" <"$lines" >"$work/out$suffix" 2>"$work/err$suffix" && echo 0 >>"$work/err$suffix" || echo "$?" >>"$work/err$suffix"
    done
    [ -s "$work/out" ] || fail "$1 $2 writes nothing"
    same "what $1 $2 writes" "$work/out-x86_64" "$work/out"
    same "what $1 $2 says" "$work/err-x86_64" "$work/err"
}

# The programs that test the library from C, over the unpacked library: all over the static one, and two over the shared one.
build_c() {
    local program folder=$work/root/usr/lib/$cross answers=$top/checks/tables/answers.tsv
    for program in example sums answers offsets cuts writing numbers; do
        "$cross-gcc" "${c_flags[@]}" -DLP_REFUSE "$top"/bindings/c/{"$program",heap,empty}.c "$folder/libinfluxdb_line_protocol.a" -o "$work/$program"
        "${emulated[@]}" "$work/$program" "$answers" >"$work/out" || fail "$program.c over the static library says: $(cat "$work/out")"
        [ ! -e "$top/bindings/c/$program.out" ] || same "what $program.c prints" "$top/bindings/c/$program.out" "$work/out"
    done
    for program in example answers; do
        "$cross-gcc" "${c_flags[@]}" "$top/bindings/c/$program.c" -L"$folder" -linfluxdb_line_protocol -o "$work/$program"
        "${emulated[@]}" -E LD_LIBRARY_PATH="$folder" "$work/$program" "$answers" >"$work/out" || fail "$program.c over the shared library says: $(cat "$work/out")"
    done
    told+=("9 programs in C, and $(cat "$work/out")")
}

# The tests of the module for Go, over the packed module.
build_go() {
    local module=$work/lineprotocol
    if ! command -v go >/dev/null; then
        left_out "Go on ARM64" "there is no go"
        return
    fi
    tar -C "$work" -xzf "$work/alone/influxdb-line-protocol-go-$version-aarch64-linux.tgz"
    cp -R "$top"/bindings/go/{*_test.go,testdata} "$module"
    (cd "$module" && GOCACHE=$work/cache GOFLAGS=-modcacherw GOPROXY=off GOARCH=amd64 CGO_ENABLED=1 go build .) >"$work/log" 2>&1 &&
        fail "Go builds over the library of another processor"
    grep -qF "#error the library here is for aarch64: influxdb-line-protocol-go-$version-PROCESSOR-linux.tgz has that of another processor" "$work/log" ||
        fail "for another processor Go says: $(cat "$work/log")"
    (cd "$module" && GOCACHE=$work/cache GOPATH=$work/path GOFLAGS=-modcacherw GOPROXY=off GOARCH=arm64 CGO_ENABLED=1 CC=$cross-gcc \
        go test -c -o tests .) >"$work/log" 2>&1 || { cat "$work/log" >&2; fail "the tests in Go are not built"; }
    (cd "$top/bindings/go" && "${emulated[@]}" "$module/tests" -test.v) >"$work/log" 2>&1 || { cat "$work/log" >&2; fail "a test in Go fails"; }
    told+=("$(grep -c '^--- PASS' "$work/log") tests in Go")
}

# The tests of the packed crate.
build_rust() {
    local crate=$work/influxdb-line-protocol-rust target=aarch64-unknown-linux-gnu passed
    if ! command -v cargo >/dev/null || ! command -v rustc >/dev/null; then
        left_out "Rust on ARM64" "there is no cargo, or no rustc"
        return
    fi
    if [ ! -d "$(rustc --print target-libdir --target "$target" 2>/dev/null)" ]; then
        left_out "Rust on ARM64" "rustc has no library of Rust for $target: rustup target add, or Debian's libstd-rust-dev:arm64, brings it"
        return
    fi
    tar -C "$work" -xzf "$work/alone/influxdb-line-protocol-rust-$version-aarch64-linux.tgz"
    cp -R "$top/bindings/rust/tests" "$crate"
    if ! find_crates "$crate" "$work/log"; then
        left_out "Rust on ARM64" "$found"
        return
    fi
    (cd "$crate" && env -u LP_LIB_DIR LP_ANSWERS="$top/checks/tables/answers.tsv" LP_PORTABLE="$top/checks/portable_rows.txt" \
        CARGO_TARGET_DIR="$work/target" CARGO_TARGET_AARCH64_UNKNOWN_LINUX_GNU_LINKER="$cross-gcc" \
        CARGO_TARGET_AARCH64_UNKNOWN_LINUX_GNU_RUNNER="${emulated[*]}" cargo test --tests --target "$target" "${flags[@]}") >"$work/log" 2>&1 ||
        { cat "$work/log" >&2; fail "a test in Rust fails, or is not built"; }
    (cd "$crate" && env -u LP_LIB_DIR CARGO_TARGET_DIR="$work/target" cargo build "${flags[@]}") >"$work/out" 2>&1 || true
    grep -qE "native/liblp_c.a is for aarch64, and this build for x86_64: bin/dist packs a crate for each$" "$work/out" ||
        fail "for another processor cargo says: $(cat "$work/out")"
    passed=$(awk '/^test result: ok/ { passed += $4 } END { print passed + 0 }' "$work/log")
    [ "$passed" -gt 0 ] || fail "no test in Rust is run"
    told+=("$passed tests in Rust")
}

# The wheel, in a Python for ARM64: its example, and some of its tests.
run_python() {
    local root=${PYTHON_ROOT:-} wheel=$work/alone/influxdb_line_protocol-$version-cp38-abi3-manylinux2014_aarch64.whl library name python
    library=$(compgen -G "$root/usr/lib/$cross/libpython3.*.so" | tail -n 1) || true
    name=$(basename "$library" .so)
    name=${name#lib}
    if [ -z "$library" ] || [ ! -e "$root/usr/include/$cross/$name/pyconfig.h" ]; then
        left_out "Python on ARM64" "there is no $root/usr/lib/$cross/libpython3.*.so with its headers: Debian's package libpython3-dev:arm64 has them"
        return
    fi
    [ -e "$wheel" ] || fail "bin/dist makes no wheel for ARM64, and the headers of Python are here"
    mkdir "$work/wheel"
    python3 -m zipfile -e "$wheel" "$work/wheel"
    printf '#include <Python.h>\nint main(int count, char **words) { return Py_BytesMain(count, words); }\n' >"$work/python.c"
    "$cross-gcc" -I"$root/usr/include/$name" -idirafter "$root/usr/include" "$work/python.c" -L"${library%/*}" -l"$name" \
        -Wl,--unresolved-symbols=ignore-in-shared-libs -o "$work/python"
    python=("${emulated[@]}" -E "LD_LIBRARY_PATH=${library%/*}:$root/lib/$cross" -E "PYTHONHOME=$root/usr" -E "PYTHONPATH=$work/wheel" "$work/python" -B)
    "${python[@]}" "$top/bindings/python/example.py" >"$work/out" || fail "the example in Python does not run over the wheel"
    grep -q '^disk usage ' "$work/out" || fail "the example in Python says something else over the wheel: $(cat "$work/out")"
    (cd "$top/bindings/python/tests" && "${python[@]}" -m unittest test_answers test_builder test_columns test_writing) >"$work/out" 2>"$work/log" ||
        { cat "$work/log" >&2; fail "a test in Python fails"; }
    told+=("$(sed -n 's/^Ran \([0-9]*\) tests.*/\1/p' "$work/log") tests in Python over the wheel, and its example")
}

look_at_dist
refuse
call_os
build_c
build_go
build_rust
run_python
run_programs
compare_texts
run_arguments
echo "arm64: $(printf '%s; ' "${told[@]}" | sed 's/; $//')"
