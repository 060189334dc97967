#!/usr/bin/env bash
# Runs the tests of this crate; and, where ORIGINAL names a folder with the source of the original crate, that crate's own
# tests and the examples of its documentation too, over this one: in a copy, so that nothing of them is left here.
#
# ORIGINAL: files of any name below it count: a test module is what follows `#[cfg(test)]` in one of them.
# LP_LIB_DIR: the folder of liblp_c.a, crates/lp_c/out by default.
# CARGO_FLAGS: more words for cargo, as where the crates lie.
# flags.sh says where the crates come from. Then cargo packs the crate with the library in it; a program that asks for version 2 of the
# original crate, and names each of its public items, is built over what was packed, by [patch.crates-io] and the crate in v2; a program
# that asks for version 3 is built beside it; and the documentation is made without a library.
set -eu
here=$(cd "$(dirname "$0")" && pwd)
. "$here/../../checks/left_out.sh"
. "$here/flags.sh"
export LP_LIB_DIR=${LP_LIB_DIR:-$here/../../crates/lp_c/out}
LP_LIB_DIR=$(cd "$LP_LIB_DIR" && pwd)
if ! command -v cargo >/dev/null; then
    left_out bindings/rust "there is no cargo"
    exit 0
fi
built=$(mktemp -d)
trap 'rm -rf "$built"' EXIT
export CARGO_TARGET_DIR=${CARGO_TARGET_DIR:-$built/target}
# Cargo writes its lock file beside the crate, so the crate is copied.
mkdir "$built/crate"
cp -r "$here"/{Cargo.toml,README.md,build.rs,src,tests,examples,original} "$built/crate/"
if ! find_crates "$built/crate" "$built/log"; then
    left_out bindings/rust "$found"
    exit 0
fi

# Runs `cargo test` with these words in the copy, and tells how many tests passed.
try() {
    if ! (cd "$built/crate" && cargo test "${flags[@]}" "$@") >"$built/log" 2>&1; then
        cat "$built/log" >&2
        echo "rust: a test failed" >&2
        exit 1
    fi
    awk '/^test result: ok/ { passed += $4 } END { print passed + 0 }' "$built/log"
}

# The test module of this name, of the file below ORIGINAL that has it.
take_tests() {
    # shellcheck disable=SC2016
    find "$ORIGINAL" -type f -print0 | sort -z | xargs -0 awk -v first="mod $1 {" '
        FNR == 1 && found { exit }
        FNR == 1 { marked = 0 }
        found { print; next }
        marked && $0 == first { found = 1; print "#[cfg(test)]"; print; next }
        { marked = $0 == "#[cfg(test)]" }'
}

# The examples in the documentation of the files below ORIGINAL.
take_examples() {
    find "$ORIGINAL" -type f \( -name '*.rs' -o -name '*.rs.txt' \) -print0 | sort -z | xargs -0 awk '
        !sub(/^ *\/\/[\/!] ?/, "") { next }
        /^```/ { print; inside = !inside; next }
        inside { print }'
}

# Each `unsafe` has a reason beside it.
if ! cargo clippy --version >/dev/null 2>&1; then
    left_out "reasons beside unsafe" "there is no cargo clippy"
elif ! (cd "$built/crate" && cargo clippy -q --all-targets "${flags[@]}" -- -A clippy::all -D clippy::undocumented_unsafe_blocks) >"$built/log" 2>&1; then
    cat "$built/log" >&2
    echo "rust: clippy refuses the crate" >&2
    exit 1
fi
export LP_ANSWERS=$here/../../checks/tables/answers.tsv LP_PORTABLE=$here/../../checks/portable_rows.txt
own=$(try -- --show-output)
answers=$(grep '^answers.tsv: ' "$built/log")
if ! (cd "$built/crate" && cargo run -q --example lines "${flags[@]}") >"$built/printed" 2>"$built/log" ||
    ! printf '%s\n' 'disk usage at None' 'line 2, column 4: No fields were provided' \
        'line 1, byte 0: No fields were provided' 'line 2, byte 12: cpu usage=64i 2' 'line 3: the line is not UTF-8' |
        diff - "$built/printed"; then
    cat "$built/log" >&2
    echo "rust: the example does not print its items" >&2
    exit 1
fi
echo "rust: $answers"

# Runs cargo with these words in a folder: `by_cargo FOLDER WHAT WORD..`. No library is named, so each crate has its own or none.
by_cargo() {
    local folder=$1 what=$2
    shift 2
    if ! (cd "$folder" && env -u LP_LIB_DIR PKG_CONFIG=false cargo "$@" "${flags[@]}") >"$built/printed" 2>"$built/log"; then
        cat "$built/log" >&2
        echo "rust: $what" >&2
        exit 1
    fi
}
by_cargo "$built/crate" "the documentation is not made without a library" doc -q --no-deps
mkdir -p "$built/packed/native" "$built/patched/src" "$built/newer/src"
cp -r "$here"/{Cargo.toml,README.md,build.rs,src,examples} "$here"/../../LICENSE-* "$built/packed"
cp "$LP_LIB_DIR/liblp_c.a" "$built/packed/native"
by_cargo "$built/packed" "cargo does not pack the crate" package --allow-dirty
packed=$(echo "$CARGO_TARGET_DIR"/package/*.crate)
tar -C "$built" -xzf "$packed"
folder=$built/$(basename "$packed" .crate)
cp -r "$here/v2" "$folder/"
cat >"$built/patched/Cargo.toml" <<TEXT
[package]
name = "patched"
version = "0.1.0"
edition = "2021"

[dependencies]
influxdb-line-protocol = "2"

[patch.crates-io]
influxdb-line-protocol = { path = "$folder/v2" }
TEXT
cat >"$built/patched/src/main.rs" <<'TEXT'
use influxdb_line_protocol::builder::{AfterField, AfterMeasurement, AfterTag, AfterTimestamp, BeforeMeasurement};
use influxdb_line_protocol::{builder, parse_lines, split_lines, Error, EscapedStr, FieldSet, FieldValue};
use influxdb_line_protocol::{LineProtocolBuilder, Measurement, ParsedLine, Result, Series, TagSet};

type States = (BeforeMeasurement, AfterMeasurement, AfterTag, AfterField, AfterTimestamp);

fn tags<'s, 'a>(series: &'s Series<'a>) -> (&'s Measurement<'a>, Option<&'s TagSet<'a>>) {
    (&series.measurement, series.tag_set.as_ref())
}

fn first<'s, 'a>(fields: &'s FieldSet<'a>) -> (&'s EscapedStr<'a>, &'s FieldValue<'a>) {
    (&fields[0].0, &fields[0].1)
}

fn written<F: builder::FieldValue>(value: F) -> Vec<u8> {
    LineProtocolBuilder::new().measurement("m").field("f", value).close_line().build()
}

fn main() -> Result<()> {
    let text = "cpu,host=a\\ b usage=64i\nm 5";
    let lines: Vec<Result<ParsedLine<'_>, Error>> = parse_lines(text).collect();
    for item in &lines {
        match item {
            Ok(line) => println!("{line}: {} {}", tags(&line.series).0, first(&line.field_set).1),
            Err(fault) => println!("{fault}"),
        }
    }
    let written = written(1.5);
    println!("{} {} {}", split_lines(text).count(), String::from_utf8_lossy(&written).trim(), std::mem::size_of::<States>());
    Ok(())
}
TEXT
by_cargo "$built/patched" "a program that asks for version 2 of the crate is not built over the packed one" run -q
if ! printf '%s\n' 'cpu,host=a\ b usage=64i: cpu 64i' 'No fields were provided' '2 m f=1.5 0' | diff - "$built/printed"; then
    echo "rust: a program that asks for version 2 of the crate does not print its items" >&2
    exit 1
fi
# A program that asks for the newer version has what version 2 had not.
sed "s|\"2\"|\"3\"|; s|$folder/v2|$folder|; s/patched/newer/" "$built/patched/Cargo.toml" >"$built/newer/Cargo.toml"
cat >"$built/newer/src/main.rs" <<'TEXT'
fn main() {
    println!("{}", influxdb_line_protocol::rebuild(influxdb_line_protocol::Dialect::Strict, "m f=01i").carried);
}
TEXT
by_cargo "$built/newer" "a program that asks for version 3 of the crate is not built over the packed one" run -q
if [ "$(cat "$built/printed")" != 1 ]; then
    echo "rust: a program that asks for version 3 of the crate prints $(cat "$built/printed")" >&2
    exit 1
fi
own="$own own tests passed$found, programs that ask for version 2 and version 3 ran over the packed crate"
said=$own
if [ -z "${ORIGINAL:-}" ]; then
    echo "rust: $said"
    left_out "original crate's tests" "ORIGINAL names no folder with its source"
    exit 0
fi
crate=$built/crate
rm -r "$crate/tests" "$crate/examples"
printf '\n[dev-dependencies]\ntest_helpers = { path = "original/test_helpers" }\n' >>"$crate/Cargo.toml"
cp "$crate/original/shims.rs" "$crate/src/"
take_tests test >"$built/reading.rs"
take_tests tests >"$built/building.rs"
take_examples >"$crate/src/examples.md"
{
    printf '#[cfg(test)]\nmod shims;\n#[cfg(test)]\nuse shims::*;\n'
    cat "$built/reading.rs"
} >>"$crate/src/lib.rs"
{
    printf '#[cfg(test)]\nuse crate::shims::{escape, DOUBLE_QUOTE};\n'
    cat "$built/building.rs"
} >>"$crate/src/builder.rs"
theirs=$(try --lib)
printf '#[cfg(doctest)]\n#[doc = include_str!("examples.md")]\npub struct Examples;\n' >>"$crate/src/lib.rs"
examples=$(try --doc Examples)
wanted=$(cat "$built/reading.rs" "$built/building.rs" | grep -c '#\[test\]' || true)
if [ "$theirs" -ne "$wanted" ] || [ "$wanted" -eq 0 ]; then
    echo "rust: $theirs of the original crate's $wanted tests were run" >&2
    exit 1
fi
echo "rust: $said; so did the original crate's $theirs tests and the $examples examples of its documentation"
