#!/usr/bin/env bash
# Compares the library with the Rust crate influxdb-line-protocol 2.0.0 over texts made from a seed, where cargo can have it.
#
#   checks/differential.sh [COUNT [SEED]]
#
# COUNT: how many texts, 100000 by default; SEED: 1 by default.
# CARGO_FLAGS: more words for cargo, as where the crate lies if crates.io is out of reach.
set -eu
here=$(cd "$(dirname "$0")" && pwd)
top=$(dirname "$here")
built=$(mktemp -d)
trap 'rm -rf "$built"' EXIT
cp -r "$here/differential" "$built/crate"
cd "$built/crate"
. "$here/left_out.sh"
# shellcheck disable=SC2086
if ! CARGO_NET_RETRY=1 cargo fetch ${CARGO_FLAGS:-} >"$built/log" 2>&1; then
    left_out checks/differential.sh "cargo cannot have the Rust crate: $(tail -n 1 "$built/log")"
    exit 0
fi
. "$here/library.sh"
build_library lp_checks lp_c
cc -O2 -Wall -Wextra -I"$top/include" -c "$here/rows.c" -o "$built/rows.o"
export LP_CHECKS_ROWS=$built/rows.o LP_CHECKS_LIBRARY=$library LP_C_LIBRARY=$archive LP_CHECKS_HEAP=$heap
# shellcheck disable=SC2086
cargo build --release ${CARGO_FLAGS:-} --target-dir "$built/target" >"$built/log" 2>&1 || {
    tail -n 40 "$built/log" >&2
    echo "differential: the comparison was not built" >&2
    exit 1
}
said=$("$built/target/release/lp_differential" "$@")
echo "differential: $said"
