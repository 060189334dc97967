#!/usr/bin/env bash
# Each row of uses.tsv is a use of the builder that must not compile: put into a copy of the builder's crate, the compiler must refuse its
# last call for the state that the builder is in. All are put there together, as the compiler names what is wrong in each file. The copy begins
# with what was proved here of the crates below.
set -eu
here=$(cd "$(dirname "$0")" && pwd)
. "$here/../launch.sh"
copy=$(mktemp -d)
trap 'rm -rf "$copy"' EXIT
room=$copy/crates_of
copy_crates lp_build >/dev/null
cp "$top/HANDLES" "$room/"
git -C "$room" init -q
crate=$room/crates/lp_build
mapfile -t uses < <(grep -v '^#' "$here/uses.tsv")
for at in "${!uses[@]}"; do
    echo "pub mod misuse_$at;" >>"$crate/src/lib.rt"
    cat >"$crate/src/misuse_$at.rt" <<END
use crate::builder::LineProtocolBuilder;
use std::alloc::Global;

pub fn misuse(alloc: Global) -> Option<()> {
    let builder = LineProtocolBuilder::new(alloc).measurement("m").ok()?;
    let _misused = builder${uses[at]#*$'\t'};
    Some(())
}
END
done
if (cd "$crate" && timeout 1800 rt check --only misuse) >"$copy/log" 2>&1; then
    echo "misuse: all compile"
    exit 1
fi
for at in "${!uses[@]}"; do
    call=${uses[at]##*.}
    call=${call%%(*}
    if ! grep -q "^src/misuse_$at.rt:.*error\[unknown-method\]: the method \`$call\` takes \`self\` as" "$copy/log"; then
        cat "$copy/log"
        echo "misuse: not refused at \`$call\`: ${uses[at]}"
        exit 1
    fi
done
echo "misuses: ${#uses[@]} refused"
