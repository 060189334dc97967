#!/usr/bin/env bash
# Asks shellcheck of each script of the repository, and of the shell lines that the documents show, which Debian's sh is to read; and man
# and mandoc of each man page; and passes if these have nothing to say.
set -eu
cd "$(dirname "$0")/.."
. checks/left_out.sh

# Ends with what a reader said of a file, if it said anything.
want_nothing() {
    [ -z "$3" ] || { printf 'lint: %s says of %s:\n%s\n' "$1" "$2" "$3" && exit 1; }
}

made=$(mktemp -d) blocks=$made/blocks
trap 'rm -rf "$made"' EXIT
mkdir "$blocks"
python3 -B tables/generate.py --pages "$made/man"

if command -v shellcheck >/dev/null; then
    mapfile -t scripts < <(find . \( -name .git -o -name out -o -path ./dist \) -prune -o -type f -print0 |
        xargs -0 awk 'FNR == 1 && (/^#!.*sh$/ || /^# shellcheck shell=/) { print FILENAME } { nextfile }')
    python3 -B tables/completions.py "$made/completion"
    scripts+=("$made"/completion/bash/*)
    said=$(shellcheck "${scripts[@]}") || true
    want_nothing shellcheck "the scripts" "$said"
    # Each block of `sh` comes to a file that is named after its document and its line.
    find . \( -name .git -o -name out -o -path ./dist \) -prune -o -name '*.md' -printf '%P\0' |
        xargs -0 awk -v folder="$blocks" '
            FNR == 1 || /^ *```$/ { inside = 0 }
            inside { print >file }
            /^ *```sh$/ { inside = 1; file = FILENAME; gsub("/", "_", file); file = folder "/" file ":" FNR }'
    # Words of pkg-config are split, and who calls cd sees whether it fails.
    said=$(shellcheck -s dash -e SC2046,SC2164 "$blocks"/*) || true
    want_nothing shellcheck "the lines of the documents" "$said"
    echo "lint: shellcheck has nothing to say of ${#scripts[@]} scripts, and of $(find "$blocks" -type f | wc -l) blocks of the documents"
else
    left_out "scripts by shellcheck" "there is no shellcheck"
fi
if command -v man >/dev/null && command -v groff >/dev/null; then
    for page in "$made"/man/*; do
        said=$(LC_ALL=C.UTF-8 MANROFFSEQ='' man --warnings -E UTF-8 -l -Tutf8 -Z "$page" 2>&1 >/dev/null)
        want_nothing man "${page#"$made/"}" "$said"
    done
    echo "lint: man has nothing to say of the pages"
else
    left_out "pages by man" "there is no man or no groff"
fi
if command -v mandoc >/dev/null; then
    # It knows the pages of this machine alone.
    for page in "$made"/man/*; do
        said=$(mandoc -Tlint -Wstyle "$page" 2>/dev/null | grep -v 'referenced manual not found') || true
        want_nothing mandoc "${page#"$made/"}" "$said"
    done
    echo "lint: mandoc has nothing to say of the pages"
else
    left_out "pages by mandoc" "there is no mandoc"
fi
