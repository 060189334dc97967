#!/usr/bin/env bash
# Runs the commands of each block `console` of README.md, in order, and compares what they print with what is shown below them. If all
# programs are given, also runs those of each example of tables/, in a folder of its own.
#
#     checks/readme.sh RELAY [REBUILD SERIES]    built programs, which stand in the place of ./lp_relay and of installed ones
set -euo pipefail
top=$(cd "$(dirname "$0")/.." && pwd)
made=$(mktemp -d)
trap 'rm -rf "$made"' EXIT
cp -r "$top/examples" "$made"
ln -s "$(realpath "$1")" "$made/lp_relay"

# compare WHAT LEAST: runs the commands of the file `wanted`, of which there are so many at least. Each finds the status of the one before. A
# line that begins with `# ` begins an example.
compare() {
    local line commands
    while IFS= read -r line; do
        # shellcheck disable=SC2016
        case $line in
        '$ '*) printf 'last=$?; printf "%%s\\n" %q; (exit "$last")\n%s\n' "$line" "${line#'$ '}" ;;
        '# '*) printf 'cd "$(mktemp -d -p "%s")"; printf "%%s\\n" %q\n' "$made" "$line" ;;
        esac
    done <"$made/wanted" >"$made/commands"
    (cd "$made" && bash commands) >"$made/got" 2>&1 || true
    diff "$made/wanted" "$made/got" || { echo "readme: $1 shows something else (<) than its commands print (>)" && exit 1; }
    commands=$(grep -c '^\$ ' "$made/wanted")
    [ "$commands" -ge "$2" ] || { echo "readme: $1 has $commands commands with their output" && exit 1; }
    echo "readme: $commands commands print what $1 shows"
}
awk '/^```$/ { inside = 0 } inside { print } /^```console$/ { inside = 1 }' "$top/README.md" >"$made/wanted"
compare README.md 6
[ $# = 3 ] || exit 0
ln -s "$(realpath "$2")" "$made/lp_rebuild"
ln -s "$(realpath "$3")" "$made/lp_series"
export PATH=$made:$PATH
python3 -B "$top/tables/generate.py" --examples >"$made/wanted"
compare tables/ 50
