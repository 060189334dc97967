#!/usr/bin/env bash
# Does what README.md says for a fresh machine, in a bare Debian 12, which debootstrap makes and which goes at the end: sees that one line names what
# is missing, installs it by bin/setup, proves lp_relay and compares its first output; and installs the packages of bin/dist in another bare
# Debian, which has no kit.
#
#     checks/fresh.sh                 proves all of lp_relay, and then makes the packages there: about an hour on four processors
#     checks/fresh.sh --start DIST    ends the proof once a terminal shows its progress, and takes the packages of the folder DIST
#
# MIRROR is where debootstrap takes Debian from.
set -euo pipefail
repository=$(cd "$(dirname "$0")/.." && pwd)
. "$repository/checks/left_out.sh"
. "$repository/checks/bare_debian.sh"
. "$repository/launch.sh"
start=false dist=''
if [ "${1-}" = --start ]; then
    start=true dist=$(realpath "$2")
fi
if ! command -v rt >/dev/null; then
    left_out checks/fresh.sh "there is no rt"
    exit 0
fi
work=$(mktemp -d)
# shellcheck disable=SC2046
trap '{ kill -s KILL $(jobs -p) && sleep 1 || true; } 2>/dev/null; rm -rf --one-file-system "$work"' EXIT
root=$work/fresh
told=()

fail() {
    echo "fresh: $1" >&2
    exit 1
}

# `"${inside[@]}" ROOT KIT COMMAND..` runs a command in a bare Debian, in the folder /sources, with the folder KIT as /opt/rattle if it is given.
# All that it starts, and what is mounted, ends with it.
# shellcheck disable=SC2016
inside=(unshare --mount --pid --fork --kill-child bash -c 'mount -t proc proc "$1/proc" && mount -t devpts devpts "$1/dev/pts" &&
    { [ -z "$2" ] || mount --bind -o ro "$2" "$1/opt/rattle"; } &&
    exec chroot "$1" /usr/bin/env -i HOME=/root TERM=xterm PATH=/usr/sbin:/usr/bin:/sbin:/bin sh -c "cd /sources && exec \"\$@\"" sh "${@:3}"' bash)

# missing STATUS LINE KIT COMMAND..: in the bare Debian the command ends with this status, prints this line alone, and proves nothing.
missing() {
    local status=0 said
    said=$("${inside[@]}" "$root" "$3" "${@:4}" 2>&1) || status=$?
    [ "$said|$status" = "$2|$1" ] || fail "${*:4} ends with status $status, not with $1, and says: $said"
    [ -z "$(find "$root/sources" -name out)" ] || fail "${*:4} proves something"
    told+=("${*:4}: $said")
}

# What the terminal shows so far, a line for each state of its last line.
screen() { tr '\r' '\n' 2>/dev/null <"$work/log" || true; }

bare_debian checks/fresh.sh "$root" || exit 0
mkdir -p "$root/sources" "$root/opt/rattle"
(cd "$repository" && git ls-files -z --cached --others --exclude-standard | tar -cf - --null --files-from=- --ignore-failed-read) |
    tar -xf - -C "$root/sources"
cp -a "$root" "$work/second"
for command in "sudo bin/setup" "./lp_relay <examples/two_lines.lp" ./test.sh bin/dist "sudo apt install ./dist/*_amd64.deb"; do
    grep -qF "$command  " "$repository/README.md" || fail "README.md does not say: $command"
done

# What is said before any proof, where the kit or packages are missing.
packages="missing Debian packages:" install="to install them, run as root: /sources/bin/setup"
missing 2 "lp_relay: the Rattle kit is missing, which proves and builds: there is no rt in /opt/rattle/bin or in PATH" "" ./lp_relay
missing 2 "lp_relay: $packages python3; $install" "$(kit)" ./lp_relay
missing 1 "test: $packages python3, gcc, libc6-dev, git; $install" "$(kit)" ./test.sh
missing 1 "dist: $packages python3, binutils, python3-dev, gcc, libc6-dev; $install" "$(kit)" bin/dist
"${inside[@]}" "$root" "" bin/setup >"$work/log" 2>&1 || fail "bin/setup ends with status $?: $(tail -n 1 "$work/log")"
[ -z "$("${inside[@]}" "$root" "" bin/setup --list)" ] || fail "bin/setup installs not all that it lists"
missing 1 "dist: $packages gcc-aarch64-linux-gnu, libc6-dev-arm64-cross; $install --arm64" "$(kit)" bin/dist --arch all

if $start; then
    # On a terminal, from the start.
    SECONDS=0
    "${inside[@]}" "$root" "$(kit)" python3 -c 'import pty, sys; pty.spawn(sys.argv[1:])' sh -c "./lp_relay <examples/two_lines.lp" \
        </dev/null >"$work/log" 2>&1 &
    until screen | grep -qE 'lp_relay: [1-9][0-9]* of [0-9]+ crates, about [0-9]+ min left, lp_'; do
        if ! kill -0 $! 2>/dev/null || [ "$SECONDS" -ge 1200 ]; then fail "no crate is proved: $(tail -c 500 "$work/log")"; fi
        sleep 1
    done
    kill -s KILL $!
    { wait $! || true; } 2>/dev/null
    told+=("the proof begins: $(screen | grep -oE 'lp_relay: 0 of .* min left' | head -n 1)")
else
    status=0
    "${inside[@]}" "$root" "$(kit)" sh -c './lp_relay <examples/two_lines.lp' >"$work/out" 2>"$work/err" || status=$?
    [ "$(cat "$work/out")|$(cat "$work/err")|$status" = "cpu usage=64i|item 2: No fields were provided|1" ] ||
        fail "./lp_relay ends with status $status: $(tail -n 3 "$work/out" "$work/err")"
    "${inside[@]}" "$root" "" checks/readme.sh crates/lp_relay_program/out/lp_relay_program || fail "README.md shows another output"
    "${inside[@]}" "$root" "$(kit)" bin/dist >"$work/log" 2>&1 || fail "bin/dist: $(tail -n 3 "$work/log")"
    dist=$root/sources/dist
    told+=("the first output is that of README.md")
fi

# The packages, in a Debian without the kit.
root=$work/second
cp -r "$dist" "$root/sources/dist"
"${inside[@]}" "$root" "" apt-get update >"$work/log" 2>&1 || true
"${inside[@]}" "$root" "" sh -c 'apt-get install -y --no-install-recommends ./dist/*_amd64.deb' >"$work/log" 2>&1 || fail "the packages: $(tail -n 1 "$work/log")"
"${inside[@]}" "$root" "" checks/readme.sh /usr/bin/lp_relay >"$work/log" || fail "the installed lp_relay prints something else: $(cat "$work/log")"
told+=("the packages are installed without the kit, and print what README.md shows")
printf 'fresh: %s\n' "${told[@]}"
