# shellcheck shell=bash
# For the scripts that build crates. `launch NAME CRATE ARGUMENTS..`, of `lp_rebuild`, `lp_relay` and `lp_series`, runs the
# program of a crate, and ends with its exit status. What was not built from these sources is proved and built first; a terminal sees how
# far that is.
# Crates that do not stand on one another are proved side by side. A run of rt keeps others out of its crate's folder and of the folders of
# the crates below. So if more than one crate can be proved, each is proved in a copy of the sources, which begins with the folders out/ of the
# crate and of the crates below. rt takes from these only what was built from the same sources and by the same kit.
top=$(cd "$(dirname "$(readlink -f "${BASH_SOURCE[0]}")")" && pwd)
PATH=$PATH:/opt/rattle/bin

# The folder of the kit.
kit() { dirname "$(dirname "$(readlink -f "$(command -v rt)")")"; }

# Fails if one of these Debian packages is missing, and says on one line which, and what installs it: `need NAME PACKAGE..`.
need() {
    local missing options=''
    missing=$("$top/bin/setup" --list "${@:2}") && return
    [[ $missing != *arm64* ]] || options=" --arm64"
    echo "$1: missing Debian packages: ${missing//$'\n'/, }; to install them, run as root: $top/bin/setup$options" >&2
    return 1
}

# Fails if there is no kit, and says so.
need_kit() {
    ! command -v rt >/dev/null || return 0
    echo "$1: the Rattle kit is missing, which proves and builds: there is no rt in /opt/rattle/bin or in PATH" >&2
    return 1
}

# The line of a crate in crates.txt.
line_of() { grep -E "^$1( [^:]*)?:" "$top/crates.txt"; }

# The crates of this repository that a crate's line names.
named_by() (for low in $(line_of "$1" | cut -d : -f 2); do [ ! -d "$top/crates/$low" ] || echo "$low"; done)

# Adds to `below`, the lowest first, a crate and the crates of this repository on which it stands.
add_below() {
    local low
    [[ " ${below[*]-} " != *" $1 "* ]] || return 0
    for low in $(named_by "$1"); do add_below "$low"; done
    below+=("$1")
}

# What a program is built from.
sources() {
    local crate below=() folders=()
    add_below "$1"
    for crate in "${below[@]}"; do folders+=("$top/crates/$crate"/{src,specs,proofs}); done
    find "$top/crates.txt" "${folders[@]}" -type f -print0 2>/dev/null | sort -z | xargs -0 cat | cksum
}

# The file of its out/ that a crate is built for, if it is a program or a static library.
made_of() {
    if [ -f "$top/crates/$1/src/main.rt" ]; then echo "$1"; elif line_of "$1" | grep -q staticlib; then echo "lib$1.a"; fi
}

# Runs rt for `crate` in a copy of the repository. It ends if the job does.
run_rt() {
    (cd "$1/crates/$crate" && exec rt "$command" </dev/null) &
    child=$!
    wait "$child"
}

# Makes a folder `room` with a copy of a crate and of the crates below, and with what was built of them.
copy_crates() {
    local low below=()
    mkdir "$room" && "$top/bin/take" "$room" "$1" || return
    add_below "$1"
    for low in "${below[@]}"; do
        [ -d "$top/crates/$low/out/rlib" ] || [ "$low" = "$1" ] || continue
        # rt replaces the files of a library that it builds anew, and never writes into them, so that a link will do for a copy.
        if [ "$low" = "$1" ]; then [ ! -d "$top/crates/$low/out" ] || cp -a "$top/crates/$low/out" "$room/crates/$low" || return; continue; fi
        mkdir "$room/crates/$low/out" || return
        cp -al "$top/crates/$low/out/rlib" "$room/crates/$low/out" || cp -a "$top/crates/$low/out/rlib" "$room/crates/$low/out" || return
    done
}

# A job: proves and builds a crate, in a copy of the sources if a folder for it is given.
build() {
    local crate=$1 room=${2-} command=lib child=''
    trap '[ -z "$child" ] || kill "$child"; wait; exit 1' TERM
    [ "$(made_of "$crate")" != "$crate" ] || command=run
    [ -n "$room" ] || { run_rt "$top"; return; }
    copy_crates "$crate" && run_rt "$room" && rm -rf "$top/crates/$crate/out" && mv "$room/crates/$crate/out" "$top/crates/$crate"
}

# Puts into `most` how many crates are proved at a time: one a processor, and 3 GB of memory for each.
choose_most() {
    most=$(awk -v most="$(nproc)" '/^MemAvailable:/ { free = int($2 / 3000000); print free < 1 ? 1 : free < most ? free : most }' /proc/meminfo)
}

# Starts a job for each crate whose lower crates are built.
start_jobs() {
    local crate low ready=()
    for crate in "${below[@]}"; do
        [ -z "${began[$crate]-}" ] || continue
        for low in ${lows[$crate]}; do [ -n "${took[$low]-}" ] || continue 2; done
        ready+=("$crate")
    done
    for crate in "${ready[@]}"; do
        [ ${#jobs[@]} -lt "$most" ] || break
        began[$crate]=$SECONDS
        if [ "$most" = 1 ] || [ $((${#jobs[@]} + ${#ready[@]})) = 1 ]; then build "$crate"; else build "$crate" "$rooms/$crate"; fi \
            >"$rooms/$crate.log" 2>&1 &
        jobs[$crate]=$!
    done
}

# Keeps what rt said of `crate`, if it proved it now. What it did not prove again it says nothing of.
keep_verdict() {
    local said
    said=$(grep -a '^logic=proved ' "$rooms/$crate.log" | tail -n 1) || true
    [ -z "$said" ] || echo "$said" >"$top/crates/$crate/out/launcher.verdict"
}

# Prints what rt said of these crates and of those on which they stand, a line `CRATE: VERDICT` each.
verdicts() {
    local crate below=()
    for crate in "$@"; do add_below "$crate"; done
    for crate in "${below[@]}"; do sed "s/^/$crate: /" "$top/crates/$crate/out/launcher.verdict" 2>/dev/null || true; done
}

# Takes note of the jobs that have ended. If one failed, what rt said is shown, and all end.
end_jobs() {
    local crate
    for crate in "${!jobs[@]}"; do
        ! kill -0 "${jobs[$crate]}" 2>/dev/null || continue
        if ! wait "${jobs[$crate]}"; then
            [ ! -t 2 ] || echo >&2
            cat "$rooms/$crate.log" >&2
            echo "$name: $crate was not built" >&2
            exit 1
        fi
        unset "jobs[$crate]"
        keep_verdict
        took[$crate]=$((SECONDS - began[$crate])) share[$crate]=100
        rm -rf "${rooms:?}/$crate"
        [ ! -t 2 ] || printf '\r\033[K%s: %s: done in %s s\n' "$name" "$crate" "${took[$crate]}" >&2
    done
}

# Puts into `weights` about how long the proof of a crate takes, in seconds of processors: CONTRIBUTING.md has a table of what was measured. It
# is 0 if the crate, and each one below, was built after the last change of its files.
weigh() {
    local crate=$1 low built=$top/crates/$1/out/rlib/stamp
    weights[$crate]=$(sed -n "s/^| \`$crate\` | \([0-9]*\) |.*/\1/p" "$top/CONTRIBUTING.md" 2>/dev/null) || true
    weights[$crate]=${weights[$crate]:-60}
    for low in ${lows[$crate]}; do [ "${weights[$low]}" = 0 ] || return 0; done
    [ -e "$built" ] && [ -z "$(find "$top/crates/$crate"/{src,specs,proofs} -newer "$built" -print -quit 2>/dev/null)" ] || return 0
    weights[$crate]=0
}

# Shows on one line of the terminal how many crates are built, about how long all others take, and which are being proved, with how far each
# is. The estimate begins with a rate that was measured, 300 seconds for a weight of 500, and goes by the rate of this run more and more.
# A crate that took five seconds or less was not proved now.
show() {
    local crate said words='' all=0 got=0 columns
    for crate in "${below[@]}"; do
        if [ -n "${jobs[$crate]-}" ]; then
            said=$(grep -aE '^so far: |waiting for' "$rooms/$crate.log" | tail -n 1)
            said=${said#so far: } said=${said% functions checked}
            words+=", $crate${said:+ ($said)}"
            [[ ! $said =~ ([0-9]+)\ of\ ([1-9][0-9]*) ]] || share[$crate]=$((100 * BASH_REMATCH[1] / BASH_REMATCH[2]))
        fi
        [ "${took[$crate]-9}" -le 5 ] || all=$((all + 100 * weights[$crate])) got=$((got + weights[$crate] * ${share[$crate]-0}))
    done
    [ "$all" = "$got" ] || words=", about $((1 + (300 + SECONDS) * (all - got) / (50000 + got) / 60)) min left$words"
    columns=$(stty size <&2 2>/dev/null) || true
    columns=${columns#* }
    [ "${columns:-0}" -gt 0 ] || columns=80
    words="$name: ${#took[@]} of ${#below[@]} crates$words"
    printf '\r\033[K%s' "${words:0:columns-1}" >&2
}

# Proves and builds crates and the libraries on which they stand. `$1` is whom a message is from.
build_all() (
    local name=$1 crate rooms most below=()
    local -A lows=() weights=() jobs=() began=() took=() share=()
    shift
    need_kit "$name" && need "$name" python3 || exit
    choose_most
    mkdir -p "$top/out" && rooms=$(mktemp -d "$top/out/rooms.XXXXXX") || exit
    # shellcheck disable=SC2046
    trap '{ kill $(jobs -p) || true; } 2>/dev/null; wait; rm -rf "$rooms"; rmdir "$top/out" 2>/dev/null || true' EXIT
    for crate in "$@"; do add_below "$crate"; done
    for crate in "${below[@]}"; do
        lows[$crate]=$(named_by "$crate")
        weigh "$crate"
    done
    SECONDS=0
    while [ ${#took[@]} -lt ${#below[@]} ]; do
        start_jobs
        [ ! -t 2 ] || { show; sleep 1 & }
        wait -n || true
        end_jobs
    done
)

# Gives each library that `rt ci` left in out/ the mark by which the other commands of rt take it, so that they do not prove it again. Where the
# kit's own code has changed, no library gets it.
take_proofs() {
    python3 - "$(kit)" "$top" <<'CODE' || echo "test: the libraries of the gate are not taken, and are proved again" >&2
import functools, os, sys
kit, top = sys.argv[1:]
sys.path.insert(0, f"{kit}/bin")
import rtlib
rtlib.Crate.stamp = functools.cache(rtlib.Crate.stamp)
known = {}
for name in [line.split(":")[0].split()[0] for line in open(f"{top}/crates.txt") if line[0] != "#"]:
    crate = rtlib.Crate(f"{top}/crates/{name}", top, known)
    if crate.makes_rlib() and os.path.isdir(crate.rlib) and not crate.is_built():
        open(f"{crate.folder}/out/rlib/stamp", "w").write(crate.stamp())
CODE
}

# Proves and builds those of these crates of which the program or the static library was not built from these sources.
build_if_changed() {
    local name=$1 crate changed=()
    local -A stamps=()
    shift
    for crate in "$@"; do
        stamps[$crate]=$(sources "$crate")
        if [ ! -s "$top/crates/$crate/out/$(made_of "$crate")" ] ||
            [ "$(cat "$top/crates/$crate/out/launcher.stamp" 2>/dev/null)" != "${stamps[$crate]}" ]; then changed+=("$crate"); fi
    done
    [ ${#changed[@]} -gt 0 ] || return 0
    [ ! -t 2 ] || echo "$name: ${changed[*]}: not built from these sources yet, so proved and built now" >&2
    build_all "$name" "${changed[@]}" || return 1
    for crate in "${changed[@]}"; do echo "${stamps[$crate]}" >"$top/crates/$crate/out/launcher.stamp"; done
}

launch() {
    local name=$1 crate=$2
    shift 2
    build_if_changed "$name" "$crate" || exit 2
    exec "$top/crates/$crate/out/$crate" "$@"
}

# The version of this state: the newest that CHANGELOG.md names.
version() { sed -n '/^## [0-9]*\.[0-9]*\.[0-9]*$/ { s/^## //p; q; }' "$top/CHANGELOG.md"; }
# The sum of the logic that the programs tell they are proved by.
told_logic() { sed -n 's/^pub const LOGIC: &str = "\(.*\)";$/\1/p' "$top/crates/lp_endings/src/version.rt"; }
# The commit of these sources, with `-dirty` if a file was changed since.
commit() { printf '%s' "${SOURCE_COMMIT:-$(git -C "$top" describe --always --dirty --abbrev=40 --exclude '*' 2>/dev/null || echo unknown)}"; }
