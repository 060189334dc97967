#!/usr/bin/env bash
# Makes what bin/dist makes, twice, and installs by bin/install, and the wheel by pip; looks at each file, builds programs over the installed
# library, runs the installed programs, looks for each option in its page, completes their words, and sees what is said if something is missing, and what
# an uninstall leaves. Asks lintian of the packages. Then it installs, upgrades and removes them in a bare Debian 12, which debootstrap makes
# and which goes at the end, and runs checks/fresh.sh. What is missing here is left out.
#
#     checks/dist.sh             proves and builds first what was not built from these sources
#     checks/dist.sh FOLDER      takes files that were built before, as bin/dist does
#
# MIRROR is where debootstrap takes Debian from.
set -euo pipefail
top=$(cd "$(dirname "$0")/.." && pwd)
. "$top/checks/left_out.sh"
. "$top/checks/options.sh"
. "$top/checks/bare_debian.sh"
. "$top/bindings/rust/flags.sh"
. "$top/launch.sh"
has_tools checks/dist.sh "${CC:-cc}" ar dpkg-deb || exit 0
unset DESTDIR SOURCE_DATE_EPOCH SOURCE_COMMIT
SOURCE_COMMIT=$(commit) # of the copies that are made here too
export SOURCE_COMMIT
work=$(mktemp -d)
trap 'rm -rf --one-file-system "$work"' EXIT
set -E
trap 'echo "dist: line $LINENO: a command ended with status $?: $BASH_COMMAND" >&2' ERR
told=()

fail() {
    echo "dist: $1" >&2
    exit 1
}

# The built files come into a folder of this check.
mkdir "$work/built"
if [ $# = 0 ]; then
    build_if_changed dist lp_rebuild_program lp_relay_program lp_series_program lp_c || exit 1
    cp "$top"/crates/{lp_rebuild_program/out/lp_rebuild_program,lp_relay_program/out/lp_relay_program,lp_series_program/out/lp_series_program} "$work/built"
    cp "$top/crates/lp_c/out/liblp_c.a" "$work/built"
else
    cp "$1"/{lp_rebuild_program,lp_relay_program,lp_series_program,liblp_c.a} "$work/built"
fi
printf '%s: logic=proved of the check\n' lp_{rebuild,relay,series}_program lp_c >"$work/built/verdicts"
version=$(version)
name=influxdb-line-protocol-$version-x86_64-linux
library=libinfluxdb-line-protocol${version%%.*}
packages=("$work/one/"{influxdb-line-protocol,"$library",libinfluxdb-line-protocol-dev}"_${version}_amd64.deb")
documents=share/doc/influxdb-line-protocol

operating=
[ ! -e "$top/docs/OPERATING.md" ] || operating=$documents/OPERATING.md$'\n'

# What is installed, a name in each line.
installed="bin/lp_gateway
bin/lp_rebuild
bin/lp_relay
bin/lp_series
include/influxdb_line_protocol.h
include/influxdb_line_protocol.hpp
lib/cmake/influxdb_line_protocol/influxdb_line_protocol-config-version.cmake
lib/cmake/influxdb_line_protocol/influxdb_line_protocol-config.cmake
lib/libinfluxdb_line_protocol.a
lib/libinfluxdb_line_protocol.so
lib/libinfluxdb_line_protocol.so.${version%%.*}
lib/libinfluxdb_line_protocol.so.$version
lib/pkgconfig/influxdb_line_protocol.pc
lib/systemd/system/lp-gateway.service
share/bash-completion/completions/lp_rebuild
share/bash-completion/completions/lp_relay
share/bash-completion/completions/lp_series
$documents/CALLS.md
$documents/CHANGELOG.md
$documents/DEFINITIONS.md
$documents/FORMAT.md
$documents/GATEWAY.md
$documents/INTEROP.md
$documents/LICENSE-APACHE
$documents/LICENSE-MIT
${operating}$documents/SCALING.md
$documents/SOURCES
$documents/TRUST.md
$documents/VERDICTS
$documents/examples/apart.sh
$documents/examples/lp_gateway.options
$documents/examples/parts.sh
$documents/examples/send.sh
$documents/examples/slurm/nodes.sh
$documents/examples/slurm/part.sh
$documents/examples/slurm/relay.sh
$documents/examples/slurm/slurm.conf
$documents/examples/ssh.sh
$documents/examples/systemd/left.sh
$documents/examples/two_lines.lp
share/fish/vendor_completions.d/lp_rebuild.fish
share/fish/vendor_completions.d/lp_relay.fish
share/fish/vendor_completions.d/lp_series.fish
share/man/man1/lp_gateway.1
share/man/man1/lp_rebuild.1
share/man/man1/lp_relay.1
share/man/man1/lp_series.1
share/man/man3/influxdb_line_protocol.3
share/zsh/site-functions/_lp_rebuild
share/zsh/site-functions/_lp_relay
share/zsh/site-functions/_lp_series"

# equal WHAT WANTED GOT: two texts must be equal.
equal() {
    [ "$2" = "$3" ] || { diff <(echo "$2") <(echo "$3") || true; fail "$1 is not as it should be (<: wanted)"; }
}

# Copies what bin/install and bin/dist read.
copy_sources() {
    mkdir -p "$1/bindings" "$1/docs"
    (cd "$top" && cp -R --parents bin gateway include man packaging tables examples checks launch.sh CHANGELOG.md LICENSE-* crates/*/{src,specs} "$1" && cp docs/*.md "$1/docs")
    cp -R "$top"/bindings/{build.sh,c,go,python,rust} "$1/bindings"
}

# The tar file and the packages: the same bytes twice, the second time from a copy, by another mask, zone and locale; the right names,
# root's files.
look_at_dist() {
    local package time
    time=$(git -C "$top" log -1 --format=%ct 2>/dev/null || stat -c %Y "$top/CHANGELOG.md")
    "$top/bin/dist" --built "$work/built" "$work/one" >"$work/said"
    (umask 077 && copy_sources "$work/another place" &&
        env TZ=Asia/Tokyo LC_ALL=et_EE.UTF-8 SOURCE_DATE_EPOCH="$time" "$work/another place/bin/dist" --built "$work/built" "$work/two") \
        >"$work/said" 2>&1 || fail "bin/dist of a copy: $(cat "$work/said")"
    diff "$work/one/SHA256SUMS" "$work/two/SHA256SUMS" || fail "the same built files give other bytes"
    (cd "$work/one" && sha256sum --quiet -c SHA256SUMS)
    tar -tvzf "$work/one/$name.tar.gz" | grep -v ' 0/0 ' && fail "the tar file has files that are not root's"
    equal "the tar file" "$installed" "$(tar -tzf "$work/one/$name.tar.gz" | grep -v '/$' | sed "s,^$name/,," | LC_ALL=C sort)"
    tar -C "$work" -xzf "$work/one/$name.tar.gz"
    for package in "${packages[@]}"; do
        dpkg-deb -c "$package" | grep -v ' root/root ' && fail "$package has files that are not root's"
        dpkg-deb -x "$package" "$work/unpacked"
    done
    compare_packages "$work/unpacked/usr"
    needed=$(dpkg-deb -f "${packages[0]}" Depends)
    [[ $needed != "libc6 (>= "*")" ]] || grep -qF "glibc $(sed 's/.*>= //; s/).*//' <<<"$needed")," "$top/README.md" ||
        fail "README.md names another glibc than the package, which needs $needed"
    equal "the record of the sources" "influxdb-line-protocol $version"$'\n'"commit $SOURCE_COMMIT"$'\n'"logic $(told_logic)" "$(cat "$work/$name/$documents/SOURCES")"
    look_at_library
    ask_lintian
    told+=("one tar file and three packages, twice, of which the programs need ${needed:-nothing}")
}
# The unpacked packages have the files of the tar file, by the names that Debian has for the folders, and what Debian asks for beside.
compare_packages() {
    gunzip "$1"/share/man/man*/*
    mv "$1"/lib/x86_64-linux-gnu/* "$1/lib"
    rmdir "$1/lib/x86_64-linux-gnu"
    mv "$1/share/zsh/vendor-completions" "$1/share/zsh/site-functions"
    for package in "${packages[@]}"; do
        package=$(basename "$package" "_${version}_amd64.deb")
        grep -qF "MIT or Apache-2.0" "$1/share/doc/$package/copyright" || fail "$package has no copyright"
        gunzip -c "$1/share/doc/$package/changelog.gz" | grep -qF "influxdb-line-protocol ($version)" || fail "$package has no changelog"
        rm "$1/share/doc/$package"/{copyright,changelog.gz}
    done
    rm -r "$1/share/lintian"
    rmdir "$1/share/doc/$library" "$1/share/doc/libinfluxdb-line-protocol-dev"
    # These name the folder of the library. Programs are built by them in Debian.
    diff -r --no-dereference -x '*.pc' -x '*-config.cmake' "$work/$name" "$1" || fail "the packages and the tar file differ"
}
# The shared library shows what its package says, and is alone in it.
look_at_library() {
    local shown
    dpkg-deb -e "${packages[1]}" "$work/control"
    shown=$(readelf --dyn-syms -W "$work/$name/lib/libinfluxdb_line_protocol.so.$version" | awk '$5 != "LOCAL" && $7 ~ /^[0-9]+$/ { print $8 }')
    equal "what the shared library shows" "$(sed -n 's/^ \(.*\)@Base .*/\1/p' "$work/control/symbols" | LC_ALL=C sort)" "$(LC_ALL=C sort <<<"$shown")"
    equal "the names of the shared library" $'libinfluxdb_line_protocol.so.'"${version%%.*}"$'\nlibinfluxdb_line_protocol.so.'"$version" \
        "$(dpkg-deb -c "${packages[1]}" | sed -n 's,.*/\(lib[^ ]*\.so[^ ]*\)\( ->.*\)\?$,\1,p' | LC_ALL=C sort)"
    for file in "$work/$name"/bin/* "$work/$name/lib/libinfluxdb_line_protocol.so.$version"; do
        [[ ! $(readelf -SW "$file") =~ \.symtab|\.debug ]] || fail "$file is not stripped"
    done
}
# lintian has nothing to say of the packages.
ask_lintian() {
    has_tools "packages by lintian" lintian || return 0
    equal "what lintian says" "" "$(lintian -I --pedantic "${packages[@]}" 2>/dev/null)"
    told+=("lintian has nothing to say")
}

# bin/install gives the same files: to a folder, to a folder before another, again over what is there, and from sources that a stub
# in the place of `rt` builds.
install_here() {
    prefix=$work/prefix
    (cd "$work" && "$top/bin/install" --built built prefix && "$top/bin/install" --built built prefix) >"$work/said"
    equal "what a second install says" "install: version $version is in $prefix" "$(sort -u "$work/said")"
    are_of_dist "bin/install" "$prefix"
    (cd "$work" && DESTDIR=before "$top/bin/install" --built built) >"$work/said"
    are_of_dist "bin/install with DESTDIR" "$work/before/usr/local"
    "$top/bin/install" --libdir lib64/sub --built "$work/built" "$work/wide" >"$work/said"
    # Units of systemd lie in lib, whatever the folder of the library is.
    if [ ! -e "$work/wide/lib64/sub/libinfluxdb_line_protocol.a" ] || [ -n "$(find "$work/wide/lib" -mindepth 1 -maxdepth 1 ! -name systemd 2>/dev/null)" ]; then
        fail "--libdir is not where the library comes"
    fi
    if command -v pkg-config >/dev/null; then
        equal "where pkg-config finds it then" "-I$work/wide/include -L$work/wide/lib64/sub" "$(realpaths \
            "$(PKG_CONFIG_PATH=$work/wide/lib64/sub/pkgconfig pkg-config --cflags --libs-only-L influxdb_line_protocol)")"
    fi
    grep -rl "$work" "$prefix" && fail "these installed files name the place that they were made in"
    install_from_sources
    told+=("five installs of the same files")
}
# Words of pkg-config with the names of folders as they are.
realpaths() { for word in $1; do echo "${word:0:2}$(readlink -f "${word:2}")"; done | paste -sd ' '; }
# Whether a command gave the files of bin/dist to a folder, and a list of them.
are_of_dist() {
    cp -a "$2" "$work/compared"
    rm "$work/compared/share/influxdb-line-protocol/installed"
    rmdir "$work/compared/share/influxdb-line-protocol"
    diff -r --no-dereference "$work/compared" "$work/$name" || fail "$1 and bin/dist give other files"
    rm -r "$work/compared"
}
install_from_sources() {
    local copy="$work/a copy"
    mkdir -p "$work/stub"
    copy_sources "$copy"
    mkdir -p "$copy"/crates/{lp_rebuild_program,lp_relay_program,lp_series_program,lp_c}/src
    touch "$copy"/crates/{lp_rebuild_program,lp_relay_program,lp_series_program}/src/main.rt "$copy/crates/lp_c/src/lib.rt"
    printf 'lp_rebuild_program:\nlp_relay_program:\nlp_series_program:\nlp_c staticlib:\n' >"$copy/crates.txt"
    cat >"$work/stub/rt" <<'STUB'
#!/bin/sh
[ "$1" != version ] || { echo "a stub of the check"; exit 0; }
crate=$(basename "$PWD")
echo "$crate $1" >>"$CALLS"
echo "logic=proved ${VERDICT-of the check}"
mkdir -p out
[ "$crate" != "$FAILS" ] || { echo "a reason"; exit 1; }
for file in "$crate" "lib$crate.a"; do [ ! -e "$BUILT/$file" ] || cp "$BUILT/$file" out; done
STUB
    chmod +x "$work/stub/rt"
    export BUILT=$work/built CALLS=$work/calls FAILS=none
    # The second finds all built.
    for _ in 1 2; do
        PATH=$work/stub:$PATH "$copy/bin/install" "$work/from sources" >"$work/said"
        are_of_dist "bin/install from sources" "$work/from sources"
    done
    equal "what rt was called for" $'lp_c lib\nlp_rebuild_program run\nlp_relay_program run\nlp_series_program run' "$(sort "$CALLS")"
    touch "$copy/crates/lp_relay_program/src/more.rt"
    echo "// more" >"$copy/crates/lp_relay_program/src/more.rt"
    PATH=$work/stub:$PATH FAILS=lp_relay_program refused "install: lp_relay_program was not built" 1 "$copy/bin/install" "$work/nowhere"
    [ ! -e "$work/nowhere" ] || fail "a build failed, and something is installed"
}

# What is made of a commit can be made again by its record, by that stub; what differs is named.
verify_record() {
    local repo="$work/a copy" to=$work/recorded record=$work/recorded/RECORD.json commit
    has_tools "records" git || return 0
    local PATH=$work/stub:$PATH
    printf 'out/\n' >"$repo/.gitignore"
    printf 'some words\n7 passed, 0 failed' >"$work/gate.log"
    git -C "$repo" init -q
    git -C "$repo" add .
    git -C "$repo" -c user.name=check -c user.email=check@check.example commit -qm "The state that is recorded"
    commit=$(git -C "$repo" rev-parse HEAD)
    "$repo/bin/dist" --gate "$work/gate.log" "$to" >"$work/said"
    python3 -B - "$to" "$commit" <<'CODE' || fail "the record does not tell what was made"
import hashlib, json, pathlib, sys
folder, record = pathlib.Path(sys.argv[1]), json.loads(pathlib.Path(sys.argv[1], "RECORD.json").read_text())
sums = {file.name: hashlib.sha256(file.read_bytes()).hexdigest() for file in folder.iterdir() if file.name != "RECORD.json"}
assert record["files"] == sums and len(sums) >= 6 and record["commit"] == sys.argv[2] and record["clean"] and not record["built_before"]
assert record["kit"] == "a stub of the check" and record["logic"] == "check" and record["gate"]["last"] == "7 passed, 0 failed"
names = ["lp_rebuild_program", "lp_relay_program", "lp_series_program", "lp_c"]
assert record["verdicts"] == {"x86_64": dict.fromkeys(names, "logic=proved of the check")} and all(record["tools"].values())
CODE
    "$repo/bin/verify" "$record" >"$work/said" || fail "of what was just made bin/verify says: $(cat "$work/said")"
    equal "what bin/verify says" "verify: $(wc -l <"$to/SHA256SUMS" | awk '{ print $1 + 1 }') files of commit $commit are the same" "$(cat "$work/said")"
    "$repo/bin/verify" --built "$work/built" "$record" >"$work/said" || fail "of the same built files bin/verify says: $(cat "$work/said")"
    differ_from_record
    refuse_records
    told+=("a record, by which the same is made again")
}
# Other built files, and another verdict, make bin/verify tell what differs.
differ_from_record() {
    local names
    cp -R "$work/built" "$work/other built"
    cp "$work/built/lp_series_program" "$work/other built/lp_rebuild_program"
    ! "$repo/bin/verify" --built "$work/other built" "$record" >"$work/said" || fail "bin/verify takes other files for the same"
    names=$(cd "$to" && printf '%s\n' SHA256SUMS influxdb-line-protocol_*.deb "$name.tar.gz" | LC_ALL=C sort)
    equal "what differs by another program" "$names" "$(sed -n 's/^verify: \(.*\): the record has the sum .*/\1/p' "$work/said")"
    ! VERDICT="of another" "$repo/bin/verify" "$record" >"$work/said" || fail "bin/verify takes another verdict for the same"
    grep -qxF "verify: lp_c for x86_64: the record has the verdict logic=proved of the check, and now it is logic=proved of another" "$work/said" ||
        fail "of another verdict bin/verify says: $(cat "$work/said")"
}
# Of these records nothing is made.
refuse_records() {
    local words bad=$work/bad
    for words in "" "a b" --help "--built" "--built x"; do
        # shellcheck disable=SC2086
        refused "usage: bin/verify *" 2 "$repo/bin/verify" $words
    done
    mkdir "$bad"
    refused "verify: $bad/none is no record of bin/dist: No such file or directory" 1 "$repo/bin/verify" "$bad/none"
    change_record '[]' && refused "verify: * is no record of bin/dist: *" 1 "$repo/bin/verify" "$bad/RECORD.json"
    change_record '{**record, "files": {"a": 1}}' && refused "verify: * is no record of bin/dist: *" 1 "$repo/bin/verify" "$bad/RECORD.json"
    change_record '{**record, "clean": None}' && refused "verify: * is no record of bin/dist: *" 1 "$repo/bin/verify" "$bad/RECORD.json"
    change_record '{**record, "commit": None}' && refused "verify: * names no commit: *" 1 "$repo/bin/verify" "$bad/RECORD.json"
    change_record '{**record, "clean": False}' && refused "verify: * tells of files that were made with changes *" 1 "$repo/bin/verify" "$bad/RECORD.json"
    change_record '{**record, "commit": "0" * 40}' && refused "verify: commit 0* is not to be had from $repo: *" 1 "$repo/bin/verify" "$bad/RECORD.json"
    change_record '{**record, "kit": "another"}' &&
        refused "verify: the kit here is a stub of the check, and that of the record is another" 1 "$repo/bin/verify" "$bad/RECORD.json"
    change_record record && echo more >"$bad/SHA256SUMS" &&
        refused "verify: $bad/SHA256SUMS is not the file that the record names: *" 1 "$repo/bin/verify" "$bad/RECORD.json"
    FAILS=lp_c refused "verify: commit $commit makes nothing here: bin/dist ends with status 1" 1 "$repo/bin/verify" "$record"
    refused "dist: * does not end as the log of a gate that passed: 6 passed, 1 failed" 1 \
        "$repo/bin/dist" --gate <(echo "6 passed, 1 failed") --built "$work/built" "$work/no"
    refused "dist: cannot open *none*" 1 env LC_ALL=C "$repo/bin/dist" --gate "$bad/none" --built "$work/built" "$work/no"
}
# Writes what an expression of Python makes of the record.
change_record() { python3 -c 'import json, sys; record = json.load(open(sys.argv[1])); print(json.dumps(eval(sys.argv[2])))' "$record" "$1" >"$bad/RECORD.json"; }

# What an uninstall takes away, and what it leaves; and what an install over another one does.
uninstall_here() {
    local to=$work/removed
    mkdir -p "$to/bin" "$to/share/zsh"
    echo "of another" >"$to/bin/other"
    "$top/bin/install" --built "$work/built" "$to" >"$work/said"
    # What an older version had goes at the next install; what is not as that had it stays, and is told.
    echo old >"$to/lib/old.so.2" && echo changed >"$to/bin/old"
    ln -s old.so.2 "$to/lib/old.so"
    printf 'file %s lib/old.so.2\nlink old.so.2 lib/old.so\nfile %s bin/old\n' "$(sha256sum <"$to/lib/old.so.2" | cut -d ' ' -f 1)" 0 \
        >>"$to/share/influxdb-line-protocol/installed"
    "$top/bin/install" --built "$work/built" "$to" >"$work/said"
    equal "what an install over an older one says" "install: removed $to/lib/old.so.2
install: removed $to/lib/old.so
install: it is not as it was installed, and stays: $to/bin/old
install: version $version is in $to" "$(cat "$work/said")"
    echo "# mine" >>"$to/$documents/examples/send.sh"
    rm "$to/bin/lp_series"
    "$top/bin/install" --uninstall "$to" >"$work/said"
    equal "what an uninstall leaves" "./bin ./bin/old ./bin/other ./share ./share/doc ./share/doc/influxdb-line-protocol
./share/doc/influxdb-line-protocol/examples ./share/doc/influxdb-line-protocol/examples/send.sh ./share/zsh" \
        "$(cd "$to" && find . -mindepth 1 | LC_ALL=C sort | paste -sd ' ' | sed 's, \(./share/doc/influxdb-line-protocol/examples \),\n\1,')"
    equal "what an uninstall says at its end" "install: it is not as it was installed, and stays: $to/$documents/examples/send.sh
install: version $version is gone from $to" "$(tail -n 2 "$work/said")"
    equal "what an uninstall removed" \
        "$({ grep -vx 'bin/lp_series\|.*/send.sh' <<<"$installed"; echo share/influxdb-line-protocol/installed; } | LC_ALL=C sort)" \
        "$(sed -n "s,^install: removed $to/,,p" "$work/said" | LC_ALL=C sort)"
    refused "install: it is not known what was installed in $to: there is no *" 1 "$top/bin/install" --uninstall "$to"
    uninstall_others
    told+=("what four uninstalls leave")
}
uninstall_others() {
    local to=$work/removed
    # All goes where an install made each folder, also before another folder.
    "$top/bin/install" --built "$work/built" "$to/new" >"$work/said"
    "$top/bin/install" --uninstall "$to/new" >"$work/said"
    [ ! -e "$to/new" ] || fail "an uninstall leaves $(find "$to/new")"
    mkdir -p "$to/root/usr"
    DESTDIR=$to/root "$top/bin/install" --built "$work/built" /usr/local >"$work/said"
    DESTDIR=$to/root "$top/bin/install" --uninstall >"$work/said"
    equal "what an uninstall leaves by DESTDIR" "usr" "$(find "$to/root" -mindepth 1 -printf '%P\n')"
    # An install that failed midway is known too.
    mkdir -p "$to/midway/share/man/man1/lp_relay.1"
    refused "*man1/lp_relay.1*" 1 "$top/bin/install" --built "$work/built" "$to/midway"
    [ -e "$to/midway/bin/lp_relay" ] || fail "nothing is installed before what fails"
    "$top/bin/install" --uninstall "$to/midway" >"$work/said"
    equal "what an uninstall leaves of half an install" "share/man/man1/lp_relay.1" "$(cd "$to/midway" && find . -type d -empty -printf '%P\n')"
    # A list that leads elsewhere, or is none.
    "$top/bin/install" --built "$work/built" "$to/new" >"$work/said"
    echo "file 0 ../bin/other" >>"$to/new/share/influxdb-line-protocol/installed"
    refused "install: *: this name leads out of the folder: ../bin/other" 1 "$top/bin/install" --uninstall "$to/new"
    echo "something else" >"$to/new/share/influxdb-line-protocol/installed"
    refused "install: * is no list of what was installed" 1 "$top/bin/install" --uninstall "$to/new"
    [ -e "$to/new/bin/lp_relay" ] || fail "by such a list something is removed"
}

# refused MESSAGE STATUS COMMAND..: it ends with this status, and its last line on standard error is like this pattern.
refusals=0
refused() {
    local message=$1 wanted=$2 status=0 last
    shift 2
    "$@" >"$work/out" 2>"$work/err" || status=$?
    last=$(tail -n 1 "$work/err")
    refusals=$((refusals + 1))
    # shellcheck disable=SC2053
    if [ "$status" != "$wanted" ] || [[ $last != $message ]]; then
        fail "$* ends with status $status, not with $wanted, and says: $last"
    fi
}

# Makes an archive that says another version of itself.
make_other() {
    printf '#include <stdint.h>\nuint32_t lp_version(void);\nuint32_t lp_version(void) { return 20100; }\n' >"$work/other.c"
    "${CC:-cc}" -O2 -fPIC -c "$work/other.c" -o "$work/other.o"
    objcopy --redefine-sym lp_version=lp_version_before "$work/built/liblp_c.a" "$1"
    ar rsD "$1" "$work/other.o"
}

# What is said of wrong arguments, and of built files that are missing, empty, no archive or of another version. Nothing is made then.
refuse_arguments() {
    local file script
    for script in install dist; do
        refused "usage: bin/$script *" 2 "$top/bin/$script" --built
        refused "usage: bin/$script *" 2 "$top/bin/$script" a b
        refused "usage: bin/$script *" 2 "$top/bin/$script" --help
        for file in lp_rebuild_program lp_relay_program lp_series_program liblp_c.a; do
            mv "$work/built/$file" "$work/kept"
            refused "install: $work/built/$file: there is no such file" 1 "$top/bin/$script" --built "$work/built" "$work/no"
            touch "$work/built/$file"
            refused "install: $work/built/$file: it is empty" 1 "$top/bin/$script" --built "$work/built" "$work/no"
            mv "$work/kept" "$work/built/$file"
        done
    done
    for file in "" .. /lib a/../b lib/ a//b "a b" --built; do
        refused "usage: bin/install *" 2 "$top/bin/install" --libdir "$file" --built "$work/built" "$work/no"
    done
    refused "usage: bin/install *" 2 "$top/bin/install" --uninstall --built "$work/built"
    refused "usage: bin/install *" 2 "$top/bin/install" --uninstall a b
    mkdir "$work/text"
    cp "$work"/built/lp_* "$work/text"
    echo "no archive" >"$work/text/liblp_c.a"
    refused "*liblp_c.a*" 1 "$top/bin/install" --built "$work/text" "$work/no/here"
    make_other "$work/text/liblp_c.a"
    for script in install dist; do
        refused "install: $work/text/liblp_c.a is of version 2.1.0, and these sources are of $version: *" 1 \
            "$top/bin/$script" --built "$work/text" "$work/no"
    done
    refused "influxdb-line-protocol: $work/text/liblp_c.a is of version 2.1.0, and the package is of version $version: *" 1 \
        env ARCHIVE="$work/text/liblp_c.a" "${PYTHON:-python3}" -B "$top/bindings/python/build_backend.py" --wheel "$work/no"
    rmdir "$work/no" || fail "something was missing, and something is made"
}

# What is said of places that cannot be written.
refuse_places() {
    touch "$work/file"
    refused "install: *$work/file*: Not a directory" 1 env LC_ALL=C "$top/bin/install" --built "$work/built" "$work/file/usr"
    mkdir -p "$work/full/bin/lp_relay"
    refused "install: *$work/full/bin/lp_relay*" 1 "$top/bin/install" --built "$work/built" "$work/full"
    refused "dist: *$work/file*: Not a directory" 1 env LC_ALL=C "$top/bin/dist" --built "$work/built" "$work/file/dist"
    if [ "$(id -u)" = 0 ] && command -v setpriv >/dev/null; then
        chmod 711 "$work"
        chmod -R a+rX "$work/built"
        mkdir "$work/of_root"
        refused "install: *$work/of_root/usr*: Permission denied" 1 setpriv --reuid=65534 --regid=65534 --clear-groups \
            env LC_ALL=C "$top/bin/install" --built "$work/built" "$work/of_root/usr"
        refused "install: the folder $prefix/* cannot be written" 1 setpriv --reuid=65534 --regid=65534 --clear-groups \
            env LC_ALL=C "$top/bin/install" --uninstall "$prefix"
        are_of_dist "an uninstall that failed" "$prefix"
    else
        left_out "a folder of root" "only root can become another user, by setpriv"
    fi
}

# What is said if a tool is missing.
refuse_tools() {
    local tool
    mkdir "$work/tools"
    for tool in bash dirname readlink sed uname; do
        ln -s "$(command -v "$tool")" "$work/tools"
    done
    refused "dist: missing Debian packages: python3, dpkg, binutils, python3-dev, gcc, libc6-dev; to install them, run as root: $top/bin/setup" 1 \
        env PATH="$work/tools" "$top/bin/dist" --arch amd64
    refused "dist: missing Debian packages: *, gcc-aarch64-linux-gnu, libc6-dev-arm64-cross; *bin/setup --arm64" 1 \
        env PATH="$work/tools" "$top/bin/dist" --arch all
    refused "dist: there is no no_python, *" 1 env PYTHON=no_python "$top/bin/dist" --built "$work/built" "$work/no"
    refused "dist: the wheel was not made: *" 1 env CFLAGS=-fsanitize=address "$top/bin/dist" --built "$work/built" "$work/no"
    rmdir "$work/no" || fail "there was no wheel, and something is made"
    refused "install: there is no python3, *" 1 env PATH="$work/tools" "$top/bin/install"
    ln -s "$(python3 -c 'import sys; print(sys.executable)')" "$work/tools/python3"
    refused "install: there is no no_cc, *" 1 env PATH="$work/tools" CC=no_cc "$top/bin/install"
    refused "install: there is no ar, *" 1 env PATH="$work/tools" CC=bash "$top/bin/install"
    ln -s "$(command -v ar)" "$work/tools"
    refused "install: there is no strip, *" 1 env PATH="$work/tools" CC=bash "$top/bin/install"
}

# Builds programs over the installed library by pkg-config, shared and static, and runs them.
build_over() {
    local static program words
    has_tools "programs by pkg-config" pkg-config || return 0
    export PKG_CONFIG_PATH=$prefix/lib/pkgconfig
    equal "the version of pkg-config" "$version" "$(pkg-config --modversion influxdb_line_protocol)"
    printf '#include <influxdb_line_protocol.h>\n#include <stdio.h>\nint main(void) {\n%s\nreturn 0; }\n' \
        'unsigned v = lp_version(); printf("%u.%u.%u\n", v / 10000, v / 100 % 100, v % 100);' >"$work/version.c"
    # The example of the page of the header.
    sed -n '/^#include <influxdb/,/^\.Ed/ { /^\.Ed/d; s/\\e/\\/g; p; }' "$top/man/influxdb_line_protocol.3" >"$work/page.c"
    cp "$top/bindings/c/example.c" "$work"
    for static in "" -static; do
        IFS=' ' read -ra words <<<"$(pkg-config ${static:+--static} --cflags --libs influxdb_line_protocol)"
        for program in version page example; do
            "${CC:-cc}" -std=c11 -Wall -Wextra -Werror "$work/$program.c" "${words[@]}" ${static:+"$static"} -o "$work/$program$static"
        done
        run_built "$static"
    done
    readelf -dW "$work/version" | grep -qF "[libinfluxdb_line_protocol.so.${version%%.*}]" || fail "a program asks for another library"
    build_as_documented
    told+=("3 programs by pkg-config, each shared and static, one that finds the library by its build, and one in C++")
}

# As docs/BINDINGS.md says it of the folder of the tar file, where the loader is told of no folder; and by C++.
build_as_documented() {
    local words
    # shellcheck disable=SC2016
    grep -qF -e '-Wl,-rpath,"$(pkg-config --variable=libdir influxdb_line_protocol)"' "$top/docs/BINDINGS.md" ||
        fail "docs/BINDINGS.md says in another way how a program finds the library"
    export PKG_CONFIG_PATH=$work/$name/lib/pkgconfig
    IFS=' ' read -ra words <<<"$(pkg-config --cflags --libs influxdb_line_protocol)"
    "${CC:-cc}" "$work/example.c" "${words[@]}" -Wl,-rpath,"$(pkg-config --variable=libdir influxdb_line_protocol)" -o "$work/by_folder"
    equal "bindings/c/example.c over the tar file" "$(cat "$top/bindings/c/example.out")" "$(env -u LD_LIBRARY_PATH "$work/by_folder")"
    export PKG_CONFIG_PATH=$prefix/lib/pkgconfig
    has_tools "programs in C++" c++ || return 0
    IFS=' ' read -ra words <<<"$(pkg-config --cflags --libs influxdb_line_protocol)"
    c++ -std=c++17 -Wall -Wextra -Wpedantic -Werror "$top/bindings/c/example.cpp" "${words[@]}" -o "$work/in_cpp"
    equal "bindings/c/example.cpp" "$(cat "$top/bindings/c/example_cpp.out")" "$(LD_LIBRARY_PATH=$prefix/lib "$work/in_cpp")"
}

# Builds a program in Go over the packed module, and over the library that is installed.
build_go() {
    local module=$work/go/lineprotocol how
    has_tools "programs in Go" go || return 0
    mkdir "$work/go"
    tar -C "$work/go" -xzf "$work/one/influxdb-line-protocol-go-$version-x86_64-linux.tgz"
    printf '%s\n' 'package main' 'import ("fmt"; "strings"; "yomskafi.example/lineprotocol/v3")' 'func main() {' \
        'd := lineprotocol.NewDecoder(strings.NewReader("x\nm f=1i"))' \
        'for d.Next() { name, err := d.Measurement(); fmt.Printf("%s %v\n", name, err) } }' >"$work/go/main.go"
    printf 'module prog\n\ngo 1.19\n' >"$work/go/go.mod"
    export GOCACHE=$work/go/cache GOPATH=$work/go/path GOFLAGS=-modcacherw GOPROXY=off
    for how in "$module" "$top/bindings/go"; do
        (cd "$work/go" && go mod edit -replace "yomskafi.example/lineprotocol/v3=$how" && go mod tidy && go build -o prog .) >"$work/log" 2>&1 ||
            fail "over $how no program in Go was built: $(cat "$work/log")"
        equal "what a program in Go prints" $' at line 1:2: A generic parsing error occurred: TakeWhile1\nm <nil>' "$(LD_LIBRARY_PATH=$prefix/lib "$work/go/prog")"
    done
    cp -R "$top/gateway" "$work/go"
    (cd "$work/go/gateway" && go mod edit -replace "yomskafi.example/lineprotocol/v3=$module" && go build -o gateway .) >"$work/log" 2>&1 ||
        fail "lp_gateway is not built over the packed module: $(cat "$work/log")"
    # A library of another version ends the program as it starts.
    cp -R "$module" "$work/go/other"
    make_other "$work/go/other/liblp_c.a"
    (cd "$work/go" && go mod edit -replace "yomskafi.example/lineprotocol/v3=$work/go/other" && go build -o other_prog .) >"$work/log" 2>&1 ||
        fail "over another version no program in Go was built: $(cat "$work/log")"
    ! "$work/go/other_prog" >"$work/out" 2>"$work/err" || fail "a program in Go runs over the library of another version"
    equal "what a program in Go says of another version" "panic: lineprotocol: the library is of version 2.1.0: this module needs one of version 3" \
        "$(head -n 1 "$work/err")"
    told+=("a program in Go over the packed module and over the installed library, and lp_gateway")
}

# Builds a program in Rust that names the original crate, over the packed crate, and over the installed library.
build_rust() {
    local how ways=(packed) path=$work/rust/influxdb-line-protocol-rust
    ! command -v pkg-config >/dev/null || ways+=(installed)
    has_tools "programs in Rust" cargo || return 0
    mkdir -p "$work/rust/src"
    tar -C "$work/rust" -xzf "$work/one/influxdb-line-protocol-rust-$version-x86_64-linux.tgz"
    printf '%s\n' 'fn main() {' '    for item in influxdb_line_protocol::parse_lines("x\nm f=1i") {' \
        '        println!("{}", item.map_or_else(|fault| fault.to_string(), |line| line.to_string()));' '    }' '}' >"$work/rust/src/main.rs"
    printf '%s\n' '[package]' 'name = "over"' 'version = "0.1.0"' 'edition = "2021"' '[dependencies]' 'influxdb-line-protocol = "2"' \
        '[patch.crates-io]' "influxdb-line-protocol = { path = \"$path/v2\" }" >"$work/rust/Cargo.toml"
    if ! find_crates "$path" "$work/log"; then
        left_out "programs in Rust" "$found"
        return
    fi
    for how in "${ways[@]}"; do
        (cd "$work/rust" && env -u LP_LIB_DIR CARGO_TARGET_DIR="$work/rust/target" cargo build -q "${flags[@]}") >"$work/log" 2>&1 ||
            fail "over the $how library no program in Rust was built: $(cat "$work/log")"
        equal "what a program in Rust over the $how library prints" $'A generic parsing error occurred: TakeWhile1\nm f=1i' "$("$work/rust/target/debug/over")"
        rm -rf "$path/native" "$work/rust/target"
    done
    # A library of another version ends the program at the first call.
    mkdir "$path/native"
    make_other "$path/native/liblp_c.a"
    (cd "$work/rust" && env -u LP_LIB_DIR CARGO_TARGET_DIR="$work/rust/target" cargo build -q "${flags[@]}") >"$work/log" 2>&1 ||
        fail "over another version no program in Rust was built: $(cat "$work/log")"
    ! "$work/rust/target/debug/over" >"$work/out" 2>"$work/err" || fail "a program in Rust runs over the library of another version"
    grep -qF "influxdb_line_protocol: the library is of version 2.1.0: this crate needs one of version 3" "$work/err" ||
        fail "of another version a program in Rust says: $(cat "$work/err")"
    rm -rf "$path/native" "$work/rust/target"
    told+=("a program in Rust over the library that is ${ways[*]}")
}

# Installs the wheel in a new environment, without a network, and runs the example of the package there.
install_wheel() {
    local python=${PYTHON:-python3} wheel=("$work/one/influxdb_line_protocol-$version-"*.whl)
    equal "the name of the wheel" "influxdb_line_protocol-$version-cp38-abi3-manylinux2014_x86_64.whl" "$(basename "${wheel[@]}")"
    if ! "$python" -c 'import ensurepip, venv' 2>/dev/null; then
        left_out "the wheel by pip" "$python has no venv with pip"
        return
    fi
    "$python" -m venv "$work/environment"
    "$work/environment/bin/python" -m pip install --quiet --no-index --disable-pip-version-check "${wheel[@]}" >"$work/log" 2>&1 ||
        fail "the wheel is not installed: $(cat "$work/log")"
    equal "the version of the wheel" "$version" "$("$work/environment/bin/python" -c 'import line_protocol; print(line_protocol.__version__)')"
    "$work/environment/bin/python" "$top/bindings/python/example.py" >"$work/out" || fail "the example in Python does not run over the wheel"
    grep -q '^disk usage ' "$work/out" || fail "the example in Python says something else over the wheel"
    told+=("a wheel, which pip installs without a network")
}

# Runs the programs that were built, with these letters after their names.
run_built() {
    local LD_LIBRARY_PATH=$prefix/lib
    export LD_LIBRARY_PATH
    equal "lp_version" "$version" "$("$work/version$1")"
    equal "the example of the page" cpu "$("$work/page$1")"
    equal "bindings/c/example.c" "$(cat "$top/bindings/c/example.out")" "$("$work/example$1")"
}

# The same by CMake, also over the packages. Another major version is not found.
build_by_cmake() {
    has_tools "programs by CMake" cmake || return 0
    mkdir "$work/project"
    cp "$top/bindings/c/example.c" "$work/project"
    cat >"$work/project/CMakeLists.txt" <<'TEXT'
cmake_minimum_required(VERSION 3.13)
project(over C)
find_package(influxdb_line_protocol ${WANTED} REQUIRED)
add_executable(shared example.c)
target_link_libraries(shared influxdb_line_protocol::influxdb_line_protocol)
add_executable(static example.c)
target_link_libraries(static influxdb_line_protocol::influxdb_line_protocol_static)
TEXT
    local configure=(cmake -S "$work/project" -B "$work/project/made" -DCMAKE_PREFIX_PATH="$prefix")
    for wanted in "" "${version%%.*}" "$version"; do
        "${configure[@]}" -DWANTED="$wanted" >"$work/log" 2>&1 || { cat "$work/log"; fail "CMake does not find version $wanted"; }
    done
    cmake --build "$work/project/made" >"$work/log" 2>&1 || { cat "$work/log"; fail "CMake does not build over the library"; }
    for program in shared static; do
        equal "the example by CMake" "$(cat "$top/bindings/c/example.out")" "$("$work/project/made/$program")"
    done
    # The same over what the packages have, where Debian has it.
    for package in "${packages[@]}"; do dpkg-deb -x "$package" "$work/of_debian"; done
    if ! cmake -S "$work/project" -B "$work/project/debian" -DCMAKE_PREFIX_PATH="$work/of_debian/usr" >"$work/log" 2>&1 ||
        ! cmake --build "$work/project/debian" >"$work/log" 2>&1; then
        cat "$work/log"
        fail "CMake does not build over the packages"
    fi
    for program in shared static; do
        equal "the example by CMake over the packages" "$(cat "$top/bindings/c/example.out")" "$("$work/project/debian/$program")"
    done
    for wanted in $((${version%%.*} + 1)) $((${version%%.*} - 1)) "${version%%.*}.99"; do
        "${configure[@]}" -DWANTED="$wanted" >"$work/log" 2>&1 && fail "CMake takes version $version for $wanted"
    done
    told+=("4 programs by CMake")
}

# run_programs FOLDER [COMMAND..]: runs the programs of a folder on the two lines, by a command: what comes is what README.md says.
run_programs() {
    local folder=$1 program status first="cpu usage=64i" second="item 2: No fields were provided"
    shift
    [[ $(<"$top/README.md") = *"$ ./lp_relay <examples/two_lines.lp"$'\n'"$first"$'\n'"$second"$'\n$ echo $?\n1\n'* ]] ||
        fail "README.md says something else of the two lines"
    for program in lp_rebuild lp_relay; do
        status=0
        "$@" "$folder/$program" <"$top/examples/two_lines.lp" >"$work/out" 2>"$work/err" || status=$?
        equal "what $program gives for the two lines" "$first|$second|1" "$(cat "$work/out")|$(cat "$work/err")|$status"
    done
    status=0
    "$@" "$folder/lp_series" --key <"$top/examples/two_lines.lp" >"$work/out" 2>"$work/err" || status=$?
    equal "what lp_series --key gives for the two lines" $'cpu\t'"$first|$second|1" "$(cat "$work/out")|$(cat "$work/err")|$status"
}

# The links of the installed documents lead somewhere, and the examples find the installed programs.
read_documents() {
    local status=0
    if python3 -c 'import sys; sys.exit(sys.version_info < (3, 10))' 2>/dev/null; then
        python3 -B "$top/checks/documents.py" --top "$prefix/$documents" links >"$work/log" || fail "$(cat "$work/log")"
    else
        left_out "links of the installed documents" "there is no Python 3.10 or later"
    fi
    PATH=$prefix/bin:$PATH "$prefix/$documents/examples/apart.sh" "$prefix/$documents/examples/two_lines.lp" 2 >"$work/out" 2>"$work/err" || status=$?
    equal "what the installed apart.sh gives" "cpu usage=64i|item 2: No fields were provided|1" "$(cat "$work/out")|$(cat "$work/err")|$status"
}

# Each option is told by the page, and completed.
read_page() {
    local option
    for option in $(options); do
        grep -qF -e ".It Fl -${option#--}" "$prefix/share/man/man1/lp_relay.1" || fail "the page of lp_relay does not tell of $option"
        complete_words lp_relay "${option%?}" | grep -qxF -e "$option" || fail "lp_relay's completion does not know $option"
    done
    for option in $(series_options); do
        grep -qF -e ".It Fl -${option#--}" "$prefix/share/man/man1/lp_series.1" || fail "the page of lp_series does not tell of $option"
    done
}

# The options of lp_series, by its help, one in a line.
series_options() { "$prefix/bin/lp_series" --help | sed -n 's/^  \(--[a-z-]*\).*/\1/p'; }

# Sees that an option of lp_series is completed after another one exactly if it can be given after that one, and none after --help.
complete_series() {
    local option other words=() others=()
    declare -A values=([--every]=7 [--prometheus]="$work/metrics" [--max-series]=7 [--shard]=0/2 [--faults]=raw [--max-line]=7)
    completed "$(series_options | paste -sd ' ')" lp_series ""
    for option in $(series_options); do
        case $option in --help | --version) completed "" lp_series "$option" "" && continue ;; esac
        words=("$option" ${values[$option]+"${values[$option]}"}) others=()
        for other in $(series_options); do
            "$prefix/bin/lp_series" "${words[@]}" "$other" ${values[$other]+"${values[$other]}"} </dev/null >/dev/null 2>&1 || continue
            others+=("$other")
        done
        completed "${others[*]}" lp_series "${words[@]}" --
    done
    completed "line raw json json+text editor" lp_series --key --faults ""
    for option in --every --max-series --shard --max-line; do completed "" lp_series "$option" ""; done
    for option in "" --json --prometheus; do completed "$top/launch.sh" lp_series ${option:+"$option"} "$top/lau"; done
}

# Prints how bash completes the last of these words, the first of which is the program.
complete_words() {
    bash --norc -c '
        . "$1/share/bash-completion/completions/$2"
        shift
        COMP_WORDS=("$@")
        COMP_CWORD=$(($# - 1))
        "_$1"
        [ "${#COMPREPLY[@]}" = 0 ] || printf "%s\n" "${COMPREPLY[@]}"' bash "$prefix" "$@"
}

completions=0
# completed WANTED WORD..: the last word is completed so.
completed() {
    local wanted=$1
    shift
    equal "the completion of ($*)" "$wanted" "$(complete_words "$@" | paste -sd ' ')"
    completions=$((completions + 1))
}
# offered WORDS WORD..: the last word is completed by each option but these.
offered() {
    local option wanted=() without=" $1 "
    shift
    for option in $(options); do
        [[ $without = *" $option "* ]] || wanted+=("$option")
    done
    completed "${wanted[*]}" "$@"
}
complete_all() {
    local others
    others=$(options '\nplace:' | paste -sd ' ')
    completed "$(options '\nlp_rebuild:' | paste -sd ' ')" lp_rebuild ""
    completed "line raw json json+text editor" lp_relay --strict --faults ""
    completed "raw" lp_relay --faults r
    completed "json json+text" lp_relay --faults j
    completed "--strict" lp_rebuild --s
    completed "" lp_rebuild --strict ""
    offered "" lp_relay ""
    offered "--strict --newline-delimited --help --version" lp_relay --strict --
    offered "--strict --newline-delimited --help --version" lp_relay --newline-delimited --
    offered "--lines --first-item $others" lp_relay --lines ""
    offered "--check --output --batch-lines --batch-bytes $others" lp_relay --check --
    offered "--check --batch-lines $others" lp_relay --batch-lines 7 --
    offered "--check --batch-lines --batch-bytes --output $others" lp_relay -o x --batch-bytes 7 --batch-lines 7 --
    completed "" lp_relay --batch-bytes ""
    offered "--first-line --first-item $others" lp_relay --first-line 7 --
    offered "--first-item --lines --first-line $others" lp_relay --first-item 7 --
    offered "--check --output $others" lp_relay -o x --
    offered "--canonical --verbatim $others" lp_relay --canonical --
    offered "--faults --first-item $others" lp_relay --faults json --first-item 7 --
    offered "--max-line $others" lp_relay --max-line 7 ""
    completed "" lp_relay --first-item ""
    completed "--max-line" lp_relay --max-l
    completed "" lp_relay --max-line ""
    completed "" lp_relay --cut ""
    completed "$top/launch.sh" lp_relay --strict --cut 4 "$top/lau"
    completed "$top/launch.sh" lp_relay "$top/lau"
    completed "$top/launch.sh" lp_relay --lines "$top/lau"
    completed "$top/launch.sh" lp_relay --output "$top/lau"
    completed "$top/launch.sh" lp_relay -o "$top/lau"
    completed "$top/launch.sh" lp_relay --refused "$top/lau"
    completed "" lp_relay --output --
    completed "" lp_relay --help ""
    completed "" lp_relay -h ""
    completed "--verbatim --version" lp_relay --v
    completed "" lp_relay --version ""
    complete_series
    told+=("$completions completions")
}

# Builds over the package in that Debian, to which its own compiler, reader of pages and shells come, and finds the pages and completions.
build_in_debian() {
    local static root=$1
    if ! timeout 600 chroot "$root" apt-get install -y --no-install-recommends gcc libc6-dev pkg-config man-db zsh fish >"$work/log" 2>&1; then
        left_out "programs built in Debian 12" "apt-get says: $(tail -n 1 "$work/log")"
        return
    fi
    cp "$top/bindings/c/example.c" "$root/tmp"
    for static in "" -static; do
        # shellcheck disable=SC2016
        chroot "$root" sh -ec 'cc $1 /tmp/example.c $(pkg-config ${1:+--static} --cflags --libs influxdb_line_protocol) -o /tmp/example' \
            sh "$static"
        equal "bindings/c/example.c in Debian 12" "$(cat "$top/bindings/c/example.out")" "$(chroot "$root" /tmp/example)"
    done
    chroot "$root" man -w lp_rebuild lp_relay lp_series influxdb_line_protocol >/dev/null || fail "man does not find the pages of the package"
    # shellcheck disable=SC2016
    equal "what completes in zsh there" "_lp_rebuild _lp_relay _lp_series" "$(chroot "$root" env -u FPATH zsh -c \
        'autoload -Uz compinit && compinit -D -u && print $_comps[lp_rebuild] $_comps[lp_relay] $_comps[lp_series]')"
    equal "what fish completes there" "--strict" "$(chroot "$root" env HOME=/tmp fish -c 'complete -C "lp_relay --stri"' | cut -f 1)"
    told+=("built over and completed there")
}

# Makes a package of version 2.0.0, in which the library and its header came with the programs: `make_old ROOT`.
make_old() {
    local tree=$work/old
    mkdir -p "$tree"/{DEBIAN,usr/bin,usr/include,usr/lib,usr/share/man/man3}
    touch "$tree"/usr/{bin/lp_old,include/influxdb_line_protocol.h,lib/libinfluxdb_line_protocol.so.2.0.0}
    gzip -c </dev/null >"$tree/usr/share/man/man3/influxdb_line_protocol.3.gz"
    sed -n '1,/^$/p' "$top/packaging/control.in" | sed 's/@VERSION@/2.0.0/; s/@ARCH@/amd64/; s/@SIZE@/1/; /^Depends/d; /^$/d' >"$tree/DEBIAN/control"
    dpkg-deb --root-owner-group --build "$tree" "$1/tmp/old.deb" >"$work/log"
}

# All names in a Debian, but for what dpkg and the loader keep.
names_in() {
    find "$1" -xdev ! -path "$1/var/*" ! -path "$1/tmp*" ! -path "$1/etc/ld.so.cache" ! -path "$1/root*" ! -path "$1/proc*" -printf '%P\n' | LC_ALL=C sort
}

# Installs the packages in a bare Debian 12, over one of version 2.0.0, and runs there what was run here; then installs them again, and
# removes them.
try_bare_debian() {
    local program root=$work/debian
    bare_debian "a bare Debian 12" "$root" || return 0
    names_in "$root" >"$work/bare"
    cp "${packages[@]}" "$root/tmp"
    make_old "$root"
    for program in old.deb '*_amd64.deb' '*_amd64.deb'; do
        chroot "$root" sh -c "dpkg -i /tmp/$program" >"$work/log" 2>&1 || { cat "$work/log"; fail "$program is not installed in a bare Debian 12"; }
    done
    chroot "$root" dpkg --verify influxdb-line-protocol "$library" libinfluxdb-line-protocol-dev
    equal "what an upgrade leaves of version 2.0.0" "" "$(find "$root/usr" -name lp_old -o -name 'libinfluxdb_line_protocol.so.2*')"
    run_programs /usr/bin chroot "$root"
    told+=("the packages installed over an older one, and run, in a bare Debian 12")
    remove_there "$root"
    chroot "$root" sh -c "dpkg -i /tmp/*_amd64.deb" >"$work/log" 2>&1
    if [ -e "$work/version" ]; then
        cp "$work/version" "$work/version-static" "$root/tmp"
        for program in version version-static; do
            equal "lp_version in a bare Debian 12" "$version" "$(chroot "$root" "/tmp/$program")"
        done
    fi
    build_in_debian "$root"
}
# Removes the packages, and then what dpkg keeps of them.
remove_there() {
    local how
    for how in remove purge; do
        chroot "$1" dpkg "--$how" influxdb-line-protocol libinfluxdb-line-protocol-dev "$library" >"$work/log" 2>&1 || true
        equal "what is left of removed packages" "" "$(names_in "$1" | diff "$work/bare" - || true)"
    done
    equal "what dpkg knows of removed packages" "" "$(chroot "$1" dpkg-query -W '*influxdb*' 2>/dev/null || true)"
    equal "what dpkg keeps of removed packages" "" "$(find "$1/var/lib/dpkg/info" -name '*influxdb*')"
    told+=("and removed, with nothing left")
}

look_at_dist
install_here
verify_record
uninstall_here
refuse_arguments
refuse_places
refuse_tools
told+=("$refusals refusals")
build_over
build_go
build_rust
install_wheel
build_by_cmake
run_programs "$prefix/bin"
read_documents
read_page
complete_all
try_bare_debian
"$top/checks/fresh.sh" --start "$work/one"
if [ $# != 0 ] && [ ! -d "$1/arm64" ]; then left_out "packages for ARM64" "$1 has no folder arm64"; else "$top/checks/arm64.sh" "$@"; fi
echo "dist: $(printf '%s; ' "${told[@]}" | sed 's/; $//')"
