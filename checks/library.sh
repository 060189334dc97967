# shellcheck shell=bash disable=SC2034,SC2154
# For the scripts beside it, which set `top` to the top of the repository: the static libraries of crates/lp_checks and crates/lp_c. They
# are taken from the folder that ARCHIVES names, if it is set, and else proved and built if they were not built from these sources.
. "$top/launch.sh"
. "$top/checks/left_out.sh"
heap=$(kit)/c/liblibc_c.a

# Sets `library` and `archive` to those of lp_checks and lp_c. Its arguments name the ones that are needed.
build_library() {
    library=${ARCHIVES:-$top/crates/lp_checks/out}/liblp_checks.a
    archive=${ARCHIVES:-$top/crates/lp_c/out}/liblp_c.a
    [ -n "${ARCHIVES:-}" ] || build_if_changed "$(basename "$0" .sh)" "$@" || exit 1
}

# begin CRATE..: makes `built`, a folder that is removed at the end. A script that begins so is left out if there is no cc, or no Python 3.10.
begin() {
    has_tools "checks/$(basename "$0")" cc python3 || exit 0
    build_library "$@"
    built=$(mktemp -d)
    trap 'rm -rf "$built"' EXIT
}

# share_library OUT FILE..: makes a shared library of lp_checks, and of these sources over lp_c, for programs in Python: library.py has its calls.
share_library() {
    cc -O2 -Wall -Wextra -shared -fPIC -I"$top/include" "${@:2}" "$archive" -Wl,--whole-archive "$library" -Wl,--no-whole-archive "$heap" -o "$1"
}
