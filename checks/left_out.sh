# shellcheck shell=bash
# For the checks: `left_out NAME WHY` says what a check does not do here, and why. It is told again by test.sh at its end, from the
# file that LEFT_OUT names. NAME holds no colon.
left_out() {
    local line="left out: $1: $2"
    echo "$line"
    [ -z "${LEFT_OUT:-}" ] || echo "$line" >>"$LEFT_OUT"
}

# has_tools NAME TOOL..: whether all of these are here. If one is not, it says that NAME is left out. `python3` is Python 3.10 or later.
has_tools() {
    local tool
    for tool in "${@:2}"; do
        if [ "$tool" = python3 ]; then
            python3 -c 'import sys; sys.exit(sys.version_info < (3, 10))' 2>/dev/null && continue
            tool="Python 3.10 or later"
        fi
        command -v "$tool" >/dev/null || { left_out "$1" "there is no $tool" && return 1; }
    done
}
