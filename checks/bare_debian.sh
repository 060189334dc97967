# shellcheck shell=bash
# For the checks: `bare_debian NAME ROOT` makes a bare Debian 12 in the folder ROOT, by debootstrap, from MIRROR if it is set. Where that cannot be
# done, it says that NAME is left out, and fails.
bare_debian() {
    local said
    if [ "$(id -u)" != 0 ] || ! command -v debootstrap >/dev/null; then
        left_out "$1" "there is no debootstrap, or this is not root"
        return 1
    fi
    # What is mounted for it is seen by this command alone.
    said=$(timeout 900 unshare --mount debootstrap --variant=minbase bookworm "$2" ${MIRROR:+"$MIRROR"} 2>&1) && return
    left_out "$1" "debootstrap says: $(tail -n 1 <<<"$said")"
    return 1
}
