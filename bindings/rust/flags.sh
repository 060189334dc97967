# shellcheck shell=bash
# For the scripts that call cargo. `find_crates FOLDER LOG` puts into `flags` the words by which cargo has the crates that the one in FOLDER
# names: those of CARGO_FLAGS alone if crates.io is in reach, or else what names Debian's packages librust-bytes-dev, librust-nom-dev and
# librust-smallvec-dev, and then `found` says so. Status 1: cargo has them in neither way, and `found` says why.
flags=() found=''
fetch_crates() { (cd "$1" && CARGO_NET_RETRY=1 cargo fetch "${flags[@]}") >"$2" 2>&1; }
find_crates() {
    local failure
    IFS=' ' read -ra flags <<<"${CARGO_FLAGS:-}"
    ! fetch_crates "$1" "$2" || return 0
    failure=$(tail -n 1 "$2")
    flags+=(--offline --config 'source.crates-io.replace-with="debian"' --config 'source.debian.directory="/usr/share/cargo/registry"')
    found=" over Debian's crates"
    ! fetch_crates "$1" "$2" || return 0
    # shellcheck disable=SC2034  # for the scripts
    found="cargo cannot have the crates from crates.io ($failure) or Debian ($(tail -n 1 "$2"))"
    return 1
}
