# shellcheck shell=bash disable=SC2154
# For the scripts beside it, which set `here`, `top` and `built`, a folder of their own: the package of checks/golang, to be run by go, without
# modules and without a network. The parsers beside which it reads are in Debian's packages of Go sources, installed, or unpacked as
# bin/setup does.
sources=/usr/share/gocode:/usr/local/share/gocode

# source_of PACKAGE: the folder of a Go package, if it is here.
source_of() {
    local folder
    for folder in ${sources//:/ }; do
        if [ -d "$folder/src/$1" ]; then
            echo "$folder/src/$1"
            return
        fi
    done
    return 1
}

# Tells what is lacking to run the package at all, if something is.
golang_lacks() {
    if ! command -v go >/dev/null; then
        echo "there is no go"
    elif ! source_of github.com/influxdata/influxdb/models >/dev/null; then
        echo "there is no golang-github-influxdb-influxdb-dev"
    fi
}

# prepare_golang ARCHIVE [TAGS]: goes to the package, as it is to be run over the archive and with these build tags.
prepare_golang() {
    cp "$1" "$built/liblp_c.a"
    mkdir -p "$built/path/src/yomskafi.example/lineprotocol"
    cp -r "$top/bindings/go" "$built/path/src/yomskafi.example/lineprotocol/v3"
    cp -r "$here/golang" "$built/path/src/beside"
    export GO111MODULE=off GOFLAGS=-tags=lp_lib_dir${2:+,$2} GOPATH=$built/path:$sources GOCACHE=${GOCACHE:-$built/cache} CGO_ENABLED=1
    export CGO_CFLAGS="-O2 -I$top/include -I$top/bindings/c" CGO_LDFLAGS="-L$built" LP_TOP=$top
    cd "$built/path/src/beside" || exit
}

# try ARGUMENTS..: runs go, and shows what it says only if it fails. It is in the file `log` of the folder.
try() {
    if ! go "$@" >"$built/log" 2>&1; then
        grep -a -v -e '--- PASS' -e '=== RUN' "$built/log" | head -n 40 | cut -c 1-2000 >&2
        echo "$(basename "$0" .sh): go $* failed" >&2
        exit 1
    fi
}
