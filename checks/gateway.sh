#!/usr/bin/env bash
# Builds lp_gateway, and tries what docs/GATEWAY.md promises before a server of InfluxDB 1.x, with influxdb-python as a client: what it
# answers; what it refuses, and keeps; lines while it is killed, or ended, or while the server is, or hangs; full disks, and syncs that fail;
# lines that the server cannot take; and what it takes of memory, whatever clients do. What was answered by 204 must be in the server in the
# end. servers/gateway.py has the trials.
#
#   checks/gateway.sh ARCHIVE
#
# ARCHIVE: the library, liblp_c.a. influxd listens on a free port of the loopback device, has its data in a temporary folder, and ends with
# this script. What is missing is left out, and is named. It takes about two minutes, and no network.
set -euo pipefail
here=$(cd "$(dirname "$0")" && pwd)
. "$here/left_out.sh"
if [ $# != 1 ] || [ ! -f "$1" ]; then
    echo "usage: checks/gateway.sh ARCHIVE" >&2
    exit 2
fi
has_tools checks/gateway.sh go influxd || exit 0
# The first Python that has influxdb-python.
for python in "${PYTHON:-python3}" /usr/bin/python3 ''; do
    [ -z "$python" ] || ! "$python" -c 'import influxdb, sys; sys.exit(sys.version_info < (3, 10))' 2>/dev/null || break
done
if [ -z "$python" ]; then
    left_out checks/gateway.sh "there is no python3-influxdb, or no Python 3.10"
    exit 0
fi
work=$(mktemp -d)
mkdir "$work/disk"
trap 'umount "$work/disk" 2>/dev/null || true; chmod -R u+w "$work"; rm -rf "$work"' EXIT
mount -t tmpfs -o size=128k gateway "$work/disk" 2>/dev/null ||
    left_out "a full disk of checks/gateway.sh" "no tmpfs can be mounted here"
strace -o /dev/null true 2>/dev/null ||
    left_out "a sync that fails, of checks/gateway.sh" "there is no strace, or it may not watch"
cp "$1" "$work/liblp_c.a"
cd "$here/../gateway"
GOCACHE=$work/cache GOPATH=$work/path GOFLAGS=-tags=lp_lib_dir GOPROXY=off CGO_ENABLED=1 CGO_LDFLAGS="-L$work" go build -o "$work/lp_gateway" .
"$python" -B "$here/servers/gateway.py" "$work/lp_gateway" "$work"
