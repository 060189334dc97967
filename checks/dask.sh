#!/usr/bin/env bash
# Reads files in parts by Dask, with a scheduler and four workers that are processes of this machine, and compares what they give with
# what one process gives; also if a worker is killed midway. All of it is started here, and ends here.
#
#   checks/dask.sh [ARCHIVE [SIZE]]
#
# ARCHIVE: a static library for C that was made before; else it is made first. SIZE: about how many bytes are read, 20,000,000 if it is
# not given. PYTHON: the Python that has Dask; else it is python3, or /usr/bin/python3, which Debian's python3-distributed is for. What
# is missing here is left out.
set -eu
top=$(cd "$(dirname "$0")/.." && pwd)
. "$top/checks/left_out.sh"
python=
for one in ${PYTHON:-python3 /usr/bin/python3}; do
    if "$one" -c 'import sys, distributed; sys.exit(sys.version_info < (3, 10))' 2>/dev/null; then
        python=$one
        break
    fi
done
if [ -z "$python" ]; then
    left_out checks/dask.sh "no Python 3.10 or later has distributed, of Dask"
    exit 0
fi
# Any Python that has its headers compiles the package for all.
builder=
for one in "$python" python3; do
    if "$one" -c 'import os, sysconfig; os.stat(sysconfig.get_path("include") + "/Python.h")' 2>/dev/null; then
        builder=$one
        break
    fi
done
if [ -z "$builder" ] || ! command -v "${CC:-cc}" >/dev/null; then
    left_out checks/dask.sh "there is no ${CC:-cc}, or no Python.h, which compile the package"
    exit 0
fi
work=$(mktemp -d)
trap 'rm -rf "$work"' EXIT
[ $# -gt 0 ] || "$top/bindings/build.sh" >/dev/null
ARCHIVE=$(realpath "${1:-$top/crates/lp_c/out/liblp_c.a}") "$builder" -B "$top/bindings/python/build_backend.py" "$work/package"
names=(telegraf iot strings escapes faulty)
python3 -B "$top/bench/corpora.py" --seed dask --size $((${2:-20000000} / ${#names[@]})) --out "$work" "${names[@]}" >"$work/files"
cd "$work"
PYTHONPATH=$work/package "$python" -B "$top/checks/dask_workers.py" "$work/files" "$work"
