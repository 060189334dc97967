#!/usr/bin/env bash
# Makes the static library of crates/lp_c, and of it the shared library that callers load at run time:
#
#     bindings/build.sh                      makes out/liblp_c.a, if it was not built from these sources;
#                                            a terminal sees how far that is
#     bindings/build.sh ARCHIVE [FOLDER]     takes an archive that was made before
#
# The shared library is libinfluxdb_line_protocol.so of FOLDER, which is bindings/out if none is given: a link to the file that has
# the version in its name, as is the link to which programs are bound. It shows the calls of the header, and what is empty, alone.
set -eu
here=$(cd "$(dirname "$0")" && pwd)
. "$here/../launch.sh"
archive=${1:-$top/crates/lp_c/out/liblp_c.a}
folder=${2:-$here/out}
if [ $# = 0 ]; then
    build_if_changed build lp_c || exit 1
fi
mkdir -p "$folder"
version=$(version)
shared=libinfluxdb_line_protocol.so
"${CC:-cc}" -O2 -shared -fPIC -I"$top/include" "$here/c/heap.c" "$here/c/empty.c" \
    -Wl,--whole-archive "$archive" -Wl,--no-whole-archive \
    -Wl,-z,relro,-z,now -Wl,-soname,"$shared.${version%%.*}" -Wl,--version-script,"$here/c/shown.map" -o "$folder/$shared.$version"
# `rt ci` takes no symbolic links in the repository.
how=-f
[ $# -lt 2 ] || how=-sf
(cd "$folder" && ln "$how" "$shared.$version" "$shared.${version%%.*}" && ln "$how" "$shared.$version" "$shared")
echo "build: $archive and $folder/$shared"
