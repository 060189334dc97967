#!/usr/bin/env bash
# Sees that bash, zsh and fish complete the words of the programs as their options go together. Needs Python 3.10; a shell that is not here
# is left out.
set -eu
here=$(cd "$(dirname "$0")" && pwd)
. "$here/left_out.sh"
has_tools checks/completion.sh python3 || exit 0
shells=(bash)
for shell in zsh fish; do
    ! has_tools "completion by $shell" "$shell" || shells+=("$shell")
done
python3 -B "$here/shells.py" "${shells[@]}"
