#!/usr/bin/env bash
# Compares what lp_series tells and writes with what Python counts by itself, over each kind of corpus of bench/corpora.py and a few texts
# whose lines are easily taken for others.
#
#     checks/series.sh RELAY SERIES [SIZE]    the programs lp_relay and lp_series, and how many bytes a corpus has: 200,000 by default
set -eu
here=$(cd "$(dirname "$0")" && pwd)
work=$(mktemp -d)
trap 'rm -rf "$work"' EXIT
python3 "$here/../bench/corpora.py" --seed series --size "${3:-200000}" --out "$work" >/dev/null
# Strings and comments of more lines, a comment before a line, names that are not admitted, one series in three spellings, no lines at all,
# and a last line without a newline.
printf 'm s="a\nn b=7 1\n"\n# c\n  m,b=2,a=1 f=1 3\nm,a=1,b=2 f=t\nm,a\\=1=x f=1i -5\nw\\\tx f=1\n,t=1 f=1\nm,,=v f=1u\nm,\\,=v f=""\nm\\\nn,a=\\ f=1 f=2' >"$work/lines.lp"
printf 'cpu,host=a usage=1 9223372036854775807\ncpu,host=a usage=2i -9223372036854775808\n\xff f=1\n' >"$work/times.lp"
: >"$work/empty.lp"
exec python3 "$here/series.py" "$1" "$2" "$work"/*.lp
