# shellcheck shell=bash disable=SC2154
# For the checks that run programs, which set `top` to the top of the repository: `options [PATTERN]` prints, one in a line, the options of
# lp_relay whose record in tables/options.txt is like this pattern of awk.
options() { awk -v RS= -v like="${1-}" '/^option: / && $0 ~ like { print $2 }' "$top/tables/options.txt"; }
