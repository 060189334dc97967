#!/usr/bin/env bash
# Builds the static library of crates/lp_c, and programs over it, watched by the address and undefined behaviour sanitizers. The examples must
# print example.out, sums.out and groups.out, also over the heap of arena.c. answers.c compares the table of answers with little lent and no
# request for memory, offsets.c reads by offsets and tells keys and verdicts, cuts.c cuts texts that come in parts, writing.c writes with little
# lent and memory refused, numbers.c asks for the numbers of literals, and sizes.c hands over large texts. Threads of answers.c are watched by
# the thread sanitizer, and by helgrind, which sees the library's own loads and stores too; and the archive must hold no variable. The header
# goes through a C++ compiler too; and each C++ compiler that is there builds example.cpp, which prints example_cpp.out, and ranges.cpp, which
# compares the table of answers, by C++17 and under the same sanitizers.
#
#     bindings/c/test.sh             makes the archive first
#     bindings/c/test.sh ARCHIVE     takes one that was made before
set -eu
here=$(cd "$(dirname "$0")" && pwd)
top=$(dirname "$(dirname "$here")")
. "$top/checks/left_out.sh"
if ! command -v "${CC:-cc}" >/dev/null; then
    left_out bindings/c "there is no ${CC:-cc}"
    exit 0
fi
"$(dirname "$here")/build.sh" "$@" >/dev/null
archive=${1:-$top/crates/lp_c/out/liblp_c.a}
built=$(mktemp -d)
trap 'rm -rf "$built"' EXIT

# Builds a program over the library, with these flags. Its heap is heap.c, or that of $heap.
heap=heap
build() {
    local name=$1
    shift
    "${CC:-cc}" -std=c11 -Wall -Wextra -Wpedantic -Werror -g "$@" -I"$top/include" "$here/$name.c" "$here/$heap.c" \
        "$here/empty.c" "$archive" -o "$built/$name"
}
watched=("-fsanitize=address,undefined" -fno-sanitize-recover=all)

build example "${watched[@]}"
if ! "$built/example" | diff "$here/example.out" -; then
    echo "c: the example does not print example.out" >&2
    exit 1
fi
for heap in arena heap; do
    for example in sums groups; do
        build "$example" "${watched[@]}"
        if ! "$built/$example" | diff "$here/$example.out" -; then
            echo "c: over $heap.c, the example $example does not print $example.out" >&2
            exit 1
        fi
    done
done
build answers -DLP_REFUSE -pthread "${watched[@]}"
if ! answers=$("$built/answers" "$top/checks/tables/answers.tsv"); then
    echo "c: the table of answers is not as the library says: $answers" >&2
    exit 1
fi
said="the examples print what they should"
while IFS='|' read -r name wrong; do
    build "$name" "${watched[@]}" -DLP_REFUSE
    if ! told=$("$built/$name"); then
        echo "c: $wrong: $told" >&2
        exit 1
    fi
    said="$said; $told"
done <<'END'
offsets|by offsets texts do not give the rows, keys and verdicts that they should
cuts|texts that come in parts are not cut as they should be
writing|what should be written was not
numbers|literals do not have the numbers that they should
sizes|what should come of what is large did not come
END

# Runs answers.c by threads side by side, built with these flags, by this command.
run_threads() {
    local flags=$1
    shift
    build answers -pthread ${flags:+"$flags"}
    if ! "$@" "$built/answers" "$top/checks/tables/answers.tsv" >"$built/log" 2>&1; then
        cat "$built/log" >&2
        echo "c: threads side by side do not get what the table of answers says, or touch what another does" >&2
        exit 1
    fi
}
if nm "$archive" 2>/dev/null | grep -E ' [BbCDdGgSs] '; then
    echo "c: the archive holds these variables, which threads would share" >&2
    exit 1
fi
watchers=()
printf 'int main(void) { return 0; }\n' >"$built/nothing.c"
if "${CC:-cc}" -fsanitize=thread "$built/nothing.c" -o "$built/nothing" 2>/dev/null && "$built/nothing"; then
    run_threads -fsanitize=thread
    watchers+=("the thread sanitizer")
else
    left_out "thread sanitizer" "${CC:-cc} has none, so it does not watch bindings/c"
fi
if command -v valgrind >/dev/null; then
    run_threads "" valgrind -q --tool=helgrind --error-exitcode=1
    watchers+=(helgrind)
else
    left_out helgrind "there is no valgrind, so it does not watch bindings/c"
fi
if [ ${#watchers[@]} = 0 ]; then
    run_threads ""
    said="$said; threads side by side, watched by nothing"
else
    said="$said; the table of answers by threads side by side, watched by $(printf '%s and ' "${watchers[@]}" | sed 's/ and $//')"
fi
if command -v g++ >/dev/null; then
    printf '%s\n' '#include "influxdb_line_protocol.h"' 'int main() {' '    lp_part parts[2] = { lp_empty_part, lp_empty_part };' \
        '    lp_line line = lp_empty_line;' '    uint8_t out[64];' '    size_t len = 0;' '    lp_empty_parts(parts, 2);' \
        '    return lp_fault_message(&line, out, sizeof out, &len) != LP_NOT_A_LINE || lp_version() != 30000;' '}' >"$built/header.cpp"
    g++ -Wall -Wextra -Werror -I"$top/include" "$built/header.cpp" -x c++ "$here/heap.c" "$here/empty.c" -x none "$archive" \
        -o "$built/header"
    "$built/header"
    said="$said, and the header and the heap are C++ too"
else
    left_out "header as C++" "there is no g++"
fi

# Builds a program in C++17, and prints what it prints: `run_ranges COMPILER NAME WORD..`.
run_ranges() {
    local compiler=$1 name=$2
    shift 2
    "$compiler" -std=c++17 -Wall -Wextra -Wpedantic -Werror -g "${watched[@]}" -I"$top/include" "$here/$name.cpp" "$built/heap.o" "$archive" \
        -o "$built/$name" && "$built/$name" "$@"
}
"${CC:-cc}" -c "$here/heap.c" -o "$built/heap.o"
for compiler in g++ clang++; do
    if ! command -v "$compiler" >/dev/null; then
        left_out "ranges of C++ by $compiler" "there is no $compiler"
        continue
    fi
    if ! run_ranges "$compiler" example | diff "$here/example_cpp.out" -; then
        echo "c: example.cpp by $compiler does not print example_cpp.out" >&2
        exit 1
    fi
    if ! ranges=$(run_ranges "$compiler" ranges "$top/checks/tables/answers.tsv"); then
        echo "c: by $compiler, ranges of C++ do not give what they should: $ranges" >&2
        exit 1
    fi
    said="$said; by $compiler, $ranges"
done
echo "c: $said"
echo "c: $answers"
