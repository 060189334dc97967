#!/usr/bin/env bash
# Builds the Python package, whose extension must compile without a warning, and runs its tests; two of them refuse each request for
# memory in turn, of the library and of Python, and some pack it. Then mypy looks at its types, where it is there, and pip installs the
# package into a new environment, without a network, in three ways, and the example is run there. All else needs Python and its standard library alone; NumPy and
# pandas are used where they are there. Where something cannot be run, a line that begins with `left out: ` says why, on standard output
# and in the file that LEFT_OUT names, if it is set. LP_RELAY is the program that files are cut beside: that of this repository, if it
# is built.
#
#     bindings/python/test.sh             makes the archive first
#     bindings/python/test.sh ARCHIVE     takes one that was made before
#
# PYTHON is the Python that runs them: python3 by default. If it lacks NumPy or pandas, and Debian's own Python has it, that runs the
# same tests over the same package. If WATCHED is set, the tests alone are run, with the extension compiled for the address sanitizer,
# and with each request of Python for memory one of the C library, so that the sanitizer sees it. Tests of how much memory is held are
# passed over then, and the largest sizes.
set -eu
here=$(cd "$(dirname "$0")" && pwd)
bindings=$(dirname "$here")
python=${PYTHON:-python3}

# Says that the tests are left out, and why.
leave_out() {
    echo "left out: bindings/python: $1" | tee -a "${LEFT_OUT:-/dev/null}"
    exit 0
}
if ! "$python" -c 'import ctypes, sys, unittest; sys.exit(sys.version_info < (3, 10))' 2>/dev/null; then
    leave_out "$python is no Python 3.10 or later with its standard library"
fi
if ! command -v "${CC:-cc}" >/dev/null; then
    leave_out "there is no ${CC:-cc}"
fi
include=$("$python" -c 'import sysconfig; print(sysconfig.get_path("include"))')
if [ ! -f "$include/Python.h" ]; then
    leave_out "there is no $include/Python.h, the header of $python"
fi
"$bindings/build.sh" "$@" >/dev/null
ARCHIVE=$(realpath "${1:-$(dirname "$bindings")/crates/lp_c/out/liblp_c.a}")
LP_RELAY=$(realpath -m "${LP_RELAY:-$(dirname "$bindings")/crates/lp_relay_program/out/lp_relay_program}")
export ARCHIVE LP_RELAY PYTHONDONTWRITEBYTECODE=1
[ -x "$LP_RELAY" ] || echo "left out: bindings/python beside lp_relay: there is no $LP_RELAY" | tee -a "${LEFT_OUT:-/dev/null}"
built=$(mktemp -d)
trap 'rm -rf "$built"' EXIT
cd "$built"
watched=(env)
if [ -n "${WATCHED:-}" ]; then
    export CFLAGS="${CFLAGS:-} -g -fsanitize=address"
    watched=(env "LD_PRELOAD=$("${CC:-cc}" -print-file-name=libasan.so)" PYTHONMALLOC=malloc
        ASAN_OPTIONS=detect_leaks=0:allocator_may_return_null=1)
fi
CFLAGS="${CFLAGS:-} -Werror" "$python" "$here/build_backend.py" "$built/package"
"$python" "$here/build_backend.py" "$built/refusing" --refuse
# Prints which of NumPy and pandas a Python has.
extras_of() {
    local extra
    for extra in numpy pandas; do
        ! "$1" -c "import $extra" 2>/dev/null || echo "$extra"
    done
}

# Runs the tests by a Python that has these of NumPy and pandas.
run_tests() {
    local python=$1 extras=$2
    if ! LP_REFUSED_LIBRARY=$built/refusing PYTHONPATH=$built/package "${watched[@]}" "$python" -m unittest discover -s "$here/tests" \
        >"$built/answers" 2>"$built/said" || ! grep -q '^Ran [1-9]' "$built/said" || ! grep -q '^answers.tsv: ' "$built/answers"; then
        cat "$built/said" >&2
        exit 1
    fi
    echo "python: $("$python" --version), ${extras:-no numpy, no pandas}: $(grep '^Ran ' "$built/said"): $(tail -n 1 "$built/said")"
    echo "python: $(grep '^answers.tsv: ' "$built/answers")"
}
own=$(extras_of "$python" | xargs)
run_tests "$python" "$own"
debian=$(extras_of /usr/bin/python3 | xargs)
if [ "${#debian}" -gt "${#own}" ] && /usr/bin/python3 -c 'import sys; sys.exit(sys.version_info < (3, 10))'; then
    run_tests /usr/bin/python3 "$debian"
    own=$debian
fi
for extra in numpy pandas; do
    if [[ " $own " != *" $extra "* ]]; then
        echo "left out: bindings/python with $extra: neither $python nor /usr/bin/python3 has it" | tee -a "${LEFT_OUT:-/dev/null}"
    fi
done

if [ -n "${WATCHED:-}" ]; then
    echo "python: the extension was watched by the address sanitizer"
    exit 0
fi
if command -v mypy >/dev/null; then
    if ! (cd "$here/src" && mypy --strict --cache-dir "$built/mypy" -p line_protocol >"$built/said" 2>&1); then
        cat "$built/said" >&2
        exit 1
    fi
    echo "python: mypy --strict: $(tail -n 1 "$built/said")"
else
    echo "left out: bindings/python by mypy: there is no mypy" | tee -a "${LEFT_OUT:-/dev/null}"
fi
if ! "$python" -c 'import ensurepip, venv' 2>/dev/null; then
    echo "left out: bindings/python by pip: $python has no venv with pip" | tee -a "${LEFT_OUT:-/dev/null}"
    exit 0
fi
"$python" -m venv "$built/new"
# Installs what these words say in the new environment, and runs the example there: `install WORD..`.
install() {
    if ! "$built/new/bin/python" -m pip install --quiet --no-index --disable-pip-version-check --force-reinstall "$@" >"$built/said" 2>&1 ||
        ! "$built/new/bin/python" "$here/example.py" >"$built/printed" 2>&1 || ! grep -q '^disk usage ' "$built/printed" ||
        ! grep -qF "Counter({'cpu': 4, 'cpu,az=b,host=a': 3})" "$built/printed"; then
        cat "$built/said" "$built/printed" >&2
        exit 1
    fi
}
install "$here"
sources=$("$python" -B "$here/build_backend.py" --sdist "$built")
install "$built/$sources"
# What is installed to be edited is that of its folder, so of a copy.
tar -C "$built" -xzf "$built/$sources"
install --editable "$built/${sources%.tar.gz}/bindings/python"
echo 'edited = True' >>"$built/${sources%.tar.gz}/bindings/python/src/line_protocol/__init__.py"
edited=$("$built/new/bin/python" -c 'import line_protocol; print(line_protocol.edited, line_protocol.__version__)')
[[ $edited = "True "* ]] || { echo "python: an editable install is not that of its folder: $edited" >&2; exit 1; }
echo "python: pip installs version ${edited#True } in a new environment: of this folder, of the packed sources, and to be edited"
