#!/usr/bin/env python3
"""Tells which test of a package sees each bug of tables/bugs_of_packages.tsv, which no contract rules out.

    checks/what_sees.py                            prints each bug that cannot be planted; the status is 1 if there is any
    checks/what_sees.py python ARCHIVE [NAME..]    plants each bug of the Python package, or those of these names
    checks/what_sees.py rust ARCHIVE [NAME..]      the same for the crate for Rust
    checks/what_sees.py go ARCHIVE [NAME..]        the same for the module for Go
    checks/what_sees.py js FOLDER [NAME..]         the same for the JavaScript package

ARCHIVE is liblp_c.a. FOLDER is one that packaging/page/build.sh made. Each bug is planted alone in a copy of the sources outside the repository,
and the tests run over the copy: the modules of the Python tests but test_packing, up to the first test that fails; `cargo test`, up to the first
program of tests that fails; `go test`; or in_node.mjs, streams.mjs and memory.mjs of checks/page. A line for each bug names the module, the tests or the files
that fail, or says `NO TEST`. Before, the tests run without a bug: if one fails, no bug is planted. The status is 1 if a bug is seen by no test, or
makes a package that cannot be built. A name is what goes wrong, with `_` in place of each space. JOBS copies, 3 by default, are tested side by side,
by the Python that runs this script. LP_RELAY can be the absolute path of a built lp_relay; without it, and without pandas, the tests that need it
are left out.

Where no test fails, a bug takes so many seconds of one processor: 14 in JavaScript, 8 in Go beside the build, more than 25 in Rust, and more than 50
in Python. SECONDS, 900 by default, is how long the tests of one copy may run: set it to more on a busy machine.
"""

import os
import re
import shutil
import subprocess
import sys
import tempfile
from concurrent.futures import ThreadPoolExecutor
from pathlib import Path
from typing import NamedTuple

TOP = Path(__file__).resolve().parent.parent
TABLE = TOP / "tables" / "bugs_of_packages.tsv"
SECONDS = int(os.environ.get("SECONDS", "900"))  # how long the tests of one package may run
FAILED = re.compile(r"^(?:FAIL|ERROR): \w+ \((?:unittest\.loader\._FailedTest\.)?(\w+)", re.M)


FAILED_ELSEWHERE = re.compile(r"^test (.+) \.\.\. FAILED$|^--- FAIL: (\w+)", re.M)  # as cargo and go print it


class Bug(NamedTuple):
    package: str
    file: str
    words: str  # what goes wrong
    old: str
    new: str

    @property
    def name(self):
        return self.words.replace(" ", "_")


def bugs():
    """Returns the bugs of the table, in order."""
    lines = [line for line in TABLE.read_text(encoding="utf-8").splitlines() if not line.startswith("#")]
    return [Bug(*(cell.replace("⏎", "\n").replace("⇥", "\t") for cell in line.split("\t"))) for line in lines]


def unplantable(table):
    """Returns what is wrong with the rows, in words."""
    counts = [(bug, (TOP / "bindings" / bug.package / bug.file).read_text(encoding="utf-8").count(bug.old)) for bug in table]
    names = [bug.name for bug in table]
    told = [f"{bug.package}: {bug.name}: {bug.file} has its text {count} times" for bug, count in counts if count != 1]
    return told + [f"{name}: two bugs have this name" for name in sorted({name for name in names if names.count(name) > 1})]


def run(command, folder, **more):
    """Runs a command. Returns whether it succeeded, and all that it printed."""
    environment = {**os.environ, "PYTHONDONTWRITEBYTECODE": "1", **more}
    try:
        done = subprocess.run(command, cwd=folder, env=environment, capture_output=True, text=True, errors="replace", check=False, timeout=SECONDS)
    except subprocess.TimeoutExpired:
        return False, "ERROR: too_slow (too_slow)\n"
    return done.returncode == 0, done.stdout + done.stderr


def plant(bug, package):
    """Writes a file of the repository into a copy of its package, with a bug in it, if there is one."""
    if bug:
        text = (TOP / "bindings" / bug.package / bug.file).read_text(encoding="utf-8")
        (package / bug.file).write_text(text.replace(bug.old, bug.new), encoding="utf-8")


def copy_package(name, bug, room):
    """Copies the files of the repository into a folder, with a bug in a package. Returns the folder of the package."""
    tree = Path(room) / "tree"
    listed = subprocess.run(["git", "ls-files", "-z"], cwd=TOP, capture_output=True, text=True, check=True).stdout
    for file in listed.split("\0")[:-1]:
        (tree / file).parent.mkdir(parents=True, exist_ok=True)
        shutil.copy(TOP / file, tree / file)
    plant(bug, tree / "bindings" / name)
    return tree / "bindings" / name


def failed_python(bug, archive):
    """Returns the first module of tests of the Python package that fails with a bug, or what says that the package cannot be built."""
    with tempfile.TemporaryDirectory() as room:
        package, built = copy_package("python", bug, room), Path(room) / "built"
        for folder, words in (("package", []), ("refusing", ["--refuse"])):
            is_built, said = run([sys.executable, package / "build_backend.py", built / folder, *words], room, ARCHIVE=archive)
            if not is_built:
                return {"build: " + said.strip().splitlines()[-1]}
        modules = sorted({file.stem for file in (package / "tests").glob("test_*.py")} - {"test_packing"})
        command = [sys.executable, "-m", "unittest", "-f", *modules]
        passed, said = run(command, package / "tests", ARCHIVE=archive, LP_REFUSED_LIBRARY=str(built / "refusing"), PYTHONPATH=str(built / "package"))
        return set() if passed else set(FAILED.findall(said)) or {"the tests end by a signal"}


def failed_elsewhere(name, bug, command, **more):
    """Returns the tests of a package that fail by a command with a bug, or what says that they cannot be built."""
    with tempfile.TemporaryDirectory() as room:
        passed, said = run(command, copy_package(name, bug, room), LOG=f"{room}/log", **more)
    found = {one or other for one, other in FAILED_ELSEWHERE.findall(said)}
    return set() if passed else found or {"build: " + said.strip().splitlines()[-1]}


def failed_rust(bug, archive):
    """Returns the tests of the crate for Rust that fail with a bug."""
    tables = {"LP_ANSWERS": "checks/tables/answers.tsv", "LP_PORTABLE": "checks/portable_rows.txt"}
    command = ["bash", "-c", '. ./flags.sh && find_crates . "$LOG" && cargo test "${flags[@]}"']
    return failed_elsewhere("rust", bug, command, LP_LIB_DIR=str(Path(archive).parent), **{name: str(TOP / file) for name, file in tables.items()})


def failed_go(bug, archive):
    """Returns the tests of the module for Go that fail with a bug."""
    command = ["bash", "-c", "go test -tags lp_lib_dir . && go test -tags lp_lib_dir,lp_refuse -run TestRefused ."]
    return failed_elsewhere("go", bug, command, GOPROXY="off", CGO_ENABLED="1", CGO_LDFLAGS=f"-L{Path(archive).parent}")


def failed_js(bug, made):
    """Returns the tests in Node of the JavaScript package that fail with a bug."""
    with tempfile.TemporaryDirectory() as room:
        package = Path(room) / "package"
        shutil.copytree(Path(made) / "influxdb-line-protocol-js", package)
        plant(bug, package)
        tests = {"in_node": [TOP / "checks" / "tables" / "answers.tsv", *filter(None, [os.environ.get("LP_RELAY")])], "streams": [], "memory": []}
        return {test for test, words in tests.items()
                if not run(["node", TOP / "checks" / "page" / f"{test}.mjs", package, *words], room)[0]}


def main(arguments):
    table = bugs()
    wrong = unplantable(table)
    if not arguments or wrong:
        print("\n".join(wrong) or f"what_sees: each of {len(table)} bugs can be planted")
        return int(bool(wrong))
    failed_of = {"python": failed_python, "rust": failed_rust, "go": failed_go, "js": failed_js}
    if len(arguments) < 2 or arguments[0] not in failed_of:
        print(__doc__, file=sys.stderr)
        return 2
    package, made, *names = arguments
    failed = failed_of[package]
    chosen = [bug for bug in table if bug.package == package and (not names or bug.name in names)]
    made = str(Path(made).resolve())
    if known := failed(None, made):
        print(f"what_sees: without a bug these tests fail: {', '.join(sorted(known))}", file=sys.stderr)
        return 1
    unseen = 0
    with ThreadPoolExecutor(int(os.environ.get("JOBS", "3"))) as pool:
        for bug, seen in zip(chosen, pool.map(lambda bug: failed(bug, made), chosen)):
            unseen += not seen or any(test.startswith("build: ") for test in seen)
            print(f"{bug.name}: {', '.join(sorted(seen)) or 'NO TEST'}", flush=True)
    print(f"what_sees: {len(chosen)} bugs of {package}, of which {unseen} are seen by no test")
    return int(unseen > 0)


if __name__ == "__main__":
    sys.exit(main(sys.argv[1:]))
