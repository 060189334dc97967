#!/usr/bin/env python3
"""Bugs that the prover must refuse: the rows of tables/bugs.tsv, and the edits of crates/*/must-fail/.

    checks/bugs.py                      prints each bug that cannot be planted, and each public call without a bug; status 1 if any
    checks/bugs.py --list               prints each public call with the bugs in its body
    checks/bugs.py --all; CRATE..       tries all rows; those of these crates
    checks/bugs.py --only NAME CRATE    tries one row or one edit
    checks/bugs.py --some [CRATE]       tries the rows that were tried longest ago: of one or two crates for ten minutes, of this crate for 90 seconds
    checks/bugs.py --record             writes into tables/bugs_tried.tsv which rows were tried here

A try plants bugs of different functions in a copy of their crate, and has the prover check the changed files. A bug is refused if its function is,
by its own proof. Each other bug is tried alone: if the prover still proves the file, `rt must-fail` tells whether it refuses the crate. The status is
1 if it refuses neither, or cannot read the bug. A slow machine tries fewer rows, and fails no try.
"""

import collections
import datetime
import functools
import itertools
import os
import re
import shutil
import subprocess
import sys
import tempfile
import time
from pathlib import Path
from typing import NamedTuple

from calls import handed_on_calls, without_types
from clauses import bare, function, members
from documents import LIBRARIES, TOP, Tree

TABLE, TRIED, PENDING = TOP / "tables" / "bugs.tsv", TOP / "tables" / "bugs_tried.tsv", TOP / "out" / "bugs_tried.tsv"
NEXT = " ⏎ "  # stands between the texts of a row that changes several places
MOST_OF_A_CRATE, MOST = 12, 120  # how many edits a folder must-fail/ may have, and all of them together
SECONDS, SECONDS_OF_ONE = 600, 90  # how long `--some` may take, on one processor, and `--some CRATE`
TOGETHER = 30  # so many rows are tried, and then recorded
INNER = r"(?:[^()]|\((?:[^()]|\((?:[^()]|\([^()]*\))*\))*\))*"  # what is between two brackets
ONE_CALL = re.compile(rf"\s*((?:\w+::)*|self\.)(\w+)\({INNER}\)\s*")
NOT_PROMISED = "fmt::Debug for "  # nothing is promised of what `{:?}` writes
REFUSED = "refused"
WAITS = r"\W*it (?:calls|passes)"  # the prover says no more than this of a function that it does not judge, since it uses a refused one
ANSWER = re.compile(rf"^rt: must-fail \w+/\w+\.edit: ({REFUSED}|NOT REFUSED|BAD EDIT|NOT TRIED).*$", re.M)


def read(path):
    return path.read_text(encoding="utf-8")


class Bug(NamedTuple):
    crate: str
    file: str
    words: str  # what goes wrong
    changes: tuple  # pairs of a text of the file, and of the text that replaces it

    @property
    def name(self):
        return self.words.replace(" ", "_")

    @property
    def path(self):
        return TOP / "crates" / self.crate / self.file

    @property
    def module(self):
        """The module of the file; that of no function if the file has a definition or a proof."""
        return self.file.replace("src", self.crate, 1).removesuffix(".rt").replace("/", "::") if self.file.endswith(".rt") else ""


def bug_of_row(line):
    crate, file, words, old, new = line.split("\t")
    return Bug(crate, file, words, tuple(zip(old.split(NEXT), new.split(NEXT), strict=True)))


def bug_of_edit(path):
    text = read(path)
    return Bug(path.parts[-3], re.search(r"^file: (.*)$", text, re.M)[1], path.stem, tuple(re.findall(r"^old: (.*)\nnew: ?(.*)$", text, re.M)))


def rows():
    """The bugs of the table, in order."""
    return [bug_of_row(line) for line in read(TABLE).splitlines() if not line.startswith("#")]


def edits():
    """The bugs that the gate tries."""
    return [bug_of_edit(path) for path in sorted(TOP.glob("crates/*/must-fail/*.edit"))]


def with_bug(code, bug):
    """The code with a bug; None if a text that the bug replaces is not there once."""
    for old, new in bug.changes:
        if code.count(old) != 1:
            return None
        code = code.replace(old, new)
    return code


# Can each bug be planted?

def misses(bug):
    """What of a bug cannot be replaced."""
    if not bug.path.is_file():
        return [f"{bug.crate}: {bug.name}: there is no file {bug.path}"]
    code, told = read(bug.path), [] if bug.changes else [f"{bug.crate}: {bug.name}: nothing is replaced"]
    for old, new in bug.changes:
        if code.count(old) != 1:
            told.append(f"{bug.crate}: {bug.name}: {bug.file} has this {code.count(old)} times: {old}")
        code = code.replace(old, new)
    return told


def repeated(names):
    """The names that stand there twice."""
    return sorted({name for name in names if names.count(name) > 1})


def planting_problems(table, gate):
    """What is wrong with the rows of the table and the edits of the gate, in words."""
    crates = [bug.crate for bug in gate]
    told = [f"{crate}: {crates.count(crate)} edits, where a crate may have {MOST_OF_A_CRATE}" for crate in sorted({*crates})
            if crates.count(crate) > MOST_OF_A_CRATE]
    told += [f"{len(gate)} edits in all, where there may be {MOST}"] if len(gate) > MOST else []
    told += [f"{crate}: {name}: two bugs have this name" for crate, name in repeated([(bug.crate, bug.name) for bug in table + gate])]
    told += [f"{bug.crate}: {bug.name}: a name has letters, digits and spaces" for bug in table if not re.fullmatch(r"\w+", bug.name)]
    return told + [problem for bug in gate + table for problem in misses(bug)]


# Has each public call a bug?

class Function(NamedTuple):
    path: Path
    name: str  # with that of its type or trait
    head: int  # where it begins
    start: int  # where its body begins
    body: str

    def is_changed_at(self, at, old):
        """Whether a text at this place of the file is in the body, or is the head of the function."""
        is_head = self.head <= at < self.start and f"fn {self.name.rpartition('::')[2]}" in old
        return is_head or self.start <= at < self.start + len(self.body)


def functions_in(path):
    """The functions of a file that have a body."""
    text = bare(read(path))
    for name, _, what, head in members(text):
        if what != "fn":
            continue
        start = head + function(text[head:])[2]
        indent = re.match(" *", text[head:])[0]
        if body := re.compile(rf"\s*\{{(?:[^\n]*|.*?\n{indent})\}}\n", re.S).match(text, start):
            yield Function(path, name, head, start, body[0])


def called_by(caller, functions):
    """The functions that the body of a caller may call, if it is one call."""
    found = ONE_CALL.fullmatch(caller.body.strip()[1:-1])
    if not found:
        return []
    owner = without_types(caller.name).rpartition("::")[0]
    name = re.sub(r"^(self\.|Self::)", f"{owner}::", found[1]) + found[2]
    named = [each for each in functions if without_types(each.name) == name]
    return [each for each in named if each.path == caller.path] or named


@functools.cache
def body_changed_by(bug):
    """A pattern of what the prover calls the function whose body has all changes of a bug; None if there is no such function. Types begin with a
    capital letter there, and modules do not. A closure is told by the name of its function too."""
    text, functions = read(bug.path), [*functions_in(bug.path)] if bug.module else []
    places = {tuple(each.name for each in functions if each.start <= text.find(old) < each.start + len(each.body)) for old, _ in bug.changes}
    name = "".join(places.pop()).rpartition("::")[2] if len(places) == 1 else ""
    return rf"{bug.module}::(?:fn::)?(?:[A-Z][^\s:]*::)?{name}(?:::\S+)?" if name else None


def first_of_each_function(bugs):
    """The first bug of each function that one of these bugs changes, and the code with all of them, by file. A bug whose text is not there once beside
    the others comes later."""
    found, codes = {}, {}
    for bug in bugs:
        code = with_bug(codes.get(bug.file) or read(bug.path), bug)
        if code and (pattern := body_changed_by(bug)) and pattern not in found:
            found[pattern], codes[bug.file] = bug, code
    return list(found.values()), codes


def bugs_in(functions, bugs):
    """The names of the bugs that change each function."""
    found = {each: [] for each in functions}
    for bug in bugs:
        path, text = bug.path, read(bug.path)
        for each in functions:
            if each.path == path and any(each.is_changed_at(text.find(old), old) for old, _ in bug.changes):
                found[each].append(bug.name)
    return found


def public_calls(bugs):
    """Each public call with a body, and the bugs in it. A body that is one call of a function has the bugs of that function: `by NAME`."""
    paths = [path for crate in LIBRARIES for path in sorted((TOP / "crates" / crate / "src").rglob("*.rt"))]
    functions = [each for path in paths for each in functions_in(path)]
    public = {(TOP / call.path, call.name) for call in handed_on_calls(Tree(TOP))
              if not call.path.endswith("/laws.rt") and not call.name.startswith(NOT_PROMISED)}
    found = bugs_in(functions, bugs)
    for call in functions:
        if (call.path, call.name) in public:
            handed = [f"by {inner.name}: {name}" for inner in called_by(call, functions) for name in found[inner]]
            yield f"{call.path.relative_to(TOP / 'crates')}: {call.name}", found[call] or handed


def problems():
    """What is wrong with the bugs and with the list, in words."""
    table, gate = rows(), edits()
    told = planting_problems(table, gate)
    told += [] if told else [f"no bug changes {call}" for call, names in public_calls(gate + table) if not names]
    return told + [f"{it.crate}: the prover refused {it.refused} of {it.tried} rows" for it in tried_rows(TRIED).values() if it.refused < it.tried]


# What was tried, and when?

class Tried(NamedTuple):
    crate: str
    date: str
    sources: str  # their sum, as launch.sh makes it, with those of the crates below
    tried: int  # how many tries of rows there were, from the first row of the crate to the last one, and then from the first one again
    refused: int  # in how many of these the prover refused the bug


def tried_rows(*paths):
    """What was tried of each crate: as the list has it, or here since."""
    lines = [line for path in paths or (TRIED, PENDING) if path.is_file() for line in read(path).splitlines() if not line.startswith("#")]
    return {words[0]: Tried(*words[:3], *map(int, words[3:])) for words in map(str.split, lines)}


def line_of(found):
    return "\t".join(map(str, found)) + "\n"


@functools.cache
def sources(crate):
    """The sum of what a crate is made from."""
    return subprocess.run(["bash", "-c", '. "$0/launch.sh" && sources "$1"', TOP, crate], capture_output=True, text=True, check=True).stdout.split()[0]


def note(crate, tried, refused):
    """Keeps how many rows of a crate were tried, and how many of these the prover refused."""
    found = tried_rows()
    date = datetime.datetime.now(datetime.timezone.utc).strftime("%Y-%m-%dT%H:%M")
    found[crate] = Tried(crate, date, sources(crate), tried, refused)
    PENDING.parent.mkdir(exist_ok=True)
    PENDING.write_text("".join(map(line_of, found.values())), encoding="utf-8")


def record():
    """Writes the list."""
    crates = list(dict.fromkeys(bug.crate for bug in rows()))
    found = sorted((it for it in tried_rows().values() if it.crate in crates), key=lambda it: crates.index(it.crate))
    head = [line for line in read(TRIED).splitlines(keepends=True) if line.startswith("#")]
    TRIED.write_text("".join([*head, *map(line_of, found)]), encoding="utf-8")
    PENDING.unlink(missing_ok=True)


# Trying.

class Late(Exception):
    """The time is over."""


class Room:
    """A copy of a crate, with what was proved of it and of the crates below."""

    def __init__(self, crate, folder, end):
        self.top, self.folder, self.end = Path(folder), Path(folder) / "crates" / crate, end
        subprocess.run([TOP / "bin" / "take", folder, crate], stdout=subprocess.DEVNULL, check=True)
        shutil.copy(TOP / "HANDLES", folder)
        for copy in self.folder.parent.iterdir():
            out = TOP / "crates" / copy.name / "out"
            for part in ("rlib", "incremental") if copy == self.folder else ("rlib",):
                if (out / part).is_dir():
                    shutil.copytree(out / part, copy / "out" / part)

    def rt(self, folder, *words):
        """What rt prints."""
        left = self.end - time.monotonic()
        env = {**os.environ, "PATH": f"{os.environ['PATH']}:/opt/rattle/bin", "RT_JOBS": "1"}
        done = subprocess.run(["timeout", "-k", "5", f"{max(left, 1):.0f}", "rt", *words], cwd=folder, env=env, stdin=subprocess.DEVNULL,
                              stdout=subprocess.PIPE, stderr=subprocess.STDOUT, text=True, errors="replace")
        if done.returncode in (124, 137) and time.monotonic() >= self.end:
            raise Late
        return done.stdout

    def told(self, bugs, codes):
        """What the prover prints of the modules of bugs, if the code of their files is this one."""
        before = {file: read(self.folder / file) for file in codes}
        for file, code in codes.items():
            (self.folder / file).write_text(code, encoding="utf-8")
        told = self.rt(self.folder, "check", "--jobs", "1", *(f"--only={module}" for module in sorted({bug.module for bug in bugs})))
        for file, code in before.items():
            (self.folder / file).write_text(code, encoding="utf-8")
        return told

    def is_proved(self, bugs, codes):
        """Whether the functions of the modules of bugs are proved; None if the prover does not know. And what it prints."""
        told = self.told(bugs, codes)
        if re.search(r"^only=(\d+) proved=\1$", told, re.M):
            return True, told
        return False if re.search(r"^fn \S+: (not proved|no proof)", told, re.M) else None, told

    def refused(self, bugs):
        """Those of some bugs whose functions the prover refuses by their own proofs, if bugs of different functions are planted together. If a bug does
        not compile, the prover judges no function: then half of them are tried."""
        together, codes = first_of_each_function(bugs)
        if len(together) < 2:
            return []
        told = self.told(together, codes)
        if not re.search("^fn ", told, re.M):
            return self.refused(together[:len(together) // 2])
        return [bug for bug in together if re.search(rf"^fn {body_changed_by(bug)}: (not proved|no proof)(?!{WAITS})", told, re.M)]

    def answer(self, bug):
        """What the prover says of one bug. If it does not refuse the functions of the file, it can still refuse a function of another file."""
        if self.is_proved([bug], {bug.file: with_bug(read(bug.path), bug)})[0] is False:
            return REFUSED
        edit = self.folder / "must-fail" / f"{bug.name}.edit"
        edit.parent.mkdir(exist_ok=True)
        edit.write_text(f"file: {bug.file}\n" + "".join(f"old: {old}\nnew: {new}\n" for old, new in bug.changes), encoding="utf-8")
        found = ANSWER.search(self.rt(self.top, "must-fail", bug.crate))
        edit.unlink()
        print(f"{found[0]}\n" if found else "", end="")
        return found[1] if found else "NOT TRIED"

    def answers(self, bugs):
        """Pairs of a bug and of what the prover says of it, after it has proved the files without bugs."""
        for left in (bugs[at:at + TOGETHER] for at in range(0, len(bugs), TOGETHER)):
            some = left
            is_proved, told = self.is_proved(left, {})
            if is_proved is False:
                raise SystemExit(f"{told}\nbugs: {self.folder.name} is not proved without a bug")
            while left:
                found = dict.fromkeys(self.refused(some), REFUSED) or {some[0]: self.answer(some[0])} if is_proved else dict.fromkeys(left, "NOT TRIED")
                yield from found.items()
                left = [bug for bug in left if bug not in found]
                # Bugs that wait come before other bugs of the functions for which they wait.
                some = [bug for bug in first_of_each_function(some)[0] if bug not in found] or left


def left_out(what, why):
    subprocess.run(["bash", "-c", '. "$0" && left_out "$@"', TOP / "checks" / "left_out.sh", what, why], check=True)


def try_bugs(crate, first, bugs, end=float("inf")):
    """Tries bugs of a crate, after as many tries of its rows as `first` says; None if they are no rows. Returns how many the prover does not
    refuse."""
    found, before = {}, tried_rows()[crate].refused if first else 0
    with tempfile.TemporaryDirectory() as folder:
        try:
            for bug, answer in Room(crate, folder, end).answers(bugs):
                print(f"bugs: {crate}: {bug.name}: {answer}", flush=True)
                if answer == "NOT TRIED":
                    left_out(f"bugs of {crate}", f"a check ended without an answer of {bug.name}")
                    break
                found[bug] = answer
                in_order = [found[each] for each in itertools.takewhile(found.__contains__, bugs)]
                if first is not None and in_order:
                    note(crate, first + len(in_order), before + in_order.count(REFUSED))
        except Late:
            if not found:
                left_out(f"bugs of {crate}", "the time was over before the first answer")
    return sum(answer != REFUSED for answer in found.values())


def next_rows(crate):
    """How many tries of rows of a crate there were, and the rows that come next."""
    bugs, last = [bug for bug in rows() if bug.crate == crate], tried_rows().get(crate)
    return (last.tried, bugs[last.tried % len(bugs):]) if last and bugs else (0, bugs)


def due():
    """The crates all of whose rows were tried, the crate that was tried longest ago first. A crate with rows that were never tried is tried by hand
    first, because such a row may be no bug."""
    known, count = tried_rows(), collections.Counter(bug.crate for bug in rows())
    for crate in count:
        if crate not in known or known[crate].tried < count[crate]:
            left_out(f"bugs of {crate}", "they were not all tried by hand yet")
    return sorted((crate for crate in count if crate in known and known[crate].tried >= count[crate]), key=lambda crate: known[crate].date)


def named(name, crate):
    """The row or the edit of this name."""
    found = [bug for bug in edits() + rows() if (bug.crate, bug.name) == (crate, name.replace(" ", "_"))]
    if not found:
        raise SystemExit(f"bugs: {crate} has no bug {name}")
    return found


def main(words):
    table = rows()
    known = list(dict.fromkeys(bug.crate for bug in table))
    match words:
        case []:
            found = problems()
            print("\n".join(f"bugs: {line}" for line in found) or "bugs: each can be planted, and each public call with a body has one")
            return bool(found)
        case ["--list"]:
            print("\n".join(f"{call}: {', '.join(names)}" for call, names in public_calls(edits() + table)))
            return 0
        case ["--record"]:
            return record()
        case ["--some", *only] if len(only) < 2:
            end = time.monotonic() + (SECONDS_OF_ONE if only else SECONDS)
            return sum(try_bugs(crate, *next_rows(crate), end) for crate in only or due()[:2] if time.monotonic() < end) > 0
        case ["--only", name, crate]:
            return try_bugs(crate, None, named(name, crate)) > 0
        case crates if {*crates} <= {*known, "--all"}:
            chosen = [crate for crate in known if {crate, "--all"} & {*crates}]
            return sum(try_bugs(crate, 0, [bug for bug in table if bug.crate == crate]) for crate in chosen) > 0
    print(__doc__, file=sys.stderr)
    return 2


if __name__ == "__main__":
    sys.exit(main(sys.argv[1:]))
