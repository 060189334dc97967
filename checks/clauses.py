#!/usr/bin/env python3
"""The heads and clauses of the public functions of crates, and what of them differs from an earlier commit.

    checks/clauses.py CRATES                    prints each head with its clauses
    checks/clauses.py CRATES COMMIT [WORD..]    prints what differs between that commit and the files; status 1 where anything
                                                that was there differs or is gone

CRATES are names with commas between them. They are compared as if they were one crate, so a function that moved from one to another
is found again.

A WORD is OLD=NEW, a name and what it is now, or @FILE, a file of such words. The renames are made in the commit's texts
before they are compared. A name without NEW (`OLD=`) is dropped, as that of a clause. Compared are functions and methods that
are `pub`, those of impls of traits, and what an impl says of its type (`ghost Value`, `view`, `invariant` and the like). A
function has the name of its type or trait, of whatever file, so one that moved is found again. What the definitions say that a
clause names is not compared: for these read `git diff COMMIT -- crates/CRATE/specs`.
"""

import re
import subprocess
import sys
from pathlib import Path

TOP = Path(__file__).resolve().parent.parent
HEAD = re.compile(r'( *)(pub )?(?:pub\(\w+\) )?((?:const |unsafe |extern "C" )*fn (\w+).*)')
CLAUSE = re.compile(r"\s*((?:requires|ensures|decreases)\*?(?: \w+)?) *\{")


class Fault(Exception):
    """What is wrong with what was asked, in words."""


def git(*words):
    """What git prints."""
    done = subprocess.run(["git", "-C", str(TOP), *words], capture_output=True, text=True)
    if done.returncode:
        raise Fault(done.stderr.strip())
    return done.stdout


def texts(crates, commit):
    """The files of the crates' code: as they are, or of a commit, which may lack some of the crates."""
    folders = [f"crates/{crate}/src" for crate in crates.split(",")]
    if commit is None:
        paths = [path for folder in folders for path in sorted((TOP / folder).rglob("*.rt"))]
        return [path.read_text(encoding="utf-8") for path in paths]
    names = git("ls-tree", "-r", "--name-only", commit, *folders).split()
    return [git("show", f"{commit}:{name}") for name in names if name.endswith(".rt")]


def closing(text, start):
    """The place after the brace that closes the one at `start`."""
    depth = 0
    for at in range(start, len(text)):
        depth += (text[at] == "{") - (text[at] == "}")
        if depth == 0:
            return at + 1
    raise Fault(f"a brace is not closed: {text[start:start + 60]!r}")


def one_line(text):
    """A text without line ends, and with one space where it has several."""
    text = " ".join(text.split())
    return re.sub(r",? ([)\]])", r"\1", re.sub(r"([(\[]) ", r"\1", text))


def function(text):
    """The head and the clauses of the function that a text begins with, and the place after them."""
    begun = re.search(r"\n\s*(?:requires|ensures|decreases)\b|\s*\{|;$", text, re.M)
    head, at = one_line(text[:begun.start()]), begun.start()
    clauses = []
    while found := CLAUSE.match(text, at):
        at = closing(text, found.end() - 1)
        clauses.append(one_line(f"{found[1]} {text[found.end() - 1:at]}"))
    return head, clauses, at


def container(line):
    """The name of what a line at the margin opens, and whether all its functions are public."""
    line = re.sub(r"<'\w+>|<'_>|'\w+ |#\[.*?\] ?", "", line)
    line = re.sub(r"^(pub )?(unsafe )?(impl|trait|mod) ?(<(?:[^<>]|<[^<>]*>)*>)? ?", r"\1\3 ", line)
    kind, _, name = line.rstrip(" {").partition(" ") if not line.startswith("pub ") else line[4:].rstrip(" {").partition(" ")
    return name.split(" where")[0].strip(), (kind == "impl" and " for " in name) or (kind == "trait" and line.startswith("pub "))


def bare(text):
    """A text with a space for each character of a line that is a comment."""
    return re.sub(r"(?m)^[ \t]*//.*", lambda line: " " * len(line[0]), text)


def members(text):
    """Of each function of a bare text, and of what each impl says of its type, the name with that of its type or trait, whether it is
    public, what it is, and its place. What a line at the margin opens is its type or trait."""
    name, is_public, place = "", False, 0
    for line in text.split("\n"):
        here, place = place, place + len(line) + 1
        if re.match(r"(pub )?(unsafe )?(impl|trait|mod)\b.*\{", line):
            name, is_public = container(line)
        elif line == "}":
            name, is_public = "", False
        elif (head := HEAD.match(line)) and len(head[1]) <= 4:
            yield f"{name}::{head[4]}" if head[1] else head[4], bool(head[2] or head[1] and is_public), "fn", here
        elif (ghost := re.match(r"    ghost (\w+)(?: =|:) \{", line)) and ghost[1] != "use":
            yield f"{name}::{ghost[1]}", is_public, "ghost", here


def surface(files):
    """Of each public function its head and clauses, and of each impl what it says of its type, by name."""
    found = {}
    for text in map(bare, files):
        for name, is_public, what, here in members(text):
            if is_public and what == "fn":
                head, clauses, _ = function(text[here:])
                found.setdefault(name, []).append([head, *clauses])
            elif is_public:
                found.setdefault(name, []).append([one_line(text[here:closing(text, text.index("{", here))])])
    return {name: sorted(entries) for name, entries in sorted(found.items())}


def renames(words):
    """The renames that words ask for."""
    pairs = {}
    for word in words:
        if word.startswith("@"):
            pairs.update(renames(Path(word[1:]).read_text(encoding="utf-8").split()))
            continue
        old, equals, new = word.partition("=")
        if not equals or not old:
            raise Fault(f"{word}: a rename is OLD=NEW")
        pairs[old] = new
    return pairs


def renamed(text, pairs):
    """A text with each old name replaced where it is a whole word."""
    for old, new in pairs.items():
        text = re.sub(rf"(?<![\w]){re.escape(old)}(?![\w])", new.replace("\\", r"\\"), text)
    return text


def differences(old, new):
    """What differs between two surfaces, in lines."""
    for name in sorted(old.keys() | new.keys()):
        before, after = old.get(name, []), new.get(name, [])
        lost = [entry for entry in before if entry not in after]
        come = [entry for entry in after if entry not in before]
        if len(lost) == len(come) == 1:
            lines = [f"  - {line}" for line in lost[0] if line not in come[0]]
            lines += [f"  + {line}" for line in come[0] if line not in lost[0]]
            yield name, "differs", lines or ["  the same clauses, in another order"]
            continue
        for entry in lost:
            yield name, "is gone", [f"  - {line}" for line in entry]
        for entry in come:
            yield name, "is new", [f"  + {line}" for line in entry]


def main(words):
    if not words or not all((TOP / "crates" / crate / "src").is_dir() for crate in words[0].split(",")):
        raise Fault("the first word names crates, with commas between them; see the head of this file")
    new = surface(texts(words[0], None))
    if len(words) == 1:
        for name, entries in new.items():
            for entry in entries:
                print(f"{name}\n    " + "\n    ".join(entry))
        return 0
    pairs = renames(words[2:])
    old = surface([renamed(text, pairs) for text in texts(words[0], words[1])])
    count = {"differs": 0, "is gone": 0, "is new": 0}
    for name, what, lines in differences(old, new):
        print("\n".join([f"{name}: {what}", *lines]))
        count[what] += 1
    print(f"clauses: of {len(old)} names in {words[1]}, {count['differs']} differ and {count['is gone']} are gone; "
          f"{count['is new']} are new")
    return 1 if count["differs"] + count["is gone"] else 0


if __name__ == "__main__":
    try:
        sys.exit(main(sys.argv[1:]))
    except Fault as fault:
        sys.exit(f"clauses: {fault}")
