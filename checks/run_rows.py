"""The rows of checks/runs, which runs.py runs.

A file has scenes. A scene begins with `== ` and a title. Then come the files that are there before each of its runs, and the standard input:

    NAME = EXPR       a file: EXPR is an expression of Python. `NAME 604 = EXPR` gives its permissions, which are 644 if none are said
    NAME -> PLACE     a symbolic link
    NAME => FILE      a hard link
    NAME/             a folder
    < TEXT            a line of standard input; `<= EXPR` is a part of it. It is a file. A row can have an input of its own

A row begins with `$ ` and the words, as a shell takes them apart. A word between backquotes is an expression, of one word or a list. Redirections
such as `>/dev/full` or `<&-` come last, and after them the status as `[2]`, if it is not 0. Of `{a,b}` each is tried, in a run of its own, and is
`$1` in the lines below; the second such list is `$2`. Below stand:

    | TEXT            a line of standard output; `|= EXPR` is a part of it, and `|~ REGEX` an expression that all of it must match
    ! TEXT            a line of standard error; `!= EXPR` and `!~ REGEX` are the same
    NAME = EXPR       what a file holds afterwards, or `NAME ~ REGEX`; `NAME = None` if it is gone

What is not said must not be: output, messages, and a file that changes, comes or goes. A run of status 2 that writes nothing must leave its input
unread, unless the row has an input of its own. `$ WORDS !! TEXT` is a row of wrong words: `PROGRAM: TEXT` and `try PROGRAM --help` are the message.
"""

import itertools
import os
import re
import shlex
from dataclasses import dataclass, field
from pathlib import Path

TOP = Path(__file__).resolve().parent.parent
FOLDER = TOP / "checks" / "runs"
ENTRY = re.compile(r"(`[^`]+`|[^\s`]+)(?: ([0-7]{3}))? (=|->|=>|~) (.*)|(\S+)(/)")
STREAM = re.compile(r"([<|!])(?:([=~]) ?(.*)| (.*)|)")
REDIRECTION = re.compile(r"(?:^|\s)(\d?(?:>>?|<)(?:&[-\d]|[^\s&]+))(?=\s|$)")
CHOICE = re.compile(r"\{([^{}]*)\}")


def read(path):
    return (TOP / path).read_text(encoding="utf-8")


def options(path, valued=()):
    """The options of a table: those without a value, and those that take one, as the options `valued` do too."""
    found = [(word, space or word in valued) for word, space in re.findall(r"^option: (--[a-z-]+)( ?)", read(path), re.M)]
    return [word for word, takes in found if not takes], [word for word, takes in found if takes]


FLAGS, VALUED = options("tables/options.txt")
SERIES_FLAGS, SERIES_VALUED = options("tables/series_options.txt", VALUED)
# What expressions can name: the options, the version, and the sum of the logic that the programs are proved by.
NAMES = {"read": read, "flags": FLAGS, "valued": VALUED, "series_flags": SERIES_FLAGS, "series_valued": SERIES_VALUED,
         "version": re.search(r"^## (\d+\.\d+\.\d+)$", read("CHANGELOG.md"), re.M)[1],
         "logic": re.search(r'^pub const LOGIC: &str = "(.*)";$', read("crates/lp_endings/src/version.rt"), re.M)[1]}


def as_bytes(value):
    """A value of an expression, in bytes. None stays."""
    return value.encode() if isinstance(value, str) else value


def evaluated(text):
    return eval(text, dict(NAMES))  # The rows are files of this repository.


@dataclass
class Row:
    """A run: where it stands, the lines of its scene before it, its own, and what `{..}` is in it."""

    place: str
    scene: list
    head: str
    lines: list
    chosen: tuple = ()
    redirections: str = ""
    status: int = 0
    message: str | None = None
    words: list = field(default_factory=list)

    def __post_init__(self):
        head = self.head
        for number, choice in enumerate(self.chosen, 1):
            choice = choice.replace("$1", self.chosen[0])
            head = CHOICE.sub(lambda _: choice, head, count=1).replace(f"${number}", choice)
            self.lines = [line.replace(f"${number}", choice) for line in self.lines]
        head, _, message = head.partition(" !! ")
        if message:
            self.status, self.message = 2, message
        if found := re.search(r"(?:^| )\[(\d+)\]$", head):
            head, self.status = head[:found.start()], int(found[1])
        self.redirections = " ".join(REDIRECTION.findall(head))
        self.words = words_of(REDIRECTION.sub("", head))

    def stream(self, mark, lines):
        """What lines of this mark make, or the expression that it must match."""
        text = b""
        for line in lines:
            if (found := STREAM.fullmatch(line)) and found[1] == mark:
                if found[2] == "~":
                    return re.compile(found[3].encode(), re.S)
                text += as_bytes(evaluated(found[3])) if found[2] else (found[4] or "").encode() + b"\n"
        return text

    def input(self):
        """The input, and whether it is the row's own."""
        own = any(line.startswith("<") for line in self.lines)
        return self.stream("<", self.lines if own else self.scene), own

    def wanted(self, name):
        """What standard output and standard error must have."""
        err = f"{name}: {self.message}\ntry {name} --help\n".encode() if self.message else self.stream("!", self.lines)
        return self.stream("|", self.lines), err


def words_of(text):
    """The words of a row, in bytes."""
    values = []

    def kept(found):
        values.append(evaluated(found[1]))
        return f"\0{len(values) - 1}\0"

    words = []
    for word in shlex.split(re.sub("`([^`]*)`", kept, text)):
        held = values[int(word[1:-1])] if word.startswith("\0") else word
        words += [as_bytes(each) for each in (held if isinstance(held, list) else [held])]
    return words


def entries(lines, before):
    """The files that lines tell, by their names: a kind, permissions, and what they hold. `before` has those that were there."""
    found = dict(before)
    for line in lines:
        if STREAM.fullmatch(line) or not (entry := ENTRY.fullmatch(line)):
            continue
        name = as_bytes(evaluated(entry[1][1:-1])) if line[0] == "`" else os.fsencode(entry[1] or entry[5])
        if entry[6]:
            found[name] = "folder", 0, b""
        elif entry[3] == "->":
            found[name] = "link", 0, os.fsencode(entry[4])
        elif entry[3] == "=>":
            found[name] = "hard", 0, os.fsencode(entry[4])
        elif (text := re.compile(entry[4].encode(), re.S) if entry[3] == "~" else as_bytes(evaluated(entry[4]))) is None:
            del found[name]
        else:
            found[name] = "file", int(entry[2], 8) if entry[2] else found.get(name, (0, 0o644))[1], text
    return found


def rows_of(path):
    """The rows of a file."""
    scene, row = [], None
    lines = [line for line in enumerate(path.read_text(encoding="utf-8").split("\n"), 1) if line[1] and not line[1].startswith("#")]
    marked = [(number, line) for number, line in lines if line.startswith(("$ ", "== ")) or line == "$"] + [(len(lines) and lines[-1][0] + 1, "== ")]
    texts = dict(lines)
    for (number, line), (end, _) in zip(marked, marked[1:]):
        own = [texts[at] for at in range(number + 1, end) if at in texts]
        if line.startswith("== "):
            scene = own
            continue
        head = line[2:]
        choices = [evaluated(found[1:-1]) if found.startswith("`") else found.split(",") for found in CHOICE.findall(head)]
        for chosen in itertools.product(*choices):
            yield Row(f"{path.name}:{number}", scene, head, own, chosen)
