#!/usr/bin/env python3
"""Compares the pages, the definitions, the header for C and the map of crates with the files that they describe.

    checks/documents.py [NAME..]            runs all checks, or these; exit status 1 if a check finds a problem
    checks/documents.py --write [NAME..]    writes what these checks compare: `blocks` the code in the pages, `definitions` the page
                                            docs/DEFINITIONS.md, which git does not keep; without a name, also what is made from tables/
    checks/documents.py --write --to FOLDER definitions
                                            writes it below FOLDER, as bin/install does
    checks/documents.py --top FOLDER NAME   reads the files of FOLDER, such as installed pages, in the place of this repository
    checks/documents.py style [FILE..]      prints a table of how each text reads, or each place of these files where a word stands for a noun

`--help` prints what each check compares.

Each check is a function of the table CHECKS, which reads the tree and yields problems in words. A check that has looked at nothing fails.
Needs Python 3.10, and no package.
"""

import functools
import importlib
import os
import re
import shutil
import subprocess
import sys
import textwrap
from collections import Counter
from pathlib import Path
from typing import NamedTuple

from clauses import surface

TOP = Path(__file__).resolve().parent.parent
sys.path.append(str(TOP / "tables"))
from generate import first_difference
from records import Fault, Place

MADE = {"out", "target", "dist", "__pycache__", ".git"}  # folders that are not looked into
DEFINITIONS, CALLS = "docs/DEFINITIONS.md", "docs/CALLS.md"  # pages that are made, and that git does not keep


class Tree:
    """The files below a folder, without made ones. Each text is read once, and the functions of each file of code are parsed once."""

    def __init__(self, top):
        self.top, self.paths, self.folders, self.looked_at = Path(top), [], set(), Counter()
        for folder, folders, files in os.walk(top):
            folders[:] = sorted(name for name in folders if name not in MADE)
            place = "" if Path(folder) == self.top else f"{Path(folder).relative_to(top)}/"
            self.folders.update(f"{place}{name}/" for name in folders)
            self.paths += [path for name in sorted(files) if (path := place + name) not in (DEFINITIONS, CALLS)]

    @functools.cache
    def text(self, path):
        """The text of a file; nothing if it is no text."""
        try:
            return (self.top / path).read_text(encoding="utf-8")
        except UnicodeDecodeError:
            return ""

    @functools.cache
    def glob(self, *patterns):
        """The paths of files that match one of these patterns, in which `*` stands for a part of a name, and `**/` for any folders."""
        parts = {r"\*\*/": "(?:.*/)?", r"\*": "[^/]*"}
        tests = [re.sub(r"\\\*\\\*/|\\\*", lambda found: parts[found[0]], re.escape(pattern)) for pattern in patterns]
        test = re.compile("|".join(tests))
        return [path for path in self.paths if test.fullmatch(path)]

    def pages(self):
        return [path for path in self.paths if path.endswith(".md")]

    @functools.cache
    def functions(self, path):
        """The public functions of a file of code, by name: of each the head and the clauses; and what each impl says of its type."""
        return surface([self.text(path)])

    def surface(self, crates):
        """The public functions of crates: of each the name, and the head and the clauses."""
        for path in self.glob(*(f"crates/{crate}/src/**/*.rt" for crate in crates)):
            yield from ((name, lines) for name, entries in self.functions(path).items() for lines in entries)


# Versions

VERSIONS = {
    "crates/lp_endings/src/version.rt": r'^pub const VERSION: &str = "(.*)";$',
    "bindings/rust/Cargo.toml": r'^version = "(.*)"$',
    "bindings/js/package.json": r'^ *"version": "(.*)",$',
}


def left_out(what, why):
    """Says that a check did not look at something, and why, as checks/left_out.sh does."""
    line = f"left out: {what}: {why}"
    print(line)
    if os.environ.get("LEFT_OUT"):
        with open(os.environ["LEFT_OUT"], "a", encoding="utf-8") as file:
            print(line, file=file)


def check_versions(tree):
    """The programs and the packages tell the version of CHANGELOG.md, and the programs tell the logic of the kit that is here."""
    version = re.search(r"^## (\d+\.\d+\.\d+)$", tree.text("CHANGELOG.md"), re.M)[1]
    for path, pattern in VERSIONS.items():
        told = re.search(pattern, tree.text(path), re.M)
        tree.looked_at["versions"] += 1
        if not told or told[1] != version:
            yield f"{path} tells version {told and told[1]}, and CHANGELOG.md has {version}"
    if not (rt := shutil.which("rt", path=f"{os.environ.get('PATH', '')}:/opt/rattle/bin")):
        return left_out("the sum of the logic that lp_relay --version tells", "there is no rt, for checks/documents.py")
    kit = subprocess.run([rt, "version"], capture_output=True, text=True).stdout.partition("\n")[0]
    told = re.search(r'^pub const LOGIC: &str = "(.*)";$', tree.text("crates/lp_endings/src/version.rt"), re.M)[1]
    if kit.rpartition(" logic ")[2] != told:
        yield f"lp_relay --version tells the logic {told}, but the kit here is {kit}"


# Definitions

LIBRARIES = [
    "lp_format", "lp_scan", "lp_split", "lp_values", "lp_events", "lp_lines", "lp_build", "lp_written", "lp_portable", "lp_influx",
    "influxdb_line_protocol", "lp_rebuild", "lp_escapes", "lp_conditions", "lp_cuts", "lp_faults", "lp_relay", "lp_series", "lp_words",
    "lp_places", "lp_endings", "lp_files", "lp_inputs", "lp_programs", "lp_relay_program", "lp_series_program", "lp_offsets", "lp_c",
]
RELAY = LIBRARIES[LIBRARIES.index("lp_escapes"):LIBRARIES.index("lp_series")]  # of which the root of the last one hands names on
SHARED = LIBRARIES[LIBRARIES.index("lp_words"):LIBRARIES.index("lp_relay_program")]  # by programs
PROGRAMS = [*SHARED, "lp_relay_program", "lp_series_program"]
# Crates of which a caller names what their roots hand on, and crates all of whose public functions are for callers.
HANDED_ON = ["influxdb_line_protocol", "lp_rebuild", "lp_relay", "lp_series"]
PUBLIC = ["influxdb_line_protocol", "lp_c", *PROGRAMS]

DEFINITIONS_HEAD = """\
# Definitions

This page lists the definitions that contracts of public calls cite, and the definitions on which these rest, in the order in which they
rest on one another. Each definition has its own comment of `specs/`. A definition that no caller needs stands in `specs/` of
[each crate](../crates) alone. [FORMAT.md](FORMAT.md) has the rules in plain words, with examples. A definition says the same thing exactly:
read it in the file that its subject links. [GLOSSARY.md](GLOSSARY.md) has the words of the comments.

`checks/documents.py --write definitions` makes this page.
"""
# The rooms of specs/: the title of each, and what it has.
ROOMS = {
    "format": ("The format", "These definitions speak of texts alone, and of no type of the code."),
    "code": ("What the code holds, finds and returns", "These definitions tie the code's types and searches to the format."),
    "laws": ("The laws", "What the definitions say of one another, and the words of these statements."),
    "lp_rebuild": ("Rebuilt texts", "The definitions of `lp_rebuild`."),
    "lp_relay": ("The relay", "The definitions of `lp_relay` and of the crates that are cut off it."),
    "lp_series": ("Series", "The definitions of `lp_series`."),
    "programs": ("The programs", "The definitions of the programs, and of the crates that they share."),
    "lp_offsets": ("Rows by offsets", "The definitions of `lp_offsets`."),
    "lp_c": ("Callers in C", "The definitions of `lp_c`."),
}
DEFINITION = re.compile(r"^(?:(?:abbrev|unfoldable) )?pub (?:(data|record) )?(\S+)(.*)$")
MEMBER = re.compile(r"^  (?:pub )?((?:[^\s:(){}]+ )+): ")


class Definition(NamedTuple):
    kind: str  # `data`, `record` or nothing
    name: str
    comment: str
    lines: list  # of the file, from its name on


class Subject(NamedTuple):
    crate: str
    path: str
    title: str
    definitions: list

    def name(self):
        return Path(self.path).stem

    def room(self):
        """Which part of the page has this subject."""
        room = "programs" if self.crate in PROGRAMS else "lp_relay" if self.crate in RELAY else Path(self.path).parent.name
        return self.crate if room == "specs" else room


def subject_of(tree, crate, path):
    """What a file of specs/ defines. Its first comment is its title."""
    title, comment, found = "", [], []
    for line in tree.text(path).splitlines():
        if line.startswith("-- "):
            comment.append(line[3:])
            continue
        title = title or " ".join(comment).rstrip(".")
        if line.startswith(("infix", "pub use ")):
            continue
        if head := DEFINITION.match(line):
            found.append(Definition(head[1] or "", head[2], " ".join(comment), [head[3]]))
        elif found:
            found[-1].lines.append(line)
        comment = []
    return Subject(crate, path, title, found)


def module_files(tree, folder, module):
    """The files that a file of modules names, in its order, with the files that its rooms name."""
    for name in re.findall(r"^pub mod (\w+)$", tree.text(module), re.M):
        inner = f"{folder}/{name}"
        yield from module_files(tree, inner, f"{inner}.antt") if f"{inner}/" in tree.folders else [f"{inner}.antt"]


@functools.cache
def subjects(tree):
    """The subjects of the library crates, each crate's in the order of its modules."""
    paths = [(crate, path) for crate in LIBRARIES
             for path in module_files(tree, f"crates/{crate}/specs", f"crates/{crate}/specs/Lib.antt")]
    return [subject_of(tree, crate, path) for crate, path in paths]


def handed_on(tree, crate):
    """The names that the root of a crate, and its modules of the builder and of portable lines, hand on."""
    texts = [tree.text(path) for path in tree.glob(*(f"crates/{crate}/src/{name}.rt" for name in ("lib", "builder", "portable")))]
    groups = re.findall(r"^pub use [\w:]*?(?:\{(.*?)\}|(\w+));", "\n".join(texts), re.S | re.M)
    return {word for group, single in groups for word in re.findall(r"\w+", group or single)}


def words_of(text):
    """The words of a text that may be names of definitions."""
    return set(re.findall(r"[^\s(){}\[\],;.]+", re.sub(r"--.*", "", text)))


def cited(tree):
    """The definitions that clauses of public calls cite, and the definitions that cited definitions cite: of the same crate or a lower one."""
    names = set().union(*(handed_on(tree, crate) for crate in HANDED_ON))
    calls = [lines for name, lines in tree.surface(LIBRARIES) if names & set(re.findall(r"\w+", name))]
    calls += [lines for _, lines in tree.surface(PUBLIC)]
    by_name = {}
    for subject in subjects(tree):
        for definition in subject.definitions:
            by_name.setdefault(definition.name.strip("◌").rpartition(".")[2], []).append((LIBRARIES.index(subject.crate), definition))
    found, due = set(), {(word, len(LIBRARIES)) for lines in calls for word in words_of("\n".join(lines))}
    while due:
        word, height = due.pop()
        for at, definition in by_name.get(word, []):
            if at <= height and id(definition) not in found:
                found.add(id(definition))
                due |= {(inner, at) for inner in words_of("\n".join(definition.lines))}
    return found


def member_lines(definition):
    """The members of a record, or the forms of a data type, as the page lists them: each with its comment, or all in one line."""
    members, comment = [], []
    for line in definition.lines[1:] if definition.kind else ():
        if line.strip().startswith("-- "):
            comment.append(line.strip()[3:])
            continue
        if line.startswith("  ") and (member := MEMBER.match(line + " ")):
            members.append((", ".join(f"`{name}`" for name in member[1].split()), " ".join(comment)))
        comment = []
    if any(comment for _, comment in members):
        return [f"  - {names}" + (f": {comment}" if comment else "") for names, comment in members]
    names = ", ".join(names for names, _ in members)
    return [f"  - {'Forms' if definition.kind == 'data' else 'Parts'}: {names}"] if names else []


@functools.cache
def definitions_page(tree):
    """The text of docs/DEFINITIONS.md."""
    kept = cited(tree)
    rooms = {room: [] for room in ROOMS}
    for subject in subjects(tree):
        if subject.definitions and subject.room() not in rooms:
            raise Fault(f"{subject.path} is in a room that ROOMS of checks/documents.py does not have")
        if found := [definition for definition in subject.definitions if id(definition) in kept]:
            rooms[subject.room()].append(subject._replace(definitions=found))
    names = Counter(subject.name() for found in rooms.values() for subject in found)
    index, parts = [], []
    for room, (title, about) in ROOMS.items():
        index += [f"| {title} | |", "|---|---|"]
        parts += [f"## {title}", "", about, ""]
        for each in rooms[room]:
            head = each.name() if names[each.name()] == 1 else f"{each.name()} of {each.crate}"
            index.append(f"| [{head}](#{head.lower().replace(' ', '-')}) | {each.title} |")
            parts += [f"### {head}", "", f"{each.title}. In [`{each.path}`](../{each.path}).", ""]
            for definition in each.definitions:
                parts += [f"- **`{definition.name}`**: {definition.comment}", *member_lines(definition)]
            parts.append("")
        index.append("")
    return "\n".join([*DEFINITIONS_HEAD.splitlines(), "", *index, *parts]).rstrip("\n") + "\n"


def check_definitions(tree):
    """Each definition has a comment, and each file of specs/ is named by a file of modules, so that docs/DEFINITIONS.md can be made."""
    for subject in subjects(tree):
        for definition in subject.definitions:
            tree.looked_at["definitions"] += 1
            if not definition.comment:
                yield f"{subject.path}: {definition.name} has no comment"
    named = {subject.path for subject in subjects(tree)}
    for path in tree.glob(*(f"crates/{crate}/specs/**/*.antt" for crate in LIBRARIES)):
        if path not in named and not path.endswith("/Lib.antt") and f"{path.removesuffix('.antt')}/" not in tree.folders:
            yield f"{path} is named by no file of modules"
    tree.looked_at["cited definitions"] += definitions_page(tree).count("- **`")


# Settings of a relay

SETTINGS = "crates/lp_conditions/src/settings.rt"
# Settings whose rules are under other words: the limit, what fault lines name, how they are told, the name of the input.
RULED_BEFORE = "dialect", "limit", "numbering", "faults", "file"


def check_settings(tree):
    """docs/FORMAT.md has a rule for each setting of a relay, before the arguments of the programs."""
    settings = re.findall(r"^    pub (\w+):", tree.text(SETTINGS).partition("pub struct Settings")[2].partition("\n}\n")[0], re.M)
    rules = tree.text("docs/FORMAT.md").partition("Its settings say the rest")[2].partition("| arguments of a program")[0]
    tree.looked_at["settings"] += len(settings)
    yield from (f"docs/FORMAT.md has no rule for `{name}`, a setting of a relay" for name in settings
                if name not in RULED_BEFORE and f"`{name}`" not in rules)


# Links

def anchors(text):
    """The anchors of a page's headings, as they are made on the web."""
    heads = re.findall(r"^#+ (.*)$", text, re.M)
    return {re.sub(r"[^\w\- ]", "", head.strip().lower()).replace(" ", "-") for head in heads}


def check_links(tree):
    """Each link of a page leads to a file, and to a heading of the file if the link names one. A page that is made is read as it would be made."""
    texts = {page: tree.text(page) for page in tree.pages()}
    if "crates/" in tree.folders:
        texts |= {DEFINITIONS: definitions_page(tree), CALLS: calls_page(tree)}
    for page, text in texts.items():
        for link in re.findall(r"\]\((?!http)([^)\s]+)\)", text):
            tree.looked_at["links"] += 1
            name, _, anchor = link.partition("#")
            target = os.path.normpath(os.path.join(os.path.dirname(page), name)) if name else page
            if target not in texts and not (tree.top / target).exists():
                yield f"{page} links to {link}, and there is no such file"
            elif anchor and target in texts and anchor not in anchors(texts[target]):
                yield f"{page} links to {link}, and that file has no such heading"


# Names on pages

OPTION = re.compile(r"--[a-z][a-z-]*")
FILE = re.compile(r"[\w.*/-]*/[\w.*/-]*|[\w*-]+\.(?:md|rt|antt|pyi?|sh|[cho]|rs|go|tsv|edits?|txt|lp|toml|svg|map|in|a|so)")
IDENTIFIERS = re.compile(r"\.?[A-Za-z_]\w*(?:(?:::|\.)[A-Za-z_]\w*)*(?:\(\))?")
# What the tree does not have, and why a page names it.
NAMES_OF_OTHERS = {
    r"/.*": "it is of the machine",
    r"(.*/)?out/.*|crates/lp_c/out|dist/.*|lib\w+\.a|docs/(DEFINITIONS|CALLS)\.md": "it is made",
    r"again\.lp|a/b-000001\.lp": "it is a file of the reader's",
    r"proofs/m/f/": "it stands for the proofs of each function `m::f`",
    r".*\bTYPE": "it stands for each type",
    r"_in": "it is the end of names",
    r"axioms": "a verdict says it",
    r"[a-z]_[a-z]": "a database makes it of a measurement and a field",
    r"snafu|(snafu::)?ErrorCompat|Unpin": "it is of Rust",
    r"lzma|makefile|sys\.stdin\.buffer": "it is of Python",
    r"yomskafi\.example/lineprotocol/v3|influxdb_line_protocol/lineprotocol": "the module in Go has this path, or had it",
    r"l/8": "it is of split",
    r"K/N": "it is a shard",
    r"stream\..*|textinputformat\..*|RDD\.pipe": "it is of Hadoop or Spark",
}


class Names:
    """The names that the tree has: its paths, and the words and options of each file that is no page. The table above gives the tree no names."""

    def __init__(self, tree):
        texts = {path: tree.text(path) for path in tree.paths if not path.endswith(".md")}
        self.tree, self.options = tree, {option for text in texts.values() for option in OPTION.findall(text)}
        texts.pop("checks/documents.py", None)
        self.words = [set(re.findall(r"\w+", f"{path} {text}")) for path, text in texts.items()]

    @functools.cache
    def has(self, name):
        """Whether the tree has what has this name: an identifier if it is a word of a file, a path of identifiers if each two parts that
        follow each other are words of one file. None if it is no name."""
        if option := OPTION.match(name):
            return option[0] in self.options
        if FILE.fullmatch(name):
            inside = re.escape(re.sub(r"^(\.\.?/)+", "", re.sub("NAME|CRATE", "*", name))).replace(r"\*", "[^/]*")
            return any(re.fullmatch(f"(.*/)?{inside}/?", path) for path in (*self.tree.paths, *self.tree.folders))
        if IDENTIFIERS.fullmatch(name):
            parts = re.findall(r"\w+", name)
            return all(any(pair <= words for words in self.words) for pair in map(set, zip(parts, parts[1:] or parts)))
        return None


def names_on(tree, page):
    """What of each `code` on a page may be a name, with its line: all of it; of several words the files and paths, and the options of programs
    of the tree. The first column of a table of CHANGELOG.md may name what is gone."""
    text = re.sub(r"^ *```.*?^ *```", lambda block: "\n" * block[0].count("\n"), tree.text(page), flags=re.S | re.M)
    text = re.sub(r"^\| .*? \|", "", text, flags=re.M) if page == "CHANGELOG.md" else text
    for span in re.finditer(r"`([^`]+)`", text):
        first, *others = span[1].split()
        is_ours = "/" in first or first.startswith("lp_")
        for word in (first, *others):
            if not others or "/" in word or "::" in word or is_ours and word.startswith("--"):
                yield text.count("\n", 0, span.start()) + 1, word


def check_names(tree):
    """Each file, option, identifier and path of identifiers that a page names in `code` is in the tree, or NAMES_OF_OTHERS says whose it is."""
    names, used = Names(tree), set()
    for page, line, name in ((page, line, name) for page in tree.pages() for line, name in names_on(tree, page)):
        tree.looked_at["names on pages"] += 1
        if names.has(name.rstrip(",;")) is False:
            others = [other for other in NAMES_OF_OTHERS if re.fullmatch(other, name)]
            used.update(others)
            if not others:
                yield f"{page}:{line}: nothing in the tree has `{name}`"
    yield from (f"checks/documents.py: no page names what NAMES_OF_OTHERS has as {other}" for other in NAMES_OF_OTHERS if other not in used)


# Layers

ARCHITECTURE = "docs/ARCHITECTURE.md"
DEFINITION_ROOMS = ["format", "code", "laws"]  # the lowest first


def map_of_crates(tree):
    """The crates of the map in docs/ARCHITECTURE.md from the top, each with the lines of its modules."""
    found, crate = {}, None
    for line in tree.text(ARCHITECTURE).splitlines():
        first = line.split(" ")[0]
        if first and f"crates/{first}/src/" in tree.folders:
            crate = first
            found.setdefault(crate, [])
        elif crate and line.startswith("    "):
            found[crate].append(line.strip())
        else:
            crate = None
    return found


def named_in(uses):
    """The paths that the tree of a `use` names, as lists of words."""
    head, brace, rest = " ".join(uses.split()).partition("{")
    if not brace:
        return [[word.split(" as ")[0].strip() for word in head.split("::")]]
    front, inner = [word for word in head.strip().rstrip(":").split("::") if word], rest[:rest.rindex("}")]
    depths = [inner.count("{", 0, at) - inner.count("}", 0, at) for at in range(len(inner))]
    marked = "".join("\n" if c == "," and not depth else c for c, depth in zip(inner, depths))
    return [front + path for part in marked.split("\n") if part.strip() for path in named_in(part)]


class Modules:
    """The modules of a crate: the layer of each by the map, counted from the bottom, and what each imports."""

    def __init__(self, tree, crate, rows):
        self.tree, self.crate = tree, crate
        root = self.code(tree.glob(f"crates/{crate}/src/lib.rt", f"crates/{crate}/src/main.rt")[0])
        self.names = re.findall(r"^(?:pub )?mod (\w+);", root, re.M)
        self.handed_on = {path[-1]: path[0] for uses in re.findall(r"pub use ([^;]*);", root) for path in named_in(uses)}
        self.layers = {}
        for layer, row in enumerate(reversed(rows), 1):
            for cell in re.split(r"\s{2,}", row):
                if all(word in self.names for word in cell.split()):
                    self.layers.update(dict.fromkeys(cell.split(), layer))
        if missing := [name for name in self.names if name not in self.layers]:
            raise Fault(f"{ARCHITECTURE} gives no layer to {', '.join(missing)} of {crate}")
        self.imports = {name: self.imports_of(name) for name in self.names}

    def code(self, path):
        """A file without comments, attributes and ghost imports."""
        return re.sub(r"^\s*(//|ghost use|#\[|#!\[).*$", "", self.tree.text(path), flags=re.M)

    def imports_of(self, module):
        """The modules that a module imports from, each with what it imports. What the root hands on counts for the module that it is of."""
        found = {}
        for path in self.tree.glob(f"crates/{self.crate}/src/{module}.rt", f"crates/{self.crate}/src/{module}/*.rt"):
            code = self.code(path)
            paths = [words for uses in re.findall(r"\buse (crate::[^;]*);", code) for words in named_in(uses)]
            paths += [words.split("::") for words in re.findall(r"\bcrate(?:::\w+)+", re.sub(r"\buse [^;]*;", "", code))]
            for _, first, *others in paths:
                home = first if first in self.names else self.handed_on.get(first)
                if home and home != module:
                    found.setdefault(home, set()).add("::".join(word for word in (first, *others) if word not in (home, "self")) or home)
        return found

    def reached(self, module):
        """The modules that a module imports from, and the modules that these import from, and so on."""
        found, due = set(), [module]
        while due:
            new = self.imports[due.pop()].keys() - found
            found |= new
            due += new
        return found

    def problems(self):
        """The imports that go up a layer, and the sets of modules that import each other."""
        for module, imports in self.imports.items():
            for other, items in imports.items():
                self.tree.looked_at["imports"] += 1
                if self.layers[other] > self.layers[module]:
                    yield (f"{self.crate}: {module} (layer {self.layers[module]}) imports {', '.join(sorted(items))} of {other}, "
                           f"which is above it (layer {self.layers[other]})")
        reach = {module: self.reached(module) for module in self.names}
        circles = {frozenset(other for other in reach[module] if module in reach[other]) for module in self.names} - {frozenset()}
        yield from (f"{self.crate}: each of these modules reaches each other: {' '.join(sorted(circle))}" for circle in circles)

    def layer_of_proof(self, words):
        """The layer of the module to which a path below proofs/ belongs, in words; nothing if it belongs to none."""
        inside = words[1:] if words[:1] == ["lemmas"] else words
        return self.layers.get(inside[0]) if inside else None

    def proof_problems(self):
        """The proofs that import lemmas of a module above their own."""
        start = f"crates/{self.crate}/proofs/"
        for path in self.tree.glob(f"{start}**/*.antt"):
            own = self.layer_of_proof(path.removeprefix(start).removesuffix(".antt").split("/"))
            for words in imported(self.tree, path) if own else ():
                if words[:2] == [self.crate, "proofs"] and (self.layer_of_proof(words[2:]) or 0) > own:
                    yield f"{path} imports {'.'.join(words)}, of a layer above"


def imported(tree, path):
    """What a file of definitions or proofs imports, as lists of words after `Rattle`."""
    return [name.rstrip(".").split(".") for name in re.findall(r"^(?:pub )?use Rattle\.([\w.]+)", tree.text(path), re.M)]


def room_problems(tree):
    """The definitions that import what their room may not: specs/format/ itself and std alone, specs/code/ nothing of specs/laws/."""
    for path in tree.glob("crates/*/specs/**/*.antt"):
        room = path.split("/")[3].removesuffix(".antt")
        for words in imported(tree, path) if room in DEFINITION_ROOMS else ():
            other = words[2] if words[1:2] == ["specs"] and len(words) > 2 and words[2] in DEFINITION_ROOMS else None
            if other and DEFINITION_ROOMS.index(other) > DEFINITION_ROOMS.index(room) or room == "format" and words[0] != "std" and not other:
                yield f"{path} imports {'.'.join(words)}, which is of another room or above it"


def check_layers(tree):
    """Crates and modules, with their definitions and proofs, import nothing above them in the map of docs/ARCHITECTURE.md: there each crate is
    above the crates that it uses, and below a crate its modules are in layers."""
    crates = map_of_crates(tree)
    order = list(crates)
    for name, words in re.findall(r"^(\w+)(?: [^:\n]*)?:(.*)$", tree.text("crates.txt"), re.M):
        if name not in crates:
            yield f"{ARCHITECTURE} does not name the crate {name}"
        yield from (f"{ARCHITECTURE}: {name} uses {low}, which is above it" for low in words.split()
                    if name in crates and low in crates and order.index(low) < order.index(name))
    for crate, rows in crates.items():
        if rows:
            modules = Modules(tree, crate, rows)
            yield from modules.problems()
            yield from modules.proof_problems()
    yield from room_problems(tree)


# Lemmas

STATED = re.compile(r"^( *)(?:pub )?([^\s:(){}]+) : (.*)$")


def is_field(lines, at, indent):
    """Whether the line, which is indented so, is in a record."""
    for line in reversed(lines[:at]):
        if line.strip() and not line.startswith("    ") and len(line) - len(line.lstrip()) < indent:
            return bool(re.match(r" *(?:pub )?record ", line))
    return False


def check_lemmas(tree):
    """Each lemma has a comment line that says what it means. A lemma is what a file of proofs/ states by its type and then defines, except
    the fields of records, the proofs of functions, the answers to goals, and worked lines, whose names say it."""
    for path in tree.glob("crates/*/proofs/**/*.antt"):
        if path.split("/")[-2] == "worked_lines":
            continue
        lines = tree.text(path).split("\n")
        for at, line in enumerate(lines):
            stated = STATED.match(line)
            if not stated or stated[3].startswith("goal.") or stated[2].endswith("_spec") or is_field(lines, at, len(stated[1])):
                continue
            defined = re.compile("^" + stated[1] + re.escape(stated[2]) + r"(?: [^:]*)? =(?: |$)")
            if any(defined.match(it) for it in lines[at + 1:]):
                tree.looked_at["lemmas"] += 1
                if not lines[at - 1].lstrip().startswith("--"):
                    yield f"{path}:{at + 1}: {stated[2]} has no comment"


# The header for C

HEADER = "include/influxdb_line_protocol.h"
EMPTY, SYMBOLS = "bindings/c/empty.c", "packaging/symbols.in"
SCALARS = {"u8": "uint8_t", "u16": "uint16_t", "u32": "uint32_t", "u64": "uint64_t", "i64": "int64_t", "usize": "size_t", "bool": "bool",
           "f64": "double"}
FIELD_NAMES = {"unsigned": "unsigned_integer"}  # fields whose names are words of C


def plain(text):
    """A source without comments, attributes and lifetimes, in single spaces."""
    text = re.sub(r"/\*.*?\*/", " ", text, flags=re.S)
    text = re.sub(r"^\s*(//|#).*$", " ", text, flags=re.M)
    return " ".join(re.sub(r"<'\w+>|'\w+ ", "", text.replace("'static", "")).split())


def c_name(name):
    """The name in C of a type."""
    return SCALARS.get(name) or "lp_" + re.sub(r"(?<=[a-z0-9])(?=[A-Z])", "_", name).lower()


def enumerator(name):
    """An enumerator as it is compared: without prefix, underscores and case."""
    return name.removeprefix("LP_").replace("_", "").lower()


def field_in_c(name, kind):
    """A field of a struct in C: its type and name, or two of them if it is lent bytes."""
    if kind == "&mut [u8]":
        return [("uint8_t *", "at"), ("size_t", "len")]
    name = FIELD_NAMES.get(name, name)
    return [("lp_text", name) if kind == "&[u8]" else (c_name(kind), name)]


def parameter_in_c(name, kind):
    """A parameter of a call in C: its type and name, or two of them if it is a slice, which has its length after it."""
    found = re.fullmatch(r"&(mut )?(\[)?(\w+)\]?", kind)
    if not found:
        return [(SCALARS[kind], name)]
    pointer = ("" if found[1] else "const ") + c_name(found[3]) + " *"
    return [(pointer, name)] + ([("size_t", f"the length of {name}")] if found[2] else [])


def interface_of_crate(tree):
    """The enums, structs and calls of crates/lp_offsets and crates/lp_c, as C has them."""
    paths = [path for crate in ("lp_offsets", "lp_c") for path in tree.glob(f"crates/{crate}/src/*.rt")]
    text = plain("\n".join(tree.text(path) for path in paths).replace("#[repr(C)]", "repr_c")).replace("<'_>", "")
    enums = {c_name(name): [(enumerator(n), v) for n, v in re.findall(r"(\w+) = (\d+)", body)]
             for name, body in re.findall(r"pub enum (\w+) \{(.*?)\}", text) if "=" in body}
    structs = {c_name(name): [one for n, kind in re.findall(r"pub (\w+): ([^,]+),", body) for one in field_in_c(n, kind.strip())]
               for name, body in re.findall(r"repr_c pub struct (\w+) \{(.*?)\}", text)}
    structs["lp_text"] = [("const uint8_t *", "at"), ("size_t", "len")]
    calls = {}
    for name, inner, result in re.findall(r'pub extern "C" fn (\w+)\((.*?)\)(?: -> (\w+))?', text):
        parts = [[word.strip() for word in part.split(":", 1)] for part in inner.split(",") if ":" in part]
        calls[name] = SCALARS.get(result, "void"), [one for n, kind in parts if kind != "Global" for one in parameter_in_c(n, kind)]
    return enums, structs, calls


def declared(text):
    """A declaration of C as its type and its name."""
    kind, name = re.fullmatch(r"(.*?[ *])(\w+)", text.strip()).groups()
    return kind.strip(), name


def with_lengths(parameters):
    """Parameters of a declaration, each with its type and name. The length of a slice is named after the slice: `parts_len` or `batch_room`
    after `parts` and `batch`, `len` after `text`, and `room` after `out`."""
    found = []
    for kind, name in parameters:
        before = found[-1][1] if found else ""
        is_length = kind == "size_t" and (name in (f"{before}_len", f"{before}_room") or (before, name) in (("text", "len"), ("out", "room")))
        found.append((kind, f"the length of {before}" if is_length else name))
    return found


def interface_of_header(tree):
    """The enums, structs and calls of the header."""
    text = plain(re.sub(r"static inline.*?\n}", " ", tree.text(HEADER), flags=re.S))
    enums = {name: [(enumerator(n), v) for n, v in re.findall(r"(\w+) = (\d+)", body)] for name, body in re.findall(r"enum (\w+) \{(.*?)\};", text)}
    structs = {}
    for body, name in re.findall(r"typedef struct \w+ \{([^}]*)\} (\w+);", text):
        groups = [[part.strip() for part in line.split(",")] for line in body.split(";") if line.strip()]
        structs[name] = [(declared(first)[0], each) for first, *others in groups for each in (declared(first)[1], *others)]
    text = re.sub(r"typedef struct \w+ \{[^}]*\} \w+;", " ", text)
    calls = {name: (result, with_lengths(declared(part) for part in inner.split(",") if inner != "void"))
             for result, name, inner in re.findall(r"(\w+) (lp_\w+)\(([^()]*)\);", text)}
    return enums, structs, calls


def check_header(tree):
    """The header has the enums, structs and calls of crates/lp_c and crates/lp_offsets, with the names of fields and parameters; bindings/c/empty.c has its
    constants, and packaging/symbols.in its constants and calls."""
    crate, header = interface_of_crate(tree), interface_of_header(tree)
    for what, wanted, given in zip(("enum", "struct", "call"), crate, header):
        for name in sorted(wanted.keys() | given.keys()):
            tree.looked_at[f"{what}s of the header"] += 1
            if wanted.get(name) != given.get(name):
                yield f"{what} {name}: the crate has {wanted.get(name)}, the header {given.get(name)}"
    constants = re.findall(r"^extern const (\w+) (\w+);", tree.text(HEADER), flags=re.M)
    made = re.findall(r"^const (\w+) (\w+) = (\w+);", tree.text(EMPTY), flags=re.M)
    for _, name, value in sorted({(kind, name, name.upper()) for kind, name in constants} ^ set(made)):
        yield f"{name} is not {value} in both {HEADER} and {EMPTY}"
    symbols = re.findall(r"^ (\w+)@Base \d+\.\d+\.\d+$", tree.text(SYMBOLS), flags=re.M)
    yield from (f"{name} is not in both {HEADER} and {SYMBOLS}" for name in sorted({name for _, name in constants} ^ set(symbols) ^ header[2].keys()))


# The packages of other languages

BORDER, ITEMS, CORE = "bindings/rust/src/border.rs", "bindings/python/src/line_protocol/items.py", "bindings/js/core.js"
SIZES = {"bool": 1, "uint16_t": 2, "uint32_t": 4, "uint64_t": 8, "int64_t": 8, "size_t": 8}  # of 64-bit C, as WebAssembly has it too
LAID_OUT = {"ROW": "lp_offset_row", "PART": "lp_offset_part", "BLOCK": "lp_block", "CUTS": "lp_cuts"}  # the structs that core.js reads by numbers


def rust_type(kind):
    """The type in C of a type of border.rs."""
    pointer = re.fullmatch(r"\*(mut|const) (\w+)", kind)
    return ("" if pointer[1] == "mut" else "const ") + rust_type(pointer[2]) + " *" if pointer else c_name(kind)


def interface_of_rust(tree):
    """The enums, structs and calls that border.rs declares, as C has them."""
    text = plain(tree.text(BORDER)).replace("pub(crate) ", "")
    enums = {"lp_" + name: [(enumerator(n), v) for n, v in re.findall(r"const (\w+): u32 = (\d+);", body)]
             for name, body in re.findall(r"mod (\w+) \{(.*?)\}", text)}
    structs = {c_name(name): [(rust_type(kind), FIELD_NAMES.get(field, field)) for field, kind in re.findall(r"(\w+): ([^,]+),", body)
                              if "PhantomData" not in kind] for name, body in re.findall(r"struct (\w+) \{(.*?)\}", text)}
    calls = {}
    for name, inner, result in re.findall(r"fn (lp_\w+)\((.*?)\)(?: -> (\w+))?;", text):
        parts = [[word.strip() for word in part.split(":", 1)] for part in inner.split(",") if ":" in part]
        calls[name] = SCALARS[result] if result else "void", with_lengths((rust_type(kind), each) for each, kind in parts)
    return enums, structs, calls


def enums_of_python(tree):
    """The enums that the Python package declares. Faults from 100 on are the package's own."""
    classes = re.findall(r"class (\w+)\(IntEnum\):(.*?)(?=\n\n\n)", tree.text(ITEMS), flags=re.S)
    return {c_name(name): [(enumerator(n), v) for n, v in re.findall(r"^    (\w+) = (\d+)$", body, flags=re.M) if int(v) < 100]
            for name, body in classes}


def enums_of_js(tree):
    """The enums that core.js declares: as lists, in which a name stands at its number, and as constants."""
    text, enums = tree.text(CORE), {}
    for name, place, first in (("lp_dialect", "DIALECTS", ""), ("lp_fault_kind", "FAULTS", "none"), ("lp_side", "SIDES", "neither")):
        names = re.findall(r'"(.*?)"', re.search(rf"const {place} = \[(.*?)\];", text, flags=re.S)[1])
        enums[name] = [(enumerator((one or first).replace("-", "_")), str(at)) for at, one in enumerate(names)]
    constants = re.search(r"^const (END = .*);\nconst (INTEGER = .*);$", text, flags=re.M)
    for name, body in zip(("lp_answer", "lp_kind"), constants.groups()):
        enums[name] = [(enumerator(one), number) for one, number in re.findall(r"(\w+) = (\d+)", body)]
    return enums


def layout(structs, name):
    """How many bytes a struct takes in C, how it is aligned, and where its members lie."""
    size, widest, places = 0, 1, {}
    for kind, member in structs[name]:
        width, align = (SIZES[kind],) * 2 if kind in SIZES else layout(structs, kind)[:2]
        size = -(-size // align) * align
        places[member] = size, width
        size, widest = size + width, max(widest, align)
    return -(-size // widest) * widest, widest, places


def layout_problems(tree, structs):
    """Where core.js has another size of a struct, or another place of a member in words, or in halves of them, than C."""
    numbers = {name: int(number) for name, number in re.findall(r"\b([A-Z_]+) = (\d+)(?=[,;])", tree.text(CORE))}
    for name, struct in LAID_OUT.items():
        size, _, places = layout(structs, struct)
        if numbers.get(name) != size:
            yield f"{CORE}: {name} is {numbers.get(name)}, and {struct} takes {size} bytes"
        for member in (member for member in numbers if member.startswith(name + "_")):
            at, width = places.get(member.removeprefix(name + "_").lower(), (-1, 4))
            if numbers[member] != at // min(width, 4):
                yield f"{CORE}: {member} is {numbers[member]}, which is not where {struct} has it"


def check_bindings(tree):
    """The packages in Rust, Python and JavaScript declare the numbers, structs and calls that they use as the header has them, and core.js has the
    sizes and places by which C lays its structs out. tables/generate.py writes the faults and the clauses of the packages."""
    enums, structs, calls = interface_of_header(tree)
    rust = interface_of_rust(tree)
    for path, given in ((BORDER, rust[0]), (ITEMS, enums_of_python(tree)), (CORE, enums_of_js(tree))):
        tree.looked_at["enums of packages"] += len(given)
        yield from (f"{path}: enum {name}: {one} is not in the header" for name in given for one in given[name] if one not in enums.get(name, []))
    for own, wanted in ((rust[1], structs), (rust[2], calls)):
        tree.looked_at["structs and calls of Rust"] += len(own)
        yield from (f"{BORDER}: {name} has {own[name]}, and the header {wanted.get(name)}" for name in own if own[name] != wanted.get(name))
    yield from layout_problems(tree, structs)


# Blocks of code

EXAMPLES = "crates/lp_examples/"
PLACES_OF_EXAMPLES = [EXAMPLES + "src/*.rt", *(f"bindings/c/{name}" for name in ("example.c", "cuts.c", "writing.c", "sums.c", "groups.c", "example.cpp")),
                      "bindings/rust/examples/*.rs", "bindings/python/example.py", "bindings/go/example_test.go"]
PAGES_WITH_BLOCKS = ["README.md", "docs/RATTLE.md", "docs/BINDINGS.md", "bindings/python/README.md"]
LANGUAGES = ("rust", "antt", "c", "cpp", "rs", "python", "go")  # of the blocks that must be copies
MARK = re.compile(r"^\s*(?://|#) \[(\w+)\]$", re.M)
BLOCK = re.compile(r"^(?:<!-- block (\S+) -->\n+)?```(\w*)\n(.*?^)```$", re.M | re.S)
ANSWERS, FORMAT = "checks/tables/answers.tsv", "docs/FORMAT.md"


def stretches(tree):
    """The stretches of all examples, by their names. A stretch goes from the line `// [NAME]` to `// [end]`, or with `#` in the place of
    `//`, without the spaces that begin all its lines."""
    found = {}
    for path in tree.glob(*PLACES_OF_EXAMPLES):
        _, *parts = MARK.split(tree.text(path))
        for at, (name, text) in enumerate(zip(parts[::2], parts[1::2])):
            if (name == "end") != (at % 2 == 1) or name in found or len(parts) % 4:
                raise Fault(f"{path}: the stretch `{name}` begins in another one or twice, or does not end")
            if name != "end":
                found[name] = textwrap.dedent(text).strip("\n") + "\n"
    return found


def block_texts(tree):
    """Each page that copies code, with the text that it should have. A block comes after the line `<!-- block NAME -->`. A NAME with a `/` is
    a whole file: of bindings/ or crates/, or else from crates/lp_examples on."""
    known, quoted, texts = stretches(tree), set(), {}
    for page in PAGES_WITH_BLOCKS:
        def copied(block, page=page):
            name, language, _ = block.groups()
            tree.looked_at["blocks of code"] += 1
            if not name and language in LANGUAGES:
                raise Fault(f"{page}: a block of {language} has no line `<!-- block NAME -->` before it: {block[0][:60]!r}")
            quoted.add(name)
            if name and "/" in name:
                path = name if name.startswith(("bindings/", "crates/")) else EXAMPLES + name
                known[name] = "".join(line for line in tree.text(path).splitlines(True) if not MARK.match(line))
            if name and name not in known:
                raise Fault(f"{page}: no example has the stretch `{name}`")
            return block[0] if not name else block[0].removesuffix(block[3] + "```") + known[name] + "```"
        texts[page] = BLOCK.sub(copied, tree.text(page))
    linked = re.findall(r"lp_examples/src/(\w+)\.rt\)", "".join(texts.values()))
    if unquoted := sorted({name for name in known if "/" not in name} - quoted - {*linked}):
        raise Fault(f"no page has the stretch `{unquoted[0]}`, or a link to a file of that name")
    place = texts_of_dialects(tree)
    texts[place.path] = place.filled(texts.get(place.path) or tree.text(place.path))
    return texts


def cell_of_answer(cell):
    """A cell of an answer as code: its escapes as the characters that docs/FORMAT.md has for them."""
    known = {"n": "⏎", "t": "⇥", "r": "␍", "0": "␀", "\\": "\\"}
    text = re.sub(r"\\(.)", lambda escape: known[escape[1]], cell)
    return f"`{'␣' if text.startswith(' ') else ''}{text.lstrip(' ')}`"


def items_of_answer(cell):
    """Items in words: a fault by its name, and a line by its parts."""
    words = []
    for item in cell.split("|"):
        rest = re.fullmatch(r"rest <(.*)>", item)
        words.append(f"`CannotParseEntireLine`, rest {cell_of_answer(rest[1])}" if rest
                     else cell_of_answer(re.sub(r"[SC]<([^>]*)>", r"\1", item).replace("TakeWhile1", "GenericParsingError")))
    return "; then ".join(words)


def texts_of_dialects(tree):
    """The table of what each dialect reads of some texts."""
    rows = tree.text(ANSWERS).split("# The texts of docs/FORMAT.md", 1)[1].split("\n\n", 1)[0].split("\n")[1:]
    cells = [row.split("\t")[1:] for row in rows]
    lines = [f"| {' | '.join([cell_of_answer(text), *map(items_of_answer, answers)])} |" for text, *answers in cells]
    return Place(FORMAT, ("| text | `Crate`", "|---"), "", lines)


def check_blocks(tree):
    """Each block of code in the pages is a copy of its example, each example is quoted, and the table of texts in docs/FORMAT.md is as the
    rows have it."""
    for path, text in block_texts(tree).items():
        if text != tree.text(path):
            yield first_difference(path, tree.text(path), text) + "\nrun checks/documents.py --write blocks"


# How texts read

# The comments of each kind of file, and the texts that are counted together.
COMMENTS = {".rt": r"//[/!] ?(.*)", ".rs": r"//[/!] ?(.*)", ".antt": r"-- ?(.*)", ".go": r"// ?(.*)", ".h": r"/?\*+/? ?(.*)"}
TEXTS = {"comments of code": ["crates/*/src/**/*.rt"], "comments of definitions": ["crates/*/specs/**/*.antt"],
         "comments of lemmas": ["crates/*/proofs/**/*.antt"], "comments of Go": ["bindings/go/**/*.go"],
         "comments of Rust": ["bindings/rust/**/*.rs"], "the header": [HEADER], "docstrings of Python": ["bindings/python/src/**/*.py"]}
# How often each thing stands in 1,000 words, and between which bounds it stands in texts that readers take for models: the man pages of curl and
# ripgrep, the guides of SQLite, and the comments of Rust's standard library.
MEASURES = {
    "what, that of": (r"(?i)(?:(?:^|[.,;:]\s+|\b(?:of|by|for|in|to|and|than|is|are|as|tells?|gives?|says?|writes?|reads?|just)\s+)what"
                      r"|that of|those|of these|of which|of that)\b", 0, 2),
    "one, so, such": (r"\b(?:ones?|such|so)\b", 0, 6),
    "can, must": (r"\b(?:can|may|should|must|will|would)\b", 10, 30),
    "you": (r"(?i)\byou(?:rs?)?\b", 0, 10),
    "example": (r"(?i)\b(?:example|e\.g\.|for instance|such as|like)\b", 2, 25),
    "no, not": (r"\b(?:no|not|none|nothing|never|neither|nor|without|cannot|nobody)\b", 0, 20),
}


def prose_of(tree, path):
    """The sentences of a file: a page without code and tables' lines, a man page without macros, or the comments of code."""
    text, suffix = tree.text(path), Path(path).suffix
    if suffix == ".py":
        return "\n\n".join(re.findall(r'"""(.*?)"""', text, re.S))
    if suffix in COMMENTS:
        return "\n".join(found[1] if (found := re.match(rf"\s*{COMMENTS[suffix]}", line)) else "" for line in text.splitlines())
    if suffix != ".md":
        return re.sub(r"^\.(?:Sh|Ss|Pp|It|Bl|El).*$", "\n", re.sub(r"^\.(?!Sh|Ss|Pp|It|Bl|El).*$|^\.\\\".*$", "CODE", text, flags=re.M), flags=re.M)
    text = re.sub(r"^ *```.*?^ *```|<!--.*?-->", "\n", text, flags=re.S | re.M)
    text = re.sub(r"^ *\|[-| :]+\|$|^#.*$", "", text, flags=re.M)
    text = re.sub(r"!?\[([^\]]*)\]\([^)]*\)", r"\1", re.sub(r"`[^`]*`", "CODE", text))
    return re.sub(r"^\s*\|(.*)\|\s*$", lambda row: "\n\n" + row[1].replace("|", ".\n\n") + ".\n\n", text, flags=re.M)


def style_row(text):
    """How many words a text has, how many words and commas a sentence has, and each measure."""
    words = len(re.findall(r"[A-Za-z][A-Za-z'-]*", text)) or 1
    sentences = [part for part in re.split(r"(?<=[.!?:])\s+(?=[A-Z`\"(])|\n\s*\n", text) if len(re.findall(r"\w+", part)) > 3] or [""]
    commas = sum(len(re.findall("[,;]", part)) for part in sentences)
    return [words, words / len(sentences), commas / len(sentences)] + [1000 * len(re.findall(test, text)) / words for test, _, _ in MEASURES.values()]


def style_table(tree):
    """Of each text its name and its counts."""
    groups = {path: [path] for path in [*tree.pages(), *tree.glob("man/*")]} | {name: tree.glob(*places) for name, places in TEXTS.items()}
    return {name: style_row("\n\n".join(prose_of(tree, path) for path in paths)) for name, paths in groups.items() if paths}


def is_unlike(row):
    """Whether each measure of a row is outside the bounds of the models."""
    return [not least <= count <= most for count, (_, least, most) in zip(row[3:], MEASURES.values())]


def print_style(tree):
    """Prints how each text reads. A number with `!` is outside the bounds of the models."""
    print("%-40s" % "in 1,000 words", *("%14s" % head for head in ("words", "words/sentence", "commas/sent.", *MEASURES)))
    for name, row in sorted(style_table(tree).items(), key=lambda pair: -sum(is_unlike(pair[1]))):
        marks = ["", "", ""] + ["!" if mark else "" for mark in is_unlike(row)]
        print("%-40s" % name, *("%14s" % f"{count:.{0 if at == 0 else 1}f}{mark}" for at, (count, mark) in enumerate(zip(row, marks))))


def print_places(tree, path):
    """Prints each place of a file where a word stands for a noun that the reader has to find."""
    for number, line in enumerate(tree.text(path).splitlines(), 1):
        for test in (MEASURES["what, that of"][0], MEASURES["one, so, such"][0]):
            for found in re.finditer(test, line):
                print(f"{path}:{number}: {line[max(0, found.start() - 40):found.end() + 40].strip()}")


def warning_of_style(tree):
    """How many texts do not read as the models do, in words. It is no problem: no number says whether a page can be understood."""
    rows = [row for row in style_table(tree).values() if row[0] > 300]
    counts = (f"{sum(is_unlike(row)[at] for row in rows)} by `{measure}`" for at, measure in enumerate(MEASURES))
    return f"of {len(rows)} texts, so many are unlike the models: {'; '.join(counts)}. `checks/documents.py style` prints which"


# Calls

# Functions of programs without clauses

WITHOUT, MOST_WITHOUT = "tables/without_ensures.tsv", 165
WHYS = ("acts", "cell", "main", "message", "report", "owed")
FUNCTION = re.compile(r"^( *)(?:pub(?:\([a-z]+\))? )?fn (\w+)((?:(?!;\n).)*?)(?:\n\1\{| \{)$", re.M | re.S)


def check_ensures(tree):
    """Compares the functions of the programs' crates that have no `ensures`, and are of no impl of a trait, with tables/without_ensures.tsv."""
    rows = [line.split("\t") for line in tree.text(WITHOUT).splitlines() if not line.startswith("#")]
    listed = Counter((crate, file, name) for crate, file, _, names in rows for name in names.split())
    tree.looked_at["functions without an ensures"] += sum(listed.values())
    yield from (f"{WITHOUT}: {why} is no reason" for _, _, why, _ in rows if why not in WHYS)
    found = Counter()
    for crate in sorted({row[0] for row in rows}):
        for path in tree.glob(f"crates/{crate}/src/*.rt"):
            text = re.sub(r"^impl\b[^{]*? for .*?^\}$", "", tree.text(path), flags=re.M | re.S)
            found.update((crate, path.split("/")[-1], name) for _, name, head in FUNCTION.findall(text) if "ensures" not in head)
    yield from (f"{WITHOUT}: {' '.join(one)} has an ensures, or is not there" for one in (listed - found).elements())
    yield from (f"{' '.join(one)} has no ensures: {WITHOUT} does not have it" for one in (found - listed).elements())
    if sum(listed.values()) > MOST_WITHOUT:
        yield f"{WITHOUT}: {sum(listed.values())} functions, more than {MOST_WITHOUT}"


def calls_page(tree):
    """The text of docs/CALLS.md, by checks/calls.py, which needs this file."""
    return importlib.import_module("calls").page(tree)


# The program

CHECKS = {"versions": check_versions, "definitions": check_definitions, "settings": check_settings, "blocks": check_blocks,
          "links": check_links, "names": check_names, "layers": check_layers, "lemmas": check_lemmas, "header": check_header,
          "bindings": check_bindings, "ensures": check_ensures}
SCRIPTS = {name: f"checks/{name}.py" for name in ("calls", "reading", "bugs", "what_sees", "what_programs_see")} | {"tables": "tables/generate.py"}
WRITERS = {"blocks": block_texts, "definitions": lambda tree: {DEFINITIONS: definitions_page(tree)}, "calls": lambda tree: {CALLS: calls_page(tree)}}


def problems_of(tree, name):
    """What a check finds, in words."""
    before = tree.looked_at.total()
    try:
        found = list(CHECKS[name](tree))
    except Fault as fault:
        found = [str(fault)]
    return found or ([] if tree.looked_at.total() > before else ["it has looked at nothing"])


def run(tree, names):
    """Runs checks, and beside them the scripts that are checks; how many of both find a problem."""
    scripts = {name: subprocess.Popen([sys.executable, "-B", TOP / SCRIPTS[name]], stdout=subprocess.PIPE, stderr=subprocess.STDOUT, text=True)
               for name in names if name in SCRIPTS}
    failed = 0
    for name in names:
        if name in CHECKS:
            found = problems_of(tree, name)
            print("".join(f"{name}: {problem}\n" for problem in found), end="")
            failed += bool(found)
    for name, script in scripts.items():
        print(script.communicate()[0], end="")
        failed += script.returncode != 0
    return failed


def write(tree, names, folder):
    """Writes below a folder the files that these checks compare or make, if their text differs from the tree's."""
    for name in names:
        for path, text in WRITERS[name](tree).items():
            if path not in tree.paths or tree.text(path) != text:
                (folder / path).parent.mkdir(parents=True, exist_ok=True)
                (folder / path).write_text(text, encoding="utf-8")
                print(f"documents: wrote {path}")


def main(words):
    """Runs what the words ask for."""
    top, to = (Path(words.pop(words.index(word) + 1)) if word in words[:-1] else TOP for word in ("--top", "--to"))
    asked = [word for word in words if word not in ("--write", "--top", "--to")]
    tree = Tree(top)
    known = WRITERS if "--write" in words else ["style", *tree.paths] if "style" in asked else {**CHECKS, **SCRIPTS}
    if wrong := [word for word in asked if word not in known]:
        checks = "".join(f"\n    {name:<14}{' '.join((check.__doc__ or '').split())}" for name, check in CHECKS.items())
        print(f"{__doc__}\nThe checks:{checks}\n    {', '.join(SCRIPTS)}: the scripts of these names", file=sys.stderr)
        return 0 if wrong == ["--help"] else 2
    if "style" in asked:
        asked.remove("style")
        for path in asked:
            print_places(tree, path)
        return 0 if asked else print_style(tree)
    if "--write" in words:
        failed = 0 if asked else subprocess.run([TOP / SCRIPTS["tables"], "--write"], check=False).returncode
        write(tree, asked or WRITERS, to)
        return failed
    failed = run(tree, asked or [*CHECKS, *SCRIPTS])
    if not asked:
        print(f"style: {warning_of_style(tree)}")
    print(f"documents: {failed} checks failed" if failed else "documents: " + ", ".join(f"{count} {what}" for what, count in tree.looked_at.items()))
    return 1 if failed else 0


if __name__ == "__main__":
    sys.exit(main(sys.argv[1:]))
