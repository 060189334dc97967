"""What each language tells of an item: the table of docs/BINDINGS.md, which is made from tables/facts.tsv.

A row has a fact, and for each language names of its public surface between backticks, or `none: ` and why it tells no such fact. A name
`Owner.member` is a member of a type; any other name stands alone."""

import re
from typing import NamedTuple

from records import TOP, Place, read

TABLE, PAGE = "tables/facts.tsv", "docs/BINDINGS.md"


class Surface(NamedTuple):
    """The files that declare what a language calls, and how a line of them does: a name that stands alone, and a member of a type."""

    files: str
    alone: str
    member: str


SURFACES = {
    "C": Surface("include/*.h", r"\b{}\b", r"[ *]{}[,;]"),
    "C++": Surface("include/*", r"\b{}\(", r"[ *]{}(?:\(|[,;]| =)"),
    "Rust": Surface("bindings/rust/src/*.rs", r"^ *pub (?:fn|struct|enum) {}\b", r"^    (?:pub (?:fn )?)?{}\b"),
    "Go": Surface("bindings/go/*.go", r"^(?:type |\t){}\b", r"^func \(\w+ \*?\w+\) {}\(|^\t{} "),
    "Python": Surface("bindings/python/src/line_protocol/*.py*", r"^(?:def |class )?{}[(:]", r"^    (?:def )?{}[(:]"),
    "JavaScript": Surface("bindings/js/index.d.ts", r"^export [a-z ]+ {}\b", r"^    {}\??[(:]"),
}
# The names of the languages themselves.
THEIRS = {"Display", "None", "Result", "f64", "float", "str"}


def declares(surface, name):
    """Whether a language declares a public name. What a type has is on the line that names the type, and on the indented lines after it. A
    type of Python can have members of the extension's type."""
    texts = [re.sub(r"/\*.*?\*/", "", path.read_text(encoding="utf-8"), flags=re.S) for path in sorted(TOP.glob(surface.files))]
    owner, _, member = name.rpartition(".")
    if owner:
        texts = [block[0] for text in texts for block in re.finditer(rf"^\S.*\b{owner}(?:Members)?\b.*(?:\n(?:[ \t].*|public:)?)*", text, re.M)]
    pattern = (surface.member if owner else surface.alone).replace("{}", member)
    return any(re.search(pattern, text, re.M) for text in texts)


def rows():
    """The rows of the table: first the languages, then each fact."""
    return [line.split("\t") for line in read(TABLE).splitlines()]


def places():
    """The stretch of the page."""
    head, *facts = rows()
    yield Place(PAGE, ("## What is told of an item", "|---"), "", [f"| {' | '.join(row)} |" for row in facts])


def problems():
    """Each cell that names nothing and gives no reason, or names what its language does not declare."""
    head, *facts = rows()
    if head[1:] != list(SURFACES):
        yield f"{TABLE}: the languages are {', '.join(SURFACES)}"
    for fact, *cells in facts:
        for (language, surface), cell in zip(SURFACES.items(), cells, strict=True):
            names = [name for name in re.findall(r"`([^`]+)`", cell) if name not in THEIRS]
            if not names and not cell.startswith("none: "):
                yield f"{TABLE}: {fact}, in {language}: neither a name nor `none: ` and a reason"
            yield from (f"{TABLE}: {fact}, in {language}: nothing declares `{name}`" for name in names if not declares(surface, name))
