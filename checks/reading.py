#!/usr/bin/env python3
"""Which definitions a reader must read to believe the headline of docs/TRUST.md, and which definitions have a worked line.

    checks/reading.py               compares both with what is recorded; exit status 1 if a check finds a problem
    checks/reading.py --headline    prints the definitions of the headline, each after the definitions on which it rests
    checks/reading.py --unworked    prints each definition that a clause of a public call rests on, and that no worked line names

The headline is what the clauses of HEADLINE say. A definition rests on the definitions that it names. It may not come to rest on more of
them than MOST says, because each is one more that nobody but a reader can judge.

A worked line is a lemma about one example: a lemma of a file `Worked*.antt`, or of a folder `worked_lines`. Each relation that the statement
of a law names has an example that it covers and one that it does not cover (`¬`). Each law has a row in docs/TRUST.md that names two or more
worked lines.
"""

import functools
import re
import sys
from collections import defaultdict
from dataclasses import dataclass

from clauses import surface
from documents import LIBRARIES, MEMBER, TOP, Definition, Tree, cited, subjects

HEADLINE = {"crates/influxdb_line_protocol/src/laws.rt": "batch_reads_back", "crates/lp_lines/src/line.rt": "Iterator for ParseLines::next_gives",
            "crates/lp_build/src/builder/lines.rt": "write_line"}
MOST = 195
LAWS = ["crates/influxdb_line_protocol/src/laws.rt", "crates/lp_relay/src/laws.rt", "crates/lp_influx/src/laws.rt"]
WORKED = ["crates/*/proofs/**/Worked*.antt", "crates/*/proofs/**/worked_lines/*.antt"]
TRUST = "docs/TRUST.md"
USE = re.compile(r"^ *(?:pub |unfoldable |ghost )*use Rattle\.([\w.]+?)(?:\.\{(.*)\}| as (\w+));?$", re.M)
STATEMENT = re.compile(r"^(?:pub )?(\w+) :((?: .*)?(?:\n +.*)*)", re.M)


@dataclass(eq=False)
class Place:
    """A definition, and the file that has it."""
    path: str
    definition: Definition

    def name(self):
        return self.definition.name

    def text(self):
        return "\n".join(re.sub(r"^ *--.*|  --.*", "", line) for line in self.definition.lines)

    def length(self):
        return sum(bool(line.strip()) for line in self.text().splitlines())

    def is_relation(self):
        """Whether it says something of values: its type is a type, and it is not built of types alone."""
        head = re.sub(r"\{[^{}]*\}|\([\w ]+ : Type 0\)", "", re.split(r"\n\S", "\n".join(self.definition.lines))[0].partition(" where")[0])
        return bool(re.search(r"(?:\)|→) *:? *(?:.*→ *)?Type 0\s*$", " ".join(head.split())))


class Definitions:
    """All definitions of the library crates, and which of them the words of a file name."""

    def __init__(self, tree):
        self.tree, self.named = tree, defaultdict(list)
        for subject in subjects(tree):
            for definition in subject.definitions:
                place = Place(subject.path, definition)
                forms = [name for line in definition.lines[1:] if (member := MEMBER.match(line + " ")) for name in member[1].split()]
                for name in [definition.name.strip("◌").rpartition(".")[2], *(forms if definition.kind == "data" else ())]:
                    self.named[name].append(place)

    def found(self, name, path):
        """The definition that a file imports by its name from a path of words."""
        words = path.split(".")
        score = {place: 2 * place.path.startswith(f"crates/{words[0]}/") + (place.path.split("/")[-1].removesuffix(".antt") in words)
                 for place in self.named.get(name, ())}
        return max(score, key=score.get) if score and words[0] in LIBRARIES and words[1:2] == ["specs"] else None

    @functools.cache
    def words(self, path):
        """What the words of a file name: definitions, by their own names or by others; and modules."""
        known, modules = {}, {}
        for module, items, alias in USE.findall(self.tree.text(path)):
            if alias:
                modules[alias] = module
            for item in re.split(r", *", items):
                name, _, other = item.partition(" as ")
                if place := self.found(name.rpartition(".")[2].strip("◌"), f"{module}.{name}"):
                    known[(other or name.rpartition(".")[2]).strip("◌")] = place
        for name, places in self.named.items():
            known.update({name: place for place in places if place.path == path})
        return known, modules

    def named_in(self, text, path):
        """The definitions that a text of a file names, in the order of their names."""
        known, modules = self.words(path)
        for word in re.findall(r"[^\s(){}\[\],;]+", text):
            front, _, name = word.strip(".◌").rpartition(".")
            place = self.found(name, modules[front]) if front in modules else known.get((name or word).strip("◌"))
            if place:
                yield place

    def in_order(self, roots):
        """These definitions and all that they rest on, each after what it rests on."""
        found, open_now = {}, set()

        def add(place):
            if place not in open_now:
                open_now.add(place)
                for inner in self.named_in(place.text(), place.path):
                    add(inner)
                found[place] = None
        for place in roots:
            add(place)
        return list(found)


def clauses_of(tree, path, name=""):
    """The clauses of the public functions of a file, or of one function, and what an impl says of its type."""
    for found, entries in surface([tree.text(path)]).items():
        if not name or found == name or re.sub(r"<.*?>", "", found) == name:
            for head, *lines in entries:
                yield found, "\n".join(lines) if "fn " in head else head


def headline(tree, definitions):
    """The definitions that the headline rests on, in the order in which they can be read."""
    texts = [(path, text) for path, name in HEADLINE.items() for _, text in clauses_of(tree, path, name)]
    return definitions.in_order(place for path, text in texts for place in definitions.named_in(text, path))


def worked_statements(tree):
    """Each worked line: its file, its name and what it states."""
    for path in tree.glob(*WORKED):
        text = re.sub(r"^ *--.*\n", "", tree.text(path), flags=re.M)
        for name, statement in STATEMENT.findall(text):
            if re.search(rf"^{name}(?: [^:\n]*)? =", text, re.M) and "⊤" not in statement:
                yield path, name, statement


def worked(tree, definitions):
    """The definitions that worked lines name: those of which an example is covered, and those of which one is not. A worked line also names
    what the abbreviations of its file name."""
    inside, outside = set(), set()
    for path in tree.glob(*WORKED):
        short = "\n".join(re.findall(r"^abbrev (?:pub )?\w+ :.*(?:\n(?!\n).*)*", tree.text(path), re.M))
        inside |= {*definitions.named_in(re.sub(r"--.*", "", short), path)}
    for path, _, statement in worked_statements(tree):
        outside |= {place for text in re.findall(r"¬ \(?([^\s(]+)", statement) for place in definitions.named_in(text, path)}
        inside |= {*definitions.named_in(re.sub(r"¬ \(?[^\s(]+", "", statement), path)}
    return inside, outside


def relations_of_laws(tree, definitions):
    """Each relation that the statement of a law names, and the laws that name it."""
    found = defaultdict(set)
    for path in LAWS:
        for name, text in clauses_of(tree, path):
            for law in definitions.named_in(text, path):
                for place in definitions.named_in(law.text(), law.path):
                    if place.is_relation() and place != law:
                        found[place].add(name)
    return found


def problems(tree, counts):
    """What is wrong, in words."""
    definitions = Definitions(tree)
    read, text = headline(tree, definitions), tree.text(TRUST)
    inside, outside = worked(tree, definitions)
    relations = relations_of_laws(tree, definitions)
    counts["definitions of the headline"] = len(read)
    if len(read) > MOST:
        yield f"the headline rests on {len(read)} definitions, and it may rest on {MOST}: `checks/reading.py --headline` prints them"
    if f"{len(read)} definitions" not in text:
        yield f"{TRUST} does not say that the headline rests on {len(read)} definitions"
    for place, laws in sorted(relations.items(), key=lambda pair: pair[0].name()):
        counts["relations of the laws"] += 1
        for found, what in ((inside, "covers"), (outside, "does not cover")):
            if place not in found:
                yield f"no worked line has an example that {place.name()} {what}; {', '.join(sorted(laws))} names it"
    names = {name for _, name, _ in worked_statements(tree)}
    rows = [row for row in text.splitlines() if row.startswith("| ")]
    for path in LAWS:
        for name, _ in clauses_of(tree, path):
            counts["laws"] += 1
            told = [names & {*re.findall(r"`(\w+)`", row)} for row in rows if re.search(rf"`(\w+::)*{name}`", row)]
            if not any(len(found) > 1 for found in told):
                yield f"{TRUST} has no row of the law {name} that names two worked lines"
    kept = cited(tree)
    found = [place for places in definitions.named.values() for place in places if id(place.definition) in kept]
    counts["cited definitions"] = len({*found})
    counts["of these named in worked lines"] = len({*found} & (inside | outside))


def main(words):
    tree, counts = Tree(TOP), defaultdict(int)
    if words == ["--headline"]:
        found = headline(tree, Definitions(tree))
        for number, place in enumerate(found, 1):
            print(f"{number:4} {place.name()}, {place.path}, {place.length()} lines: {place.definition.comment}")
        print(f"{len(found)} definitions, {sum(place.length() for place in found)} lines")
        return 0
    if words == ["--unworked"]:
        kept, definitions = cited(tree), Definitions(tree)
        seen = set().union(*worked(tree, definitions))
        found = {place for places in definitions.named.values() for place in places if id(place.definition) in kept and place not in seen}
        print("\n".join(sorted(f"{place.path}: {place.name()}" for place in found)))
        return 0
    if words:
        print(__doc__, file=sys.stderr)
        return 2
    found = list(problems(tree, counts))
    print("\n".join(f"reading: {line}" for line in found) or f"reading: {', '.join(f'{count} {what}' for what, count in counts.items())}")
    return 1 if found else 0


if __name__ == "__main__":
    sys.exit(main(sys.argv[1:]))
