#!/usr/bin/env python3
"""Lines made by the grammar at the head of docs/FORMAT.md, and mutants of them, beside what lp_relay reads.

    checks/grammar.py RELAY [COUNT [SEED]]    relays COUNT lines, 5,000 if it is not given, and three mutants of each

The grammar is read off the page. A generator made of it gives lines, each of which must be carried. A mutant differs in up to three
characters, and is carried exactly if a pattern made of the grammar matches it; else it is refused, or is blank and gives nothing. The
pieces that are carried must be the output of `lp_relay --newline-delimited --verbatim`, and those that are refused the file of
`--refused`. Numbers at and past the ends of their ranges are tried apart. Status 1: something else comes.
"""

import random
import re
from pathlib import Path

import relay_runs

PAGE = Path(__file__).resolve().parent.parent / "docs" / "FORMAT.md"
WORD = re.compile(r"\s*(\"[^\"]*\"|'[^']*'|[\w-]+(?<!-)|[-{}\[\]()|])")
# Characters that mean something, and some that do not.
LETTERS = list(" \t\0,=\\\"#-+.eEiutTfF0123456789abmx\r\x7fé→😀")
GIVEN = {"any": (False, "\n"), "space": (True, " "), "tab": (True, "\t"), "nul": (True, "\0"), "digit": (True, "0123456789")}


class Grammar:
    """The rules of the page, each as a tree: a text, a name, or a tuple of what it is and its members."""

    def __init__(self, text):
        self.rules = {}
        for line in filter(None, map(str.strip, text.splitlines())):
            name, _, body = line.partition("=")
            self.words = WORD.findall(body) + [None]
            self.rules[name.strip()] = self.choice()
            if self.words != [None]:
                raise SystemExit(f"grammar: what follows in the rule of {name.strip()} is {self.words[:3]}")

    def choice(self):
        """Parts with `|` between them."""
        parts = [self.sequence()]
        while self.words[0] == "|":
            self.words.pop(0)
            parts.append(self.sequence())
        return parts[0] if len(parts) == 1 else ("or", *parts)

    def sequence(self):
        """Parts one after another, of which each may leave out another."""
        parts = []
        while self.words[0] not in (None, "|", ")", "]", "}"):
            part = self.part()
            if self.words[0] == "-":
                self.words.pop(0)
                part = ("but", part, self.part())
            parts.append(part)
        return parts[0] if len(parts) == 1 else ("then", *parts)

    def part(self):
        word = self.words.pop(0)
        if word in ("(", "[", "{"):
            inner = self.choice()
            self.words.pop(0)
            return {"(": inner, "[": ("maybe", inner), "{": ("often", inner)}[word]
        return ("text", word[1:-1]) if word[0] in "\"'" else ("name", word)

    def characters(self, tree):
        """The characters that a tree is, if it is a set of single ones: whether they are named, or all others, and which."""
        kind, *inner = tree
        if kind == "text":
            return (True, inner[0])
        if kind == "name":
            return GIVEN.get(inner[0]) or self.characters(self.rules[inner[0]])
        sets = [self.characters(part) for part in inner]
        if kind == "or":
            return (True, "".join(found for _, found in sets))
        (is_named, first), (_, other) = sets  # `but`
        return (True, "".join(c for c in first if c not in other)) if is_named else (False, first + other)

    def pattern(self, tree):
        """A regular expression of a tree; no rule has itself in it."""
        kind, *inner = tree
        if kind == "text":
            return re.escape(inner[0])
        if kind == "but" or kind == "name" and inner[0] in GIVEN:
            is_named, found = self.characters(tree)
            return f"[{'' if is_named else '^'}{re.escape(found)}]"
        if kind == "name":
            return f"(?:{self.pattern(self.rules[inner[0]])})"
        parts = [self.pattern(part) for part in inner]
        return {"or": f"(?:{'|'.join(parts)})", "then": "".join(parts), "maybe": f"(?:{parts[0]})?", "often": f"(?:{parts[0]})*"}[kind]

    def made(self, tree, rng):
        """A text of a tree."""
        kind, *inner = tree
        if kind == "text":
            return inner[0]
        if kind == "but" or kind == "name" and inner[0] in GIVEN:
            is_named, found = self.characters(tree)
            return rng.choice(found if is_named else [c for c in LETTERS if c not in found])
        if kind == "name":
            return self.made(self.rules[inner[0]], rng)
        if kind == "or":
            return self.made(rng.choice(inner), rng)
        if kind == "then":
            return "".join(self.made(part, rng) for part in inner)
        count = rng.random() < 0.5 if kind == "maybe" else min(int(rng.expovariate(0.8)), 9)
        return "".join(self.made(inner[0], rng) for _ in range(count))


def mutant(line, rng):
    """A text that differs from a line in up to three characters."""
    text = list(line)
    for _ in range(rng.randint(1, 3)):
        at = rng.randrange(len(text) + 1)
        rng.choice([lambda: text.insert(at, rng.choice(LETTERS)), lambda: text[at:at + 1] and text.pop(at),
                    lambda: text.__setitem__(slice(at, at + 1), [rng.choice(LETTERS)]), lambda: text.insert(at, "".join(text[at:at + 2]))])()
    return "".join(text)


def relayed(relay, pieces):
    """The lines that go out of these pieces, and those that are refused."""
    with relay_runs.folder() as folder:
        path = Path(folder, "in")
        path.write_bytes("".join(f"{piece}\n" for piece in pieces).encode())
        out = relay.run(["--newline-delimited", "--verbatim", "--faults", "raw", "--refused", f"{folder}/refused", path]).out
        return [text.decode().split("\n")[:-1] for text in (out, Path(folder, "refused").read_bytes())]


def borders():
    """Lines with numbers at the ends of their ranges, and past them."""
    inside = [f"m f={2**63 - 1}i", f"m f=-{2**63}i", f"m f={2**64 - 1}u", f"m f=1 {2**63 - 1}", f"m f=1 -{2**63}", "m f=" + "9" * 400]
    outside = [f"m f={2**63}i", f"m f=-{2**63 + 1}i", f"m f={2**64}u", f"m f=1 {2**63}", f"m f=1 -{2**63 + 1}"]
    return inside, outside


def compare(relay, count="5000", seed="grammar"):
    rng, count = random.Random(seed), int(count)
    grammar = Grammar(PAGE.read_text(encoding="utf-8").partition("```ebnf\n")[2].partition("```")[0])
    line, blank = (re.compile(grammar.pattern(grammar.rules[name])) for name in ("line", "blank"))
    lines = []
    while len(lines) < count:
        made = grammar.made(grammar.rules["line"], rng)
        if not re.search(r"\d{17}", made):  # past the ends of ranges is tried apart
            lines.append(made)
    mutants = [text for text in (mutant(made, rng) for made in lines for _ in range(3)) if not re.search(r"\d{17}", text)]
    wrong = [f"a line is none by its own pattern: {made!r}" for made in lines if not line.fullmatch(made)]
    inside, outside = borders()
    for pieces, wanted in (
        (lines, lambda piece: True), (mutants, lambda piece: bool(line.fullmatch(piece))),
        (inside, lambda piece: True), (outside, lambda piece: False),
    ):
        carried, refused = relayed(relay, pieces)
        due = [piece for piece in pieces if wanted(piece)]
        rest = [piece for piece in pieces if not wanted(piece) and not blank.fullmatch(piece)]
        for what, found, asked in ("carried", carried, due), ("refused", refused, rest):
            if found != asked:
                pair = next(((a, b) for a, b in zip(found, asked) if a != b), (found[len(asked):], asked[len(found):]))
                wrong.append(f"{what} is {str(pair[0])!r}, where the grammar has {str(pair[1])!r}")
    if wrong:
        raise relay_runs.Wrong("\n".join(wrong))
    read = sum(map(bool, map(line.fullmatch, mutants)))
    return (f"{len(lines)} lines are read, and of {len(mutants)} mutants the {read} that are lines; {len(inside)} numbers at the ends of their "
            f"ranges are, and {len(outside)} past them are not")


if __name__ == "__main__":
    relay_runs.end_by(compare, __doc__, 2)
