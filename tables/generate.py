#!/usr/bin/env python3
"""Writes the stretches of other files that are made from the tables of this folder, or compares them.

    tables/generate.py            compares each stretch with its table; exit status 1 if a file differs
    tables/generate.py --write    writes each stretch that differs
    tables/generate.py --examples prints the examples of the options, which checks/readme.sh runs
    tables/generate.py --pages FOLDER writes the man pages into a folder: in man/ their stretches are empty

Each kind of fact has a table and a module: the module's `places()` returns the stretches that are made from the table, and its
`problems()` returns what is wrong with files that are written by hand, in words.
"""

import sys
from pathlib import Path

import clause_table
import facts
import fault_table
import messages
import options
import pages
from records import TOP, Fault, read

MODULES = [clause_table, facts, fault_table, options, pages, messages]


def first_difference(path, old, new):
    """The place of the first line that differs, in words."""
    old, new = old.split("\n"), new.split("\n")
    number = next((n for n, (a, b) in enumerate(zip(old, new)) if a != b), min(len(old), len(new)) - 1)
    return f"{path}:{number + 1} is\n    {old[number]}\nand should be\n    {new[number]}"


def places():
    """Each stretch that is made from a table."""
    return [place for module in MODULES for place in module.places()]


def filled_files(stretches):
    """The path of each file that has one of these stretches, and its text with them."""
    texts = {}
    for place in stretches:
        texts[place.path] = place.filled(texts.get(place.path) or read(place.path))
    return texts


def is_page(place):
    return place.path.startswith("man/")


def changed_files():
    """The path of each file that differs from its tables, with the text that it has and the text that it should have."""
    texts = filled_files(place._replace(lines=[]) if is_page(place) else place for place in places())
    return [(path, read(path), text) for path, text in texts.items() if text != read(path)]


def write_pages(folder):
    """Writes the man pages into a folder."""
    texts = filled_files(place for place in places() if is_page(place))
    folder.mkdir(parents=True, exist_ok=True)
    for path in sorted((TOP / "man").iterdir()):
        (folder / path.name).write_text(texts.get(f"man/{path.name}") or path.read_text(encoding="utf-8"), encoding="utf-8")


def main(words):
    if words == ["--examples"]:
        print("\n".join(line for example in pages.examples() for line in example))
        return 0
    if words[:1] == ["--pages"] and len(words) == 2:
        write_pages(Path(words[1]))
        return 0
    if words not in ([], ["--write"]):
        print(__doc__, file=sys.stderr)
        return 2
    try:
        if words:
            messages.bring()
        changed = changed_files()
        while words and changed:  # what is written may be counted elsewhere
            for path, _, text in changed:
                (TOP / path).write_text(text, encoding="utf-8")
            changed = changed_files()
        found = [] if words else [first_difference(*change) for change in changed]
        found += ["run tables/generate.py --write"] if found else []
        found += [problem for module in MODULES for problem in module.problems()]
    except Fault as fault:
        found = [str(fault)]
    print("\n".join(f"tables: {line}" for line in found) or "tables: each copy is as its table has it")
    return 1 if found else 0


if __name__ == "__main__":
    sys.exit(main(sys.argv[1:]))
