#!/usr/bin/env python3
"""What writers of line protocol in Python make of names and values that are not as usual, beside the table of docs/INTEROP.md.

    checks/writers.py            compares the table with what the writers that can be imported write; status 1 if they differ
    checks/writers.py --write    writes the table, of those that can be imported

The writers are influxdb and aioinflux, as Debian has them (python3-influxdb, python3-aioinflux), and line_protocol, the package of
bindings/python. checks/interop.sh calls it.
"""

import re
import sys
import warnings
from pathlib import Path

PAGE = Path(__file__).resolve().parent.parent / "docs" / "INTEROP.md"
MARK, END = "<!-- what checks/writers.py measured -->\n", "<!-- the end of the writers -->\n"
# A measurement, tags, fields and what is so of them.
POINTS = [
    ("login", {"user": "guest\npayments"}, {"ok": True}, "the tag `user` is `guest⏎payments`"),
    ("m", {}, {"s": "a\no b=7 5\nb"}, "the string `s` is `a⏎o b=7 5⏎b`"),
    ("#m", {}, {"f": 1}, "the measurement is `#m`"),
    ("m", {"t": "a\\"}, {"f": 1}, "the tag `t` is `a\\`"),
    ("m", {"t": ""}, {"f": 1}, "the tag `t` is empty"),
    ("m", {}, {"f": float("nan")}, "the field `f` is not a number"),
]
TIME = 5


def by_influxdb():
    """influxdb, and its version."""
    import influxdb
    from influxdb.line_protocol import make_lines
    return influxdb.__version__, lambda *point: make_lines({"points": [dict(zip(("measurement", "tags", "fields"), point), time=TIME)]})


def by_aioinflux():
    """aioinflux, and its version."""
    import aioinflux
    from aioinflux.serialization.mapping import serialize
    return aioinflux.__version__, lambda *point: serialize(dict(zip(("measurement", "tags", "fields"), point), time=TIME)).decode()


def by_package():
    """The package of this repository, and its version."""
    import line_protocol
    return line_protocol.__version__, lambda *point: line_protocol.write(line_protocol.Line(*point, TIME))


WRITERS = {"influxdb": by_influxdb, "aioinflux": by_aioinflux, "line_protocol": by_package}


def answer(write, point):
    """What a writer writes of a point, or raises, as a cell."""
    try:
        text = write(*point).removesuffix("\n")
    except Exception as raised:  # whatever it is, that is what the writer does
        return f"raises `{type(raised).__name__}`"
    return f"`{text}`".replace("\n", "⏎")


def known():
    """The writers that can be imported, by their names: their versions, and what writes a point."""
    found = {}
    for name, made in WRITERS.items():
        try:
            found[name] = made()
        except ImportError:
            print(f"left out: {name} of docs/INTEROP.md: Python cannot import it, for checks/writers.py")
    return found


def table():
    """The rows of the table on the page, without its head."""
    rows = PAGE.read_text("utf-8").partition(MARK)[2].partition(END)[0].splitlines()
    return [row.strip("| ").split(" | ") for row in rows if row.startswith("|")]


def main(words):
    if words not in ([], ["--write"]):
        print(__doc__, file=sys.stderr)
        return 2
    warnings.simplefilter("ignore")
    found = known()
    heads = ["a point, where", *(f"`{name}` {version} writes" for name, (version, _) in found.items())]
    rows = [[what, *(answer(write, point) for _, write in found.values())] for *point, what in POINTS]
    if words:
        lines = [f"| {' | '.join(row)} |" for row in (heads, ["---"] * len(heads), *rows)]
        lines[1] = lines[1].replace(" ", "")
        text = re.sub(MARK + ".*?" + END, lambda _: "\n".join([MARK.strip(), *lines, END]), PAGE.read_text("utf-8"), flags=re.S)
        PAGE.write_text(text, encoding="utf-8")
        print("writers: docs/INTEROP.md is written")
        return 0
    if not found:
        return 0
    page = table()
    columns = [0, *(next(at for at, head in enumerate(page[0]) if f"`{name}`" in head) for name in found)]
    there = [[row[at] for at in columns] for row in (page[0], *page[2:])]
    differ = [f"the page has {old}, and the writers give {new}" for old, new in zip(there, [heads, *rows]) if old != new]
    if len(there) != len(rows) + 1:
        differ.append(f"the page has {len(there) - 1} points, and there are {len(rows)}")
    print("\n".join(f"writers: {line}" for line in differ) or f"writers: {', '.join(found)} write {len(rows)} points as docs/INTEROP.md says")
    return 1 if differ else 0


if __name__ == "__main__":
    sys.exit(main(sys.argv[1:]))
