#!/usr/bin/env python3
"""Writes the tables of figures.tsv, callers.tsv, python.tsv and streams.tsv into README.md, each between its two marks.
bench/run.sh makes these files, and git keeps none. A table whose file is missing stays as it is.

    bench/table.py
"""

import sys
from pathlib import Path

from figures import CALLERS, CALLS, PYTHON, STREAMS, Figure, read

BEGIN = "<!-- The table of {}, as table.py writes it. -->"
END = "<!-- The end of the table. -->"
TABLES = {"figures.tsv": CALLS, "callers.tsv": CALLERS, "python.tsv": PYTHON, "streams.tsv": STREAMS}
"""The files, and the names of the calls in each."""


def cell(figure: Figure | None) -> str:
    """How many times the speed beside it, and the speed."""
    if figure is None:
        return ""
    speed = f"{figure.speed:.1f}" if figure.speed < 30 else f"{figure.speed:.0f}"
    return speed if figure.times is None else f"**{figure.times:.2f}x** {speed}"


def row(cells: list[str]) -> str:
    """A row of a table."""
    return f"| {' | '.join(cells)} |"


def table(notes: list[str], figures: list[Figure], names: dict[str, str]) -> list[str]:
    """The lines of the table of the calls that have names, with the notes above it and the built points after it."""
    by_place = {(figure.corpus, figure.call): figure for figure in figures}
    calls = [call for call in names if any(figure.call == call for figure in figures)]
    corpora = dict.fromkeys(figure.corpus for figure in figures if figure.call in names)
    lines = [*(f"- {note}" for note in notes), "", row(["", *(names[call] for call in calls)])]
    lines.append(row(["---"] * (len(calls) + 1)))
    for corpus in corpora:
        lines.append(row([corpus, *(cell(by_place.get((corpus, call))) for call in calls)]))
    built = next((figure for figure in figures if figure.corpus == "points"), None)
    return [*lines, "", f"{built.call} of points: {cell(built)}"] if built else lines


def with_table(text: str, name: str, lines: list[str]) -> str:
    """A text whose table of this file has these lines."""
    before, begin, rest = text.partition(BEGIN.format(name))
    _, end, after = rest.partition(END)
    if not begin or not end:
        sys.exit(f"the marks of the table of {name} are not there")
    return "\n\n".join([f"{before}{begin}", "\n".join(lines), f"{end}{after}"])


def main() -> None:
    here = Path(__file__).parent
    text = (here / "README.md").read_text()
    for name, calls in TABLES.items():
        if (here / name).is_file():
            text = with_table(text, name, table(*read(here / name), calls))
    (here / "README.md").write_text(text)


if __name__ == "__main__":
    main()
