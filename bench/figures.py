#!/usr/bin/env python3
"""The bench's figures: joins the rows of two drivers, and reads what was joined.

    bench/figures.py OWN BESIDE OUT [NOTE..]

OWN and BESIDE hold rows `call TAB file TAB MB/s TAB answer`, of any number of rounds; the best round
of each call and file counts. OUT gets a line `# NOTE` for each NOTE, and then rows
`corpus TAB call TAB own TAB beside`, where the last is empty if BESIDE has no such row.
"""

import sys
from pathlib import Path
from typing import NamedTuple

CALLS = {
    "parse": "parse",
    "next_into": "next_into",
    "events": "events, to a sink",
    "pull": "events, one by one",
    "numbers": "parse, in numbers",
    "bases": "parse, and bases",
    "split": "split",
    "rebuild": "rebuild",
}
"""The calls over a corpus, and what they are called where figures are shown."""

CALLERS = {
    "lp_lines_next": "C, `lp_lines_next`",
    "lp_lines_block": "C, `lp_lines_block`",
    "lp_offsets_block": "C, `lp_offsets_block`",
    "lp_cuts_next": "C, `lp_cuts_next`",
    "lp_rebuild": "C, `lp_rebuild`",
    "lp_line_write": "C, `lp_line_write`",
    "lp_offsets_write": "C, `lp_offsets_write`",
    "rust parse": "Rust, `parse_lines`",
    "rust bases": "Rust, `parse_lines`, and bases",
    "rust rebuild": "Rust, read and built",
}
"""The calls from C and Rust, in the same way."""

PYTHON = {
    "python parse": "`parse`",
    "python columns": "`columns`",
    "python to_frame": "`to_frame`",
    "python rebuild": "`rebuild`",
    "python write_many": "`write_many`",
    "python write_columns": "`write_columns`",
    "python influxdb": "`influxdb`, `make_lines`",
    "python aioinflux": "`aioinflux`, `serialize`",
}
"""The calls from Python, of this package and of two others, in the same way."""

STREAMS = {
    "stream": "`LineStream`",
    "stream bytes": "`LineStream`, byte by byte",
    "relay": "`relay`",
    "relay bytes": "`relay`, byte by byte",
}
"""The calls over a text that comes in parts, in the same way."""

BESIDE = {
    "numbers": "parse",
    "next_into": "parse",
    "events": "parse",
    "pull": "parse",
    "lp_lines_next": "library parse",
    "lp_lines_block": "library parse",
    "lp_offsets_block": "library parse",
    "lp_cuts_next": "library split",
    "lp_rebuild": "library rebuild",
    "stream": "library split",
    "stream bytes": "library split",
    "relay": "library rebuild",
    "relay bytes": "library rebuild",
    "relay newline-delimited": "library rebuild newline-delimited",
    "rust parse": "crate parse",
    "rust bases": "crate bases",
    "rust split": "crate split",
    "rust rebuild": "crate rebuild",
    "rust build": "crate build",
    "python write_many": "aioinflux",
    "python write_columns": "aioinflux",
}
"""The call that a call is compared with, where its name is another."""

SAME_ANSWERS = ("numbers", "bases", "split", "build", *(call for call in BESIDE if BESIDE[call].startswith(("library ", "crate "))))
"""The calls whose answer is also that of the call that they are compared with."""

SAME_AS_PARSE = ("next_into", "events", "pull")
"""The calls whose answer is that of the library's own `parse`."""


class Figure(NamedTuple):
    """How fast a call is on a corpus, in MB/s."""

    corpus: str
    call: str
    speed: float
    beside: float | None

    @property
    def times(self) -> float | None:
        """How many times the speed of the call beside it that is."""
        return None if self.beside is None else self.speed / self.beside


class Row(NamedTuple):
    """What a driver gave for a call and a file."""

    speed: float
    answer: str


def best(path: Path) -> dict[tuple[str, str], Row]:
    """The best round of each file and call."""
    rows: dict[tuple[str, str], Row] = {}
    for line in path.read_text().splitlines():
        call, file, speed, answer = line.split("\t")
        key = (file.removesuffix(".lp"), call)
        if key not in rows or float(speed) > rows[key].speed:
            rows[key] = Row(float(speed), answer)
    return rows


def joined(own: dict[tuple[str, str], Row], others: dict[tuple[str, str], Row]) -> list[Figure]:
    """The figures of both."""
    figures = []
    for (corpus, call), row in own.items():
        beside = others.get((corpus, BESIDE.get(call, call)))
        figures.append(Figure(corpus, call, row.speed, beside.speed if beside else None))
        if beside and call in SAME_ANSWERS and row.answer != beside.answer:
            print(f"{call} of {corpus}: {row.answer}, but {beside.answer} beside it", file=sys.stderr)
    return figures


def compare_own(own: dict[tuple[str, str], Row]) -> None:
    """Says where calls of the library differ that should give one answer."""
    for (corpus, call), row in own.items():
        wanted = own.get((corpus, "parse"))
        if call in SAME_AS_PARSE and wanted and row.answer != wanted.answer:
            print(f"{call} of {corpus}: {row.answer}, but parse gives {wanted.answer}", file=sys.stderr)


def read(path: Path) -> tuple[list[str], list[Figure]]:
    """The notes and the figures of a file."""
    notes, figures = [], []
    for line in path.read_text().splitlines():
        if line.startswith("# "):
            notes.append(line.removeprefix("# "))
            continue
        corpus, call, speed, beside = line.split("\t")
        figures.append(Figure(corpus, call, float(speed), float(beside) if beside else None))
    return notes, figures


def shown(figure: Figure) -> str:
    """A figure as a line for a terminal."""
    text = f"{figure.corpus:<12} {figure.call:<14} {figure.speed:8.1f} MB/s"
    if figure.times is None:
        return text
    return f"{text}   beside {figure.beside:8.1f} MB/s   {figure.times:6.2f} times"


def main() -> None:
    own_path, beside_path, out = map(Path, sys.argv[1:4])
    own = best(own_path)
    compare_own(own)
    figures = joined(own, best(beside_path))
    with out.open("w") as file:
        file.writelines(f"# {note}\n" for note in sys.argv[4:])
        for figure in figures:
            print(shown(figure))
            other = "" if figure.beside is None else f"{figure.beside:.1f}"
            file.write(f"{figure.corpus}\t{figure.call}\t{figure.speed:.1f}\t{other}\n")


if __name__ == "__main__":
    main()
