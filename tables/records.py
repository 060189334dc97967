"""Reads the tables of this folder, and fills stretches of other files with text that is made from them.

A table is a text file of records. An empty line ends a record, and a line that begins with `#` is a comment. A record has fields, one a
line: a name, a colon and a value. A line that begins with a space continues the value of the field before it. The head of each table
says which fields its records have.
"""

import re
from pathlib import Path
from typing import NamedTuple

TOP = Path(__file__).resolve().parent.parent


class Fault(Exception):
    """What is wrong with a table or with a file that copies it, in words."""


def read(path):
    """The text of a file of the repository."""
    if not (TOP / path).is_file():
        raise Fault(f"there is no file {path}")
    return (TOP / path).read_text(encoding="utf-8")


def record_of(text, path, fields):
    """The fields of one record, each with the lines of its value."""
    lines, field = {}, ""
    for line in text.splitlines():
        if not line.startswith(" "):
            field, colon, line = line.partition(":")
            if not colon or field not in fields or field in lines:
                raise Fault(f"{path}: unknown or repeated field: {field}{colon}{line}")
            lines[field] = []
        lines[field] += [line[1:]] if line else []
    return lines


def records(path, fields):
    """The records of a table, in order, each as a dictionary from the name of a field to the lines of its value."""
    text = re.sub(r"^#.*\n", "", read(path), flags=re.M)
    return [record_of(record, path, fields) for record in re.split(r"\n\n+", text.strip("\n"))]


class Place(NamedTuple):
    """A stretch of a file that is made from a table. It begins after the last of some lines that follow one another, and ends before another
    line. Each of these lines is told by its first characters, or it is empty."""

    path: str
    before: tuple
    after: str
    lines: list

    def filled(self, text):
        """The text of the file with this stretch."""
        lines, at = text.split("\n"), 0
        for mark in (*self.before, self.after):
            start = at
            while at < len(lines) and not (lines[at].startswith(mark) if mark else not lines[at]):
                at += 1
            if at == len(lines):
                raise Fault(f"{self.path}: after line {start} no line begins with: {mark}")
            at += 1
        return "\n".join([*lines[:start], *self.lines, *lines[at - 1:]])
