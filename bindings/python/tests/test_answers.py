"""The rows of checks/tables/answers.tsv, compared with what the package gives for their texts, in each dialect. The head
of that table says how a row is spelled, and what each kind asks."""

import re
import unittest
from collections import Counter
from pathlib import Path
from typing import get_args

from line_protocol import Dialect, DuplicateTag, FaultKind, FloatText, Line, Side, Unsigned, base, key, parse, rebuild, show, split

TABLE = Path(__file__).parents[3] / "checks" / "tables" / "answers.tsv"
ESCAPES = {"n": "\n", "t": "\t", "r": "\r", "0": "\0", "\\": "\\"}

FAULTS = {
    FaultKind.MEASUREMENT_VALUE_INVALID: "MeasurementValueInvalid",
    FaultKind.FIELD_SET_MISSING: "FieldSetMissing",
    FaultKind.INTEGER_VALUE_INVALID: "IntegerValueInvalid",
    FaultKind.UINTEGER_VALUE_INVALID: "UIntegerValueInvalid",
    FaultKind.TIMESTAMP_VALUE_INVALID: "TimestampValueInvalid",
    FaultKind.ENDS_WITH_BACKSLASH: "EndsWithBackslash",
    FaultKind.CANNOT_PARSE_ENTIRE_LINE: "rest",
    FaultKind.TAG_SET_MALFORMED: "TagSetMalformed",
    FaultKind.GENERIC_PARSING_ERROR: "TakeWhile1",
}

ANEW = {"\\,,k=v f=1i": "B<,,k=v>"}
"""Texts with a name that is one escape alone: its base differs, since a line in Python keeps no spelling."""


def text_of(cell):
    return re.sub(r"\\(.?)", lambda found: ESCAPES[found[1]], cell)


def rendered_value(value):
    if isinstance(value, str):
        return f"S<{value}>"
    if isinstance(value, float):
        return f"f<{float(value)}>"
    return str(value).lower() if isinstance(value, bool) else f"{value}u" if isinstance(value, Unsigned) else f"{value}i"


def rendered(item):
    if isinstance(item, Line):
        tags = "".join(f",S<{key}>=S<{value}>" for key, value in item.tags)
        fields = "".join(f" S<{key}>={rendered_value(value)}" for key, value in item.fields)
        return f"S<{item.measurement}>{tags}{fields}" + ("" if item.timestamp is None else f" at {item.timestamp}")
    side = "" if item.side == Side.NEITHER else f" {item.side.name.title()}"
    return FAULTS[item.kind] + side + (f" <{item.text}>" if item.text else "")


def items(text, dialect):
    return "|".join(map(rendered, parse(text, dialect=dialect)))


def pieces(text, dialect):
    return "".join(f"<{piece}>" for piece in split(text, dialect=dialect))


def base_of_first(text, dialect):
    try:
        return f"<{base(next(parse(text, dialect=dialect)))}>"
    except DuplicateTag as repeated:
        return f'Must not contain duplicate tags, but "{repeated}" was repeated'


def key_of_first(text, dialect):
    return key(next(parse(text, dialect=dialect)))


def shown(text, dialect):
    return show(next(parse(text, dialect=dialect)))


def rebuilt(text, dialect):
    told = rebuild(text, dialect=dialect)
    return f"{told.carried} of {told.carried + told.refused} <{told.batch}>"


def run(text, dialect):
    told = rebuild(text, dialect=dialect)
    return f"{int(told.refused > 0)} <{told.batch}> <{told.faults}>"


def is_float(text, dialect):
    try:
        return str(FloatText(text) is not None).lower()
    except ValueError:
        return "false"


def as_str_and_float(answer):
    """What Python keeps of items: a `str` does not say whether it is a copy, and a `float` not how it was spelled."""
    return re.sub(r"(?<==f<)[^>]*", lambda found: str(float(found[0])), answer.replace("C<", "S<"))


CALLS = {
    "items": items, "pieces": pieces, "base": base_of_first, "key": key_of_first, "shown": shown, "rebuilt": rebuilt, "run": run, "float": is_float}
PASSED_OVER = ["rests_of_pieces", "rests_of_items", "series", "columns", "fault", "as_written"]
"""Kinds of rows that no call answers."""


class Answers(unittest.TestCase):
    def compare(self, kind, text, wanted, dialect):
        if kind == "items":
            wanted = as_str_and_float(wanted)
        if kind == "base":
            wanted = re.sub("^[BO]<", "<", ANEW.get(text, wanted))
        with self.subTest(kind=kind, text=text, dialect=dialect):
            self.assertEqual(CALLS[kind](text, dialect), wanted)

    def test_each_row(self):
        table = TABLE.read_text(encoding="utf-8")
        rows, given = Counter(), Counter()
        for line in table.split("\n"):
            if not line or line.startswith("#"):
                continue
            kind, *cells = line.split("\t")
            self.assertTrue((kind in CALLS or kind in PASSED_OVER) and len(cells) in (2, 3, 4), line)
            rows[kind] += 1
            if kind in CALLS:
                text, *answers = map(text_of, cells)
                for dialect, wanted in zip(get_args(Dialect), answers):
                    self.compare(kind, text, wanted, dialect)
                    given[dialect] += 1
        counts = {kind: table.count(f"\n{kind}\t") for kind in [*CALLS, *PASSED_OVER]}
        self.assertEqual(rows, counts)
        for cells, dialect in enumerate(get_args(Dialect), 2):
            self.assertEqual(given[dialect], len(re.findall(rf"^(?:{'|'.join(CALLS)})(?:\t[^\t\n]*){{{cells},}}$", table, flags=re.M)))
        compared, passed_over = (", ".join(f"{counts[kind]} {kind}" for kind in kinds) for kinds in (CALLS, PASSED_OVER))
        others = " and ".join(f"{given[dialect]} {dialect}" for dialect in get_args(Dialect)[1:])
        print(f"answers.tsv: compared {compared}, of which {others} ones too; passed over {passed_over}")
