"""What docs/python.md says is refused: for each call and each argument, values of wrong types, and what is raised for them. The message
names the argument and its value."""

import array
import datetime
import enum
import io
import math
import re
import unittest
from decimal import Decimal
from fractions import Fraction
from pathlib import Path

from line_protocol import (
    Builder, Column, DuplicateTag, FloatText, Line, Table, Unsigned, base, broken_clauses, columns, is_admitted, is_base_safe, key, parse,
    part_ends, rebuild, show, split, verdicts, write, write_columns, write_many)
from line_protocol.items import short

from shared import begin, build


class Strange:
    """An object of no kind that a call takes."""

    def __repr__(self):
        return "strange"


class Silent:
    """An object that cannot be shown."""

    def __repr__(self):
        raise RuntimeError("no repr")


class Level(enum.IntEnum):
    HIGH = 3


class Number:
    """No int, but a number that Python takes for a whole one."""

    def __index__(self):
        return 7


class Lying:
    """An object whose every conversion fails."""

    def __index__(self):
        raise RuntimeError("no index")

    def __float__(self):
        raise RuntimeError("no float")

    def __repr__(self):
        return "lying"


NO_STR = [
    None, 0, 5, 10**5000, True, 1.5, 1j, b"n", bytearray(b"n"), memoryview(b"n"), ["n"], ("n",), {"n": 1}, {"n"}, Strange(), str,
    Decimal(1), Level.HIGH]
NO_SOURCE = [
    None, 0, 5, True, 1.5, 1j, ["n"], [10**5000], ("n",), {"n": 1}, {"n"}, frozenset("n"), range(3), Strange(), Decimal(1), iter("n"),
    [109, 32], [], {109}, object(), iter("é"), b"m".hex]
NO_PATH = [
    None, 0, 5, True, 1.5, 1j, b"n", bytearray(b"n"), ["n"], ("n",), {"n": 1}, {"n"}, io.BytesIO(b"n"), iter("n"), Strange(), Silent()]
NO_PAIRS = [None, 5, True, 1.5, "ab", b"ab", {("a", "b")}, {"ab"}, {"a": "b"}.items(), iter([("a", "b")]), Strange(), Silent()]
NO_PAIR = [None, 5, "ab", b"ab", {"a": "b"}, {"a", "b"}, (), ("a",), ("a", "b", "c"), [], ["a"], Strange()]
NO_VALUE = [
    None, b"x", bytearray(b"x"), 1j, Decimal(1), Fraction(1, 2), [1], (1,), {1: 2}, {1}, [], (), {}, datetime.datetime(2026, 1, 1),
    Strange(), Silent(), Number(), int]
NO_INT = [
    "5", b"5", "", b"", 0.0, 1.0, 1.5, 1.9, 5.0, math.nan, True, False, 1j, Decimal(5), Fraction(5), [5], (5,), [], (), {}, Strange(),
    datetime.datetime(2026, 1, 1)]
NO_TIME = [*NO_INT[:-1], datetime.date(2026, 1, 1), datetime.time(), datetime.timedelta(5)]
TOO_LARGE = [2**63, -(2**63) - 1, 2**64, 10**30, 10**4000, 10**5000]
NO_LINE = [None, 5, True, 1.5, "m f=1i", b"m f=1i", ["m"], ("m", [], [("f", 1)], None), {"measurement": "m"}, Strange(), Silent()]

WHOLE_CALLS = [write, show, is_admitted, lambda line: write_many([line])]
LINE_CALLS = [*WHOLE_CALLS, begin]
SERIES_CALLS = [base, key, is_base_safe]
FIELDS = [("f", 1)]


def told(value):
    return re.escape(f"{type(value).__name__}: {short(value)}")


def itself(value):
    return value


def with_field(value):
    return Line("m", [], [("f", value)])


def all_items(parts):
    return list(parse(parts))


def parse_within(limit):
    return parse("m f=1i", max_line=limit)


def columns_within(limit):
    return columns("m f=1i", max_line=limit)


ONE = Column([1])


def table_of(time=ONE, tags=None, fields=None):
    return {"m": Table(time, {} if tags is None else tags, {"f": ONE} if fields is None else fields)}


def ends_of(path):
    return part_ends(path, 2)


def ends_of_parts(parts):
    return part_ends("nothing", parts)


TEXT_CALLS = [split, rebuild, verdicts, broken_clauses]
BOTH = WHOLE_CALLS + SERIES_CALLS
TABLES = [write_columns]
NO_TABLES = [None, 5, True, 1.5, "m", b"m", [], ["m"], (("m", Table(ONE)),), {"m"}, Table(ONE), ONE, Strange(), Silent()]
NO_TABLE = [None, 5, "m", [], {}, {"f": [1]}, (ONE, {}, {"f": ONE}), ONE, Strange(), Silent()]
NO_COLUMNS = [5, True, "f", b"f", [], [("f", ONE)], ("f",), {"f"}, ONE, Table(ONE), Strange()]
NO_COLUMN = [None, 5, "a", b"a", [1], (1,), array.array("q", [1]), {0: 1}, range(1), Table(ONE), Strange(), Silent()]
NO_NAME = [None, 5, 1.5, b"m", ("m",), Strange()]
NO_VALUES = [None, 5, True, 1.5, "a", b"a", bytearray(b"a"), memoryview(b"a"), {0: 1}, {1}, range(1), iter([1]), ONE, Strange(), Silent()]
NO_MASK = [
    5, True, "a", b"\0", bytearray(1), {False}, [1], [None], ["x"], (0,), iter([False]), range(1), array.array("b", [0]), ONE, Strange()]
NO_LITERAL = ["", "x", "1.", ".5", "1e", "+1", "1_0", "inf", "-inf", "nan", "0x1", " 1", "1\n", "1i", "١", "--1"]

# What is handed in, how, to which calls, what they raise, and what they say.
TABLE = [
    (NO_SOURCE, itself, [parse, columns], TypeError, "a source is a str, bytes, a path .* not {told}"),
    (NO_SOURCE, itself, TEXT_CALLS, TypeError, "a text is a str or bytes, not {told}"),
    ([b"\xff", b"m f=1i\n\xff"], itself, [parse, columns, split, rebuild], UnicodeDecodeError, "utf-8"),
    (["m f=1i\n\ud800"], itself, [parse, *TEXT_CALLS], UnicodeEncodeError, "surrogates not allowed"),
    (NO_STR, lambda value: Line(value, [], FIELDS), [*BOTH, begin], TypeError, "the measurement is a str, not {told}"),
    (NO_STR, lambda value: Line("m", [(value, "v")], FIELDS), [*BOTH, begin], TypeError, "the key of a tag is a str, not {told}"),
    (NO_STR, lambda value: Line("m", [("k", value)], FIELDS), [*BOTH, begin], TypeError, "the value of the tag 'k' is a str, not {told}"),
    (NO_STR, lambda value: Line("m", [], [(value, 1)]), LINE_CALLS, TypeError, "the key of a field is a str, not {told}"),
    (NO_PAIRS, lambda value: Line("m", value, FIELDS), BOTH, TypeError, "the tags are a list of pairs or a dict, not {told}"),
    (NO_PAIRS, lambda value: Line("m", [], value), WHOLE_CALLS, TypeError, "the fields are a list of pairs or a dict, not {told}"),
    (NO_PAIR, lambda value: Line("m", [value], FIELDS), BOTH, TypeError, "each of the tags is a pair, not {told}"),
    (NO_PAIR, lambda value: Line("m", [], [value]), WHOLE_CALLS, TypeError, "each of the fields is a pair, not {told}"),
    (NO_VALUE, with_field, LINE_CALLS, TypeError, "the field 'f': a value is .* not {told}"),
    (TOO_LARGE, with_field, LINE_CALLS, OverflowError, "the field 'f': .* is not at least"),
    ([2**20_000], with_field, LINE_CALLS, OverflowError, "the field 'f': an integer of 20001 bits"),
    ([-1, 2**64, 10**5000], lambda value: with_field(Unsigned(value)), LINE_CALLS, OverflowError, "the field 'f': .* is not at least 0"),
    ([math.inf, -math.inf, math.nan], with_field, LINE_CALLS, ValueError, "the field 'f': {value} has no literal"),
    (NO_TIME, lambda value: Line("m", [], FIELDS, value), LINE_CALLS, TypeError, "a timestamp is an int or a datetime, not {told}"),
    (TOO_LARGE, lambda value: Line("m", [], FIELDS, value), LINE_CALLS, OverflowError, "the timestamp: .* is not at least"),
    (NO_LINE, itself, BOTH, TypeError, "a line is a Line, not {told}"),
    (["m", "a b"], Line, [*WHOLE_CALLS, build], ValueError, "the line of the measurement '{value}' has no field"),
    ([None, 5, 1.5, Strange(), Line("m")], itself, [write_many], TypeError, "lines are an iterable of Line, not {type}"),
    (["ab", b"ab", {"a": 1}, [1]], itself, [write_many], TypeError, "line 1: a line is a Line, not"),
    (NO_INT, itself, [parse_within, columns_within], TypeError, "max_line is an int or None, not {told}"),
    ([-1, -(10**30)], itself, [parse_within, columns_within], ValueError, "max_line is {value}"),
    (NO_PATH, itself, [ends_of], TypeError, "a path is a str or a path of pathlib, not {told}"),
    ([None, *NO_INT], itself, [ends_of_parts], TypeError, "parts is an int, not {told}"),
    ([-1, 1_000_001, 10**30, 10**5000], itself, [ends_of_parts], ValueError, "parts is .*, and must be from 0 to 1000000"),
    (["nothing\0", "\0"], itself, [ends_of], ValueError, "null"),
    (["nothing", Path("nothing"), ""], itself, [ends_of], FileNotFoundError, "No such file"),
    ([None, 1.0, 1.9, "7", b"7", True, False, 1j, Decimal(7), Strange()], itself, [Unsigned], TypeError, "integer"),
    ([None, 1.5, 1, b"1", True, Strange()], itself, [FloatText], TypeError, "the literal of a float is a str, not"),
    (NO_LITERAL, itself, [FloatText], ValueError, "no literal of a float"),
    ([5, 1.5, Strange(), ["m"], [b"m"], Line("m")], lambda value: iter([b"m f=1i\n", value]), [all_items, columns], TypeError,
     "a part of a source is a str or bytes, not {told}"),
    ([None], lambda value: iter([b"m f=1i\n", value]), [all_items, columns], BlockingIOError, "has no bytes yet"),
    (NO_TABLES, itself, TABLES, TypeError, "tables are Columns, or a dict of Table, not {told}"),
    (NO_TABLE, lambda value: {"m": value}, TABLES, TypeError, "the table 'm' is a Table, not {told}"),
    (NO_NAME, lambda value: {value: table_of()["m"]}, TABLES, TypeError, "the measurement is a str, not {told}"),
    (NO_COLUMNS, lambda value: table_of(tags=value), TABLES, TypeError, "the table 'm': the tags are a dict of Column, not {told}"),
    (NO_COLUMNS, lambda value: table_of(fields=value), TABLES, TypeError, "the table 'm': the fields are a dict of Column, not {told}"),
    (NO_COLUMN, table_of, TABLES, TypeError, "the table 'm', the times: a column is a Column, not {told}"),
    (NO_COLUMN, lambda value: table_of(tags={"k": value}), TABLES, TypeError, "the tag 'k': a column is a Column, not {told}"),
    (NO_COLUMN, lambda value: table_of(fields={"f": value}), TABLES, TypeError, "the field 'f': a column is a Column, not {told}"),
    (NO_NAME, lambda value: table_of(tags={value: Column(["v"])}), TABLES, TypeError, "the key of a tag is a str, not {told}"),
    (NO_NAME, lambda value: table_of(fields={value: ONE}), TABLES, TypeError, "the key of a field is a str, not {told}"),
    (NO_VALUES, lambda value: table_of(Column(value)), TABLES, TypeError, "the times: values are an array, a list or a tuple, not {told}"),
    (NO_VALUES, lambda value: table_of(fields={"f": Column(value)}), TABLES, TypeError, "the field 'f': values are .* not {told}"),
    (NO_MASK, lambda value: table_of(fields={"f": Column([1], value)}), TABLES, TypeError, "the field 'f': a mask is .* not {told}"),
    ([[], [1, 2]], lambda value: table_of(fields={"f": Column(value)}), TABLES, ValueError, "the field 'f': there are . values, and the"),
    ([[], [False] * 2], lambda value: table_of(Column([1], value)), TABLES, ValueError, "the times: there are 1 values, and the mask has"),
    ([{}], lambda value: table_of(fields=value), TABLES, ValueError, "the table 'm' has no field"),
    (NO_STR[1:], lambda value: table_of(tags={"k": Column([value])}), TABLES, TypeError,
     "the table 'm', row 0: the value of the tag 'k' is a str, not {told}"),
    (NO_VALUE[1:], lambda value: table_of(Column([1] * 2), fields={"f": Column([1, value])}), TABLES, TypeError,
     "the table 'm', row 1: the field 'f': a value is .* not {told}"),
    (TOO_LARGE, lambda value: table_of(fields={"f": Column([value])}), TABLES, OverflowError,
     "the table 'm', row 0: the field 'f': .* is not at least"),
    ([math.inf, -math.inf, math.nan], lambda value: table_of(fields={"f": Column([value])}), TABLES, ValueError,
     "the table 'm', row 0: the field 'f': {value} has no literal"),
    ([math.inf, -math.inf, math.nan], lambda value: table_of(fields={"f": Column(array.array("d", [value]))}), TABLES, ValueError,
     "the table 'm', row 0: the field 'f': {value} has no literal"),
    (NO_TIME, lambda value: table_of(Column([value])), TABLES, TypeError,
     "the table 'm', row 0: a timestamp is an int or a datetime, not {told}"),
    (TOO_LARGE, lambda value: table_of(Column([value])), TABLES, OverflowError, "the table 'm', row 0: the timestamp: .* is not at least"),
]


class Refused(unittest.TestCase):
    def refuse(self, call, given, raised, why, value):
        said = why.format(told=told(value), type=type(value).__name__, value=re.escape(str(value)) if "{value}" in why else "")
        with self.assertRaisesRegex(raised, said) as found:
            call(given)
        self.assertIs(type(found.exception), raised)

    def test_each_row(self):
        for values, make, calls, raised, why in TABLE:
            for value in values:
                for call in calls:
                    with self.subTest(value=short(value), call=call, why=why):
                        self.refuse(call, make(value), raised, why, value)

    def test_wrong_arguments(self):
        for call, given, named in [
            (parse, (), {}), (parse, ("m", True), {}), (parse, ("m",), {"loose": True}), (split, (), {}), (split, ("m", True), {}),
            (rebuild, (), {}), (rebuild, ("m", True), {}), (write, (), {}), (write, (Line("m"), 5), {}), (write_many, (), {}),
            (write_many, ([], True), {}), (write_many, ([],), {"loose": True}), (Builder, (True,), {}), (Builder, (), {"loose": True}),
            (show, (), {}), (base, (), {}), (key, (), {}), (key, (Line("m"), 5), {}), (is_base_safe, (), {}), (is_admitted, (), {}),
            (columns, (), {}), (columns, ("m", True), {}),
            (write_columns, (), {}), (write_columns, ({}, 5), {}), (Table, (), {}), (Column, (), {}),
            (part_ends, (), {}), (part_ends, ("m",), {}), (part_ends, ("m", 2, True), {}), (part_ends, ("m", 2), {"loose": True}),
            (Line, (), {}), (Line, ("m", [], [], None, 5), {}), (Unsigned, (1, 2), {}), (FloatText, (), {}),
        ]:
            with self.subTest(call=call, given=given, named=named), self.assertRaises(TypeError):
                call(*given, **named)

    def test_what_conversions_raise_comes_through(self):
        for call in LINE_CALLS:
            with self.subTest(call=call), self.assertRaisesRegex(RuntimeError, "no index"):
                call(Line("m", [], FIELDS, Lying()))
        with self.assertRaisesRegex(RuntimeError, "no index"):
            parse("m f=1i", max_line=Lying())
        with self.assertRaisesRegex(RuntimeError, "no index"):
            part_ends("nothing", Lying())
        with self.assertRaisesRegex(TypeError, "a value is .* not Lying: lying"):
            write(Line("m", [], [("f", Lying())]))

    def test_repeated_keys(self):
        with self.assertRaisesRegex(DuplicateTag, "^k$"):
            base(Line("m", [("k", "1"), ("k", "2")]))

    def test_surrogates(self):
        for text in ("\ud800", "a\ud800"):
            for line in (Line(text, [], FIELDS), Line("m", [(text, "v")], FIELDS), Line("m", [("k", text)], FIELDS),
                         Line("m", [], [(text, 1)]), with_field(text)):
                for call in LINE_CALLS:
                    with self.subTest(line=line, call=call), self.assertRaises(UnicodeEncodeError):
                        call(line)
        for tables in ({"\ud800": table_of()["m"]}, table_of(tags={"\ud800": Column(["v"])}), table_of(tags={"k": Column(["\ud800"])}),
                       table_of(fields={"\ud800": ONE}), table_of(fields={"f": Column(["\ud800"])})):
            with self.subTest(tables=tables), self.assertRaises(UnicodeEncodeError):
                write_columns(tables)

    def test_buffers_of_any_kind(self):
        """What lends bytes is read as its bytes, whatever its elements and strides are."""
        text = b"m f=1i\n" * 8
        for lent in (array.array("I", text), memoryview(text).cast("B", (8, 7)), memoryview(bytes(reversed(text)))[::-1]):
            self.assertEqual(len(list(parse(lent))), 8)
            self.assertEqual(rebuild(lent).carried, 8)
        self.assertEqual(list(parse(memoryview(b"xm f=1i\n")[1:])), [Line("m", [], [("f", 1)])])
        released = memoryview(b"m f=1i")
        released.release()
        for call in (parse, split, rebuild):
            with self.assertRaises(ValueError):
                call(released)
        closed = io.BytesIO(b"m f=1i")
        closed.close()
        with self.assertRaises(ValueError):
            list(parse(closed))
