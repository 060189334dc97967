"""What is handed in is written or read as what it is. (What is refused is in test_hostile.py.)"""

import math
import unittest

from line_protocol import (
    Builder, FloatText, Line, Unsigned, base, columns, is_admitted, parse, part_ends, rebuild, show, split, verdicts, write, write_columns,
    write_many)

from shared import build, copies_of, typed
from test_hostile import Level, Number


class Shown(float):
    def __repr__(self):
        return "a number"


class Texts(unittest.TestCase):
    def test_changes_after_the_call_are_not_read(self):
        data = bytearray(b"m f=1i")
        items = parse(data)
        data[:] = b"n g=2i"
        self.assertEqual(list(items), [Line("m", [], [("f", 1)])])


class Dialects(unittest.TestCase):
    LINE = Line("m", [], [("f", 1)])

    # Each call, and what it gives of a text that each dialect cuts in another way; of those that write, of a line.
    TEXT = '# a="\nm f=1i,s="\nn f=1i"\n'
    CALLS = {
        "parse": lambda **words: [*parse(Dialects.TEXT, **words)], "split": lambda **words: [*split(Dialects.TEXT, **words)],
        "columns": lambda **words: repr(columns(Dialects.TEXT, use_numpy=False, **words)),
        "rebuild": lambda **words: rebuild(Dialects.TEXT, **words), "verdicts": lambda **words: verdicts(Dialects.TEXT, **words),
        "part_ends": lambda **words: part_ends(__file__, 2, **words),
        "write": lambda **words: write(Dialects.LINE, **words), "write_many": lambda **words: write_many([Dialects.LINE], **words),
        "write_columns": lambda **words: write_columns(columns("m f=1i", use_numpy=False), **words),
        "is_admitted": lambda **words: is_admitted(Dialects.LINE, **words),
        "Builder": lambda **words: Builder(**words).measurement("m").field("f", 1).close_line().build(),
    }

    def test_each_call_takes_either_word(self):
        for name, call in self.CALLS.items():
            with self.subTest(call=name):
                by_crate, by_strict, by_line = call(), call(strict=True), call(dialect="newline-delimited")
                self.assertEqual([call(strict=None, dialect=None), call(strict=False), call(dialect="crate")], 3 * [by_crate])
                self.assertEqual(call(dialect="strict"), by_strict)
                if name in ("parse", "split", "rebuild", "verdicts"):
                    self.assertNotEqual(by_crate, by_strict)
                    self.assertNotEqual(by_strict, by_line)

    def test_what_is_no_dialect(self):
        for name, call in self.CALLS.items():
            for words, error, said in (
                    ({"strict": False, "dialect": "crate"}, TypeError, "strict and dialect are not both given"),
                    ({"strict": True, "dialect": "strict"}, TypeError, "strict and dialect are not both given"),
                    ({"dialect": "Strict"}, ValueError, "a dialect is one of 'crate', 'strict', 'newline-delimited', not 'Strict'"),
                    ({"dialect": ""}, ValueError, "not ''"), ({"dialect": 1}, TypeError, "a dialect is a str, not int: 1"),
                    ({"dialect": True}, TypeError, "a dialect is a str"), ({"dialect": ["crate"]}, TypeError, "a dialect is a str")):
                with self.subTest(call=name, words=words), self.assertRaisesRegex(error, said):
                    call(**words)


class Timestamps(unittest.TestCase):
    WRITTEN = {0: " 0", -5: " -5", 2**63 - 1: " 9223372036854775807", -(2**63): " -9223372036854775808", Level.HIGH: " 3"}

    def test_timestamps_that_are_written(self):
        for given, text in [(None, ""), (Number(), " 7"), *self.WRITTEN.items()]:
            line = Line("m", [], [("f", 1)], given)
            with self.subTest(given=given):
                self.assertEqual((write(line), build(line)), (f"m f=1i{text}\n",) * 2)
                self.assertEqual((show(line), is_admitted(line), base(line)), (f"m f=1i{text}", True, "m"))


class Values(unittest.TestCase):
    def test_each_kind_is_written_as_what_it_is(self):
        for value, text in [
            (True, "true"), (False, "false"), (1, "1i"), (0, "0i"), (-0, "0i"), (Unsigned(1), "1u"), (Unsigned(), "0u"), (1.0, "1.0"),
            (0.0, "0.0"), (-0.0, "-0.0"), (2**63 - 1, "9223372036854775807i"), (-(2**63), "-9223372036854775808i"),
            (Unsigned(2**64 - 1), "18446744073709551615u"), (Unsigned(Number()), "7u"), (Level.HIGH, "3i"), (Shown(1.5), "1.5"),
            (Unsigned(1) + 1, "2i"), ("", '""'), ("1", '"1"'), ("true", '"true"'),
        ]:
            line = Line("m", [], [("f", value)])
            with self.subTest(value=value, kind=type(value).__name__):
                self.assertEqual((write(line), build(line)), (f"m f={text}\n",) * 2)

    def test_pairs_may_be_lists(self):
        self.assertEqual(write(Line("m", (["a", "b"],), [["f", 1]])), "m,a=b f=1i\n")


class Floats(unittest.TestCase):
    LONG = "1" * 400
    INFINITE = ("1e400", "-1e400", "1E+400", "0.5e999999999", LONG, f"-{LONG}.5", f"{LONG}e-1")

    def test_what_was_read_is_written_again(self):
        for literal in self.INFINITE:
            for name in ("m", "é"):
                text = f"{name} f={literal}\n"
                [line] = parse(text)
                with self.subTest(literal=literal, name=name):
                    self.assertTrue(isinstance(line.fields[0][1], float) and math.isinf(line.fields[0][1]))
                    self.assertEqual((write(line), build(line)), (text, text))
                    self.assertEqual((show(line), is_admitted(line), base(line)), (text[:-1], True, name))

    def test_finite_floats_are_plain(self):
        for literal, value in [("1", 1.0), ("-0", -0.0), ("0.10", 0.1), ("1.5e3", 1500.0), ("1e-400", 0.0), ("1e308", 1e308)]:
            with self.subTest(literal=literal):
                self.assertEqual([typed(line) for line in parse(f"m f={literal}")], [typed(Line("m", [], [("f", value)]))])

    def test_a_literal_of_the_caller_is_kept(self):
        for literal in self.INFINITE + ("0", "-0", "007", "1.50", "1e5", "1E-5"):
            with self.subTest(literal=literal):
                value = FloatText(literal)
                self.assertEqual((value, value.text, repr(value)), (float(literal), literal, f"FloatText('{literal}')"))
                self.assertEqual(write(Line("m", [], [("f", value)])), f"m f={literal}\n")
                for again in copies_of(value):
                    self.assertEqual((type(again), again.text), (FloatText, literal))
