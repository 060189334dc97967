"""Names that are not admitted: each writer raises NotAdmitted for each of them, and writes nothing. What is admitted is what
docs/FORMAT.md says, section 13."""

import itertools
import unittest
from typing import get_args

from line_protocol import (
    Builder, Column, Dialect, Line, NotAdmitted, Table, Unsigned, columns, is_admitted, parse, rebuild, write, write_columns, write_many)

from shared import build, copies_of, tables_of

DIALECTS = get_args(Dialect)

PARTS = {
    "measurement": ("the measurement", lambda name: Line(name, [("k", "v")], [("f", 1)], 5)),
    "tag key": ("the key of a tag", lambda name: Line("m", [("z", "b"), (name, "v")], [("f", 1)], 5)),
    "tag value": ("the value of the tag 'k'", lambda name: Line("m", [("z", "b"), ("k", name)], [("f", 1)], 5)),
    "field key": ("the key of a field", lambda name: Line("m", [("k", "v")], [("f", 1), (name, 2)], 5)),
}
"""For each part of a line how messages call it, and a line with a name there."""

FLAWS = {
    "": "is empty", "\n": "holds a newline", "guest\npayments": "holds a newline", "a\n": "holds a newline", "a\tb\n": "holds a newline",
    "\t": "holds a tab", "a\tb": "holds a tab", "\\": "ends in a backslash", "a\\": "ends in a backslash",
    "a\\\\": "ends in a backslash", "é\\": "ends in a backslash"}
"""Names that no part may have, and why."""

FLAWS_OF_MEASUREMENTS = {
    "#": "begins with '#'", "#x": "begins with '#'", "# a": "begins with '#'", "\0": "holds a NUL", "a\0b": "holds a NUL"}
"""Those that no measurement may have, but any other part."""

ADMITTED = [
    "a b", " ", ",", "=", "a,b=c", '"', "\\a", "a\\b", "\\\\a", "a#", "\r", "a\r", "\x0b", "\x0c", "\x1f", "\x7f", "\x85", "\u2028",
    "é", "€", "𝄞", "'", "{}", "0"]


def flaw_of(part, name):
    """Why a part may not have a name, or None."""
    return FLAWS.get(name) or (FLAWS_OF_MEASUREMENTS.get(name) if part == "measurement" else None)


WRITERS = {
    "write": write, "write_many": lambda line, **options: write_many([line], **options), "Builder": build,
    "write_columns": lambda line, **options: write_columns(tables_of(line), **options)}


class EachWriter(unittest.TestCase):
    def refuse(self, call, part, name, row=None, table=None):
        """Lets a call be refused, and gives its message, after what says which line it is."""
        with self.assertRaises(NotAdmitted) as found:
            call()
        refused = found.exception
        key = "k" if part.endswith("value") else None
        self.assertEqual((refused.part, refused.key, refused.value, refused.row, refused.table), (part, key, name, row, table))
        return str(refused)

    def test_names_that_are_not_admitted(self):
        for part, (what, make) in PARTS.items():
            for name in [*FLAWS, *FLAWS_OF_MEASUREMENTS]:
                flaw, line = flaw_of(part, name), make(name)
                self.assertEqual(is_admitted(line), flaw is None)
                for dialect, (writer, call) in itertools.product(DIALECTS, WRITERS.items()):
                    with self.subTest(part=part, name=name, writer=writer, dialect=dialect):
                        if flaw is None:
                            self.assertEqual(list(parse(call(line, dialect=dialect), dialect=dialect)), [line])
                            continue
                        place = {"write_many": (0, None), "write_columns": (0, line.measurement)}.get(writer, (None, None))
                        said = self.refuse(lambda: call(line, dialect=dialect), part, name, *place)
                        before = {"write_many": "line 1: ", "write_columns": f"the table {line.measurement!r}, row 0: "}.get(writer, "")
                        self.assertEqual(said, f"{before}{what} is not admitted: {name!r} {flaw}")

    def test_names_that_are_admitted(self):
        for (part, (_, make)), name in itertools.product(PARTS.items(), ADMITTED):
            line = make(name)
            for dialect, (writer, call) in itertools.product(DIALECTS, WRITERS.items()):
                with self.subTest(part=part, name=name, writer=writer, dialect=dialect):
                    self.assertEqual(list(parse(call(line, dialect=dialect), dialect=dialect)), [line])

    def test_strings_of_newline_delimited_lines(self):
        """Each is admitted in the other dialects, and there too if it holds no newline."""
        for string in ["\n", "a\nb", "\\\n", '"\n', "", "\\", '"', "#", "\t", "a\rb", "\u2028"]:
            line = Line("m", [("k", "v")], [("f", 1), ("k", string)], 5)
            for dialect, (writer, call) in itertools.product(DIALECTS, WRITERS.items()):
                with self.subTest(string=string, dialect=dialect, writer=writer):
                    is_refused = dialect == "newline-delimited" and "\n" in string
                    self.assertEqual(is_admitted(line, dialect=dialect), not is_refused)
                    if not is_refused:
                        self.assertEqual(list(parse(call(line, dialect=dialect), dialect=dialect)), [line])
                        continue
                    place = {"write_many": (0, None), "write_columns": (0, "m")}.get(writer, (None, None))
                    said = self.refuse(lambda: call(line, dialect=dialect), "field value", string, *place)
                    self.assertTrue(said.endswith(f"the value of the field 'k' is not admitted: {string!r} holds a newline"), said)

    def test_names_that_the_reader_keeps(self):
        """Names of one length, that begin and end alike, are told apart, and a name `k=v` from a tag with these bytes."""
        names = [f"{'a' * 8}{number % 7:028}{'b' * 8}" for number in range(200)]
        items = list(parse("".join(f"{name} f=1i\n" for name in names) + "k=v,k=v f=1i\n"))
        self.assertTrue([item.measurement for item in items] == [*names, "k=v"])
        self.assertEqual(items[-1].tags, [("k", "v")])

    def test_each_short_name(self):
        """A name is refused exactly if `rebuild` would not write it again, and else reads back."""
        names = ["".join(letters) for size in range(4) for letters in itertools.product("\n\t\\\0# a,=\"", repeat=size)]
        for part, (_, make) in PARTS.items():
            for name in names:
                line = make(name)
                may_be = bool(name) and not {"\n", "\t"} & set(name) and not name.endswith("\\") and not (
                    part == "measurement" and ("\0" in name or name.startswith("#")))
                self.assertEqual(is_admitted(line), may_be, (part, name))
                written = [None] * len(WRITERS)
                for at, call in enumerate(WRITERS.values()):
                    try:
                        written[at] = call(line)
                    except NotAdmitted:
                        pass
                self.assertEqual(written, [written[0]] * len(WRITERS), (part, name))
                self.assertEqual(written[0] is not None, may_be, (part, name))
                if may_be:
                    self.assertEqual((list(parse(written[0])), rebuild(written[0]).batch), ([line], written[0]))

    def test_a_string_may_be_any_text(self):
        for text in [*FLAWS, *FLAWS_OF_MEASUREMENTS, *ADMITTED]:
            line = Line("m", [], [("f", text)], 5)
            for writer, call in WRITERS.items():
                with self.subTest(text=text, writer=writer):
                    self.assertEqual(list(parse(call(line))), [line])

    def test_the_first_name_of_several(self):
        for line, part, value in [
            (Line("#", [("", "")], [("", 1)]), "measurement", "#"), (Line("m", [("", "\n")], [("", 1)]), "tag key", ""),
            (Line("m", [("a", "b"), ("k", "\n")], [("\t", 1)]), "tag value", "\n"),
            (Line("m", [], [("f", "\n"), ("\t", 1)]), "field key", "\t"),
        ]:
            self.refuse(lambda line=line: write(line), part, value)
            self.refuse(lambda line=line: write_many([line]), part, value, 0)

    def test_a_long_name_is_shortened(self):
        with self.assertRaises(NotAdmitted) as found:
            write(Line("m", [("k" * 5000, "v" * 5000 + "\n")], [("f", 1)]))
        self.assertLess(len(str(found.exception)), 140)
        self.assertEqual(found.exception.value, "v" * 5000 + "\n")

    def test_names_of_other_classes(self):
        class Lying(str):
            def __contains__(self, one):
                return False

            def endswith(self, one):
                return False

        for part, (_, make) in PARTS.items():
            for writer, call in WRITERS.items():
                with self.subTest(part=part, writer=writer), self.assertRaises(NotAdmitted):
                    call(make(Lying("guest\npayments")))

    def test_it_is_a_value_error_that_can_be_copied(self):
        with self.assertRaises(ValueError) as found:
            write_columns({"m": Table(Column([1]), {"k": Column(["\t"])}, {"f": Column([1])})})
        refused = found.exception
        for again in copies_of(refused):
            self.assertIs(type(again), NotAdmitted)
            self.assertEqual((str(again), vars(again)), (str(refused), vars(refused)))
        self.assertEqual((refused.part, refused.key, refused.value, refused.row, refused.table), ("tag value", "k", "\t", 0, "m"))


class ManyLines(unittest.TestCase):
    LINES = [Line("m", [("t", f"a{i}")], [("f", i)], i) for i in range(1000)]

    def test_which_line_it_is(self):
        for at in (0, 1, 500, 1000):
            lines = [*self.LINES[:at], Line("m", [("user", "guest\npayments")], [("ok", True)]), *self.LINES[at:]]
            for given in (lines, iter(lines), tuple(lines)):
                with self.assertRaises(NotAdmitted) as found:
                    write_many(given)
                self.assertEqual(
                    str(found.exception), f"line {at + 1}: the value of the tag 'user' is not admitted: 'guest\\npayments' holds a newline")
                self.assertEqual((found.exception.row, found.exception.table), (at, None))
                self.assertIs(lines[found.exception.row].tags[0][1], lines[at].tags[0][1])

    def test_what_the_lines_raise_comes_as_it_is(self):
        def lines():
            yield self.LINES[0]
            write(Line("#", [], [("f", 1)]))

        with self.assertRaisesRegex(NotAdmitted, "^the measurement is not admitted") as found:
            write_many(lines())
        self.assertIsNone(found.exception.row)

    def test_which_row_it_is(self):
        good = Table(Column([1, 2]), {"t": Column(["a", "b"])}, {"f": Column([1, 2])})
        for row in (0, 7, 999):
            users = ["a"] * 1000
            users[row] = "guest\npayments"
            bad = Table(Column(list(range(1000))), {"host": Column(["a"] * 1000), "user": Column(users)}, {"f": Column([1.5] * 1000)})
            for tables in ({"n": bad}, {"m": good, "n": bad, "o": good}):
                with self.assertRaises(NotAdmitted) as found:
                    write_columns(tables)
                self.assertEqual(str(found.exception), (
                    f"the table 'n', row {row}: the value of the tag 'user' is not admitted: 'guest\\npayments' holds a newline"))
                self.assertEqual((found.exception.table, found.exception.row), ("n", row))

    def test_what_is_left_out_is_not_looked_at(self):
        table = Table(Column([1, 2, 3]), {"t": Column(["\n", "b", None])}, {"f": Column([None, 2, None])})
        self.assertEqual(write_columns({"m": table}), "m,t=b f=2i 2\n")
        masked = Table(Column([1, 2]), {"t": Column(["\n", "b"], [True, False])}, {"f": Column([1, 2])})
        self.assertEqual(write_columns({"m": masked}), "m f=1i 1\nm,t=b f=2i 2\n")

    def test_what_was_read_and_does_not_read_back(self):
        """A tab after a backslash is part of a name, which is not admitted."""
        text = "m,t=a\\\tb f=1i 5\n"
        [line] = parse(text)
        self.assertEqual((line.tags, is_admitted(line), rebuild(text).refused), ([("t", "a\\\tb")], False, 1))
        for call in (lambda: write(line), lambda: write_many(parse(text)), lambda: write_columns(columns(text))):
            with self.assertRaisesRegex(NotAdmitted, "the value of the tag 't' is not admitted: 'a\\\\\\\\\\\\tb' holds a tab"):
                call()


class TheBuilder(unittest.TestCase):
    def test_the_call_that_names_it_is_refused(self):
        for name in [*FLAWS, *FLAWS_OF_MEASUREMENTS]:
            for dialect in DIALECTS:
                builder = Builder(dialect=dialect).measurement("a").field("f", 1).close_line()
                with self.assertRaises(NotAdmitted):
                    builder.measurement(name)
                builder.measurement("m")
                if name in FLAWS:
                    for call in (lambda: builder.tag(name, "v"), lambda: builder.tag("k", name), lambda: builder.field(name, 1)):
                        with self.assertRaises(NotAdmitted):
                            call()
                builder.tag("l", "w").field("g", Unsigned(2))
                if name in FLAWS:
                    with self.assertRaises(NotAdmitted):
                        builder.field(name, 3)
                wanted = [("f", 1), ("g", Unsigned(2))]
                if dialect == "newline-delimited" and "\n" in name:
                    with self.assertRaisesRegex(NotAdmitted, "the value of the field 's' is not admitted: .* holds a newline"):
                        builder.field("s", name)
                else:
                    builder.field("s", name)
                    wanted[1] = ("s", name)
                self.assertEqual(builder.close_line().build().splitlines()[0], "a f=1i")
                self.assertEqual([line.fields[-1] for line in parse(builder.build(), dialect=dialect)], wanted)
