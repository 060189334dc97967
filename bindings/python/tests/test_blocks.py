"""Tables of more rows than are written in one go: what is written is what the lines give one by one, the first row that is refused is told,
and other threads run meanwhile."""

import array
import random
import threading
import unittest
from concurrent.futures import ThreadPoolExecutor

from line_protocol import Column, Line, NotAdmitted, Table, Unsigned, columns, write, write_columns, write_many

from shared import numpy

ROWS = 1 << 14
"""So many rows are written in one go, at most."""

EXOTIC = [1e-7, 5e-324, 1e16, -1.5e300, 2.0**-1074, 9007199254740993.0, 1e22, 123456789012345680.0]
"""Floats that Python's own function spells."""


def written_one_by_one(table):
    """The lines of a table, written one by one."""
    cells = {name: [(key, list(column)) for key, column in given.items()] for name, given in (("tags", table.tags), ("fields", table.fields))}
    out, times = [], list(table.time)
    for row in range(len(table)):
        tags, fields = ([(key, found[row]) for key, found in cells[name] if found[row] is not None] for name in ("tags", "fields"))
        if fields:
            out.append(write(Line("m", tags, fields, times[row])))
    return "".join(out)


class Blocks(unittest.TestCase):
    def same(self, table):
        self.assertEqual(write_columns({"m": table}), written_one_by_one(table))

    def test_each_kind_around_the_ends_of_blocks(self):
        picks = random.Random(5)
        for size in (0, 1, 2, ROWS - 1, ROWS, ROWS + 1, 2 * ROWS + 7):
            mask = [picks.random() < 0.1 for _ in range(size)]
            values = [picks.choice([1, 2.5, "x y", True, Unsigned(7), None, 'a "quoted" one', -3, *EXOTIC[:2]]) for _ in range(size)]
            table = Table(
                Column(array.array("q", range(size)), mask), {"t": Column([f"v{row % 3000}" for row in range(size)], mask), "u": Column(["x"] * size)},
                {"i": Column(array.array("q", range(size))), "f": Column(array.array("d", (row / 8 for row in range(size))), mask),
                 "o": Column(values), "b": Column([row % 2 == 0 for row in range(size)])})
            with self.subTest(size=size):
                self.same(table)
                self.same(Table(Column(list(range(size))), {}, {"o": Column(values)}))

    def test_floats_that_python_spells(self):
        for step in (1, 7, 1000, 1024, 1025, 5000):
            numbers = array.array("d", (EXOTIC[row // step % len(EXOTIC)] if row % step == 0 else row / 4 for row in range(12000)))
            with self.subTest(step=step):
                self.same(Table(Column([None] * 12000), {}, {"f": Column(numbers), "g": Column(numbers)}))

    def test_a_row_without_a_field(self):
        mask = [row % 3 != 0 for row in range(20000)]
        self.same(Table(Column([None] * 20000), {"t": Column(["v"] * 20000)}, {"f": Column(array.array("d", [0.5] * 20000), mask)}))
        self.assertEqual(write_columns({"m": Table(Column([5] * 20000), {}, {"f": Column([None] * 20000)})}), "")

    def test_long_texts_and_many_columns(self):
        texts = [letter * 700_000 for letter in "abcdef"]
        self.same(Table(Column([None] * 6), {"t": Column(texts)}, {"s": Column(texts[::-1])}))
        wide = {f"f{number}": Column([number, None, "x"]) for number in range(70_000)}
        [first, second] = columns(write_columns({"m": Table(Column([1, 2, 3]), {}, wide)}), use_numpy=False).tables["m"].time
        self.assertEqual((first, second), (1, 3))

    def test_the_first_row_that_is_refused(self):
        for size in (10, ROWS + 10):
            for flaw, why in (("a\tb", NotAdmitted), (5, TypeError), ("\ud800", UnicodeEncodeError)):
                for other in ("\n", 7.5):
                    tags = ["v"] * size
                    tags[size - 5], tags[size - 3] = flaw, other
                    with self.subTest(size=size, flaw=flaw, other=other), self.assertRaises(why) as found:
                        write_columns({"m": Table(Column([None] * size), {"t": Column(tags)}, {"f": Column([1] * size)})})
                    if why is not UnicodeEncodeError:
                        self.assertIn(f"the table 'm', row {size - 5}: the value of the tag 't'", str(found.exception))

    def test_a_float_without_a_literal(self):
        for at in (0, 5, ROWS - 1, ROWS, 2 * ROWS + 1):
            numbers = array.array("d", [0.5] * (2 * ROWS + 2))
            numbers[at] = float("inf")
            with self.subTest(at=at), self.assertRaisesRegex(ValueError, rf"the table 'm', row {at}: the field 'f': inf has no literal"):
                write_columns({"m": Table(Column([None] * len(numbers)), {}, {"f": Column(numbers)})})

    def test_a_refused_field_after_a_refused_name(self):
        """The name is that of an earlier row, though the field is read before the name is looked at."""
        table = Table(Column([None] * 9), {"t": Column([*"abc", "\t", *"efghi"])}, {"f": Column([1, 2, 3, 4, 5, None, b"", 8, 9])})
        with self.assertRaisesRegex(NotAdmitted, "row 3: the value of the tag 't'"):
            write_columns({"m": table})


class Threads(unittest.TestCase):
    SIZE = 100_000

    def test_threads_that_write_side_by_side(self):
        picks = random.Random(6)
        tables = [
            Table(Column(list(range(size))), {"t": Column([f"v{picks.randrange(4000)}" for _ in range(size)])},
                  {"f": Column([picks.choice([0.5, 1e-9, "text", 7]) for _ in range(size)])})
            for size in (100, 5_000, 40_000, 20_000)]
        wanted = [write_columns({"m": table}) for table in tables]

        def are_written(at):
            return [write_columns({"m": tables[at]}) == wanted[at] for _ in range(5)]

        with ThreadPoolExecutor(len(tables)) as threads:
            self.assertEqual(list(threads.map(are_written, range(len(tables)))), [[True] * 5] * len(tables))

    @unittest.skipIf(numpy is None, "there is no NumPy")
    def test_what_is_changed_meanwhile(self):
        """Arrays are copied before the lock is let go."""
        numbers = numpy.arange(self.SIZE, dtype="int64")
        table = Table(Column(numbers), {}, {"f": Column(numbers)})
        wanted, is_over = write_many(Line("m", [], [("f", row)], row) for row in range(self.SIZE)), threading.Event()

        def change():
            while not is_over.is_set():
                numbers[:] = 5
                numbers[:] = numpy.arange(self.SIZE)

        self.assertEqual(write_columns({"m": table}), wanted)
        changer = threading.Thread(target=change)
        changer.start()
        try:
            for line in columns(write_columns({"m": table}), use_numpy=False).tables["m"].fields["f"].values:
                self.assertTrue(0 <= line < self.SIZE)
        finally:
            is_over.set()
            changer.join()
