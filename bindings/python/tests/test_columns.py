"""Columns hold what `parse` gives."""

import io
import itertools
import math
import random
import sys
import tracemalloc
import types
import unittest
from array import array
from unittest import mock

from line_protocol import Fault, FaultKind, Line, Unsigned, columns, key, parse

from shared import give_back, numpy, trace

MISSING = object()


def rows_of(items):
    """For each measurement its lines as dicts, of which the last value of a key counts; and of what types all values of a key are."""
    tables, kinds = {}, {}
    for line in items:
        if isinstance(line, Line):
            tables.setdefault(line.measurement, []).append((line.timestamp, dict(line.tags), dict(line.fields)))
            for place, pairs in ((1, line.tags), (2, line.fields)):
                for key, value in pairs:
                    kinds.setdefault((line.measurement, place, key), set()).add(float if isinstance(value, float) else type(value))
    return tables, kinds


def cells_of(column):
    """A column's cells, or that they are missing."""
    mask = [False] * len(column) if column.mask is None else column.mask
    return [MISSING if missing else value for value, missing in zip(column.values, mask)]


def of_column(value, is_mixed):
    """A value that was read as a column has it: a number of a column of one kind is plain."""
    if value is MISSING:
        return value
    return float(value) if isinstance(value, float) else int(value) if type(value) is Unsigned and not is_mixed else value


class Columns(unittest.TestCase):
    def test_lines_have_the_number_of_their_series(self):
        text = "m,b=2,a=1 f=1i\nn f=1i\nm,a=1,b=2 f=2i\nm f\nm,a=2,a=1 f=1i\nm,a=1,a=2 f=1i\nm,a=1\\,b\\=2 f=1i\n" \
            "m,,=v f=1i\nm,\\,=v f=1i\nn f=2i\n"
        lines = [line for line in parse(text) if isinstance(line, Line)]
        told = columns(text, use_numpy=False, series=True)
        self.assertEqual(told.keys, list(dict.fromkeys(map(key, lines))))
        for measurement, table in told.tables.items():
            keys = [key(line) for line in lines if line.measurement == measurement]
            self.assertEqual([told.keys[number] for number in table.series], keys)
        self.assertEqual(len(told.keys), 6)
        many = columns("".join(f"m,a={number} f=1i\n" for number in range(65_540)), use_numpy=False, series=True)
        self.assertEqual(list(many.tables["m"].series), list(range(65_540)))
        untold = columns(text, use_numpy=False)
        self.assertIsNone(untold.keys)
        self.assertEqual({table.series for table in untold.tables.values()}, {None})

    def compare(self, source, text, **options):
        """Compares the columns of a source with the items of the same text."""
        told = columns(source, use_numpy=False, **options)
        items = list(parse(text, **options))
        self.assertEqual(told.faults, [item for item in items if isinstance(item, Fault)])
        wanted, kinds = rows_of(items)
        self.assertEqual(list(told.tables), list(wanted))
        for measurement, rows in wanted.items():
            table = told.tables[measurement]
            self.assertEqual(len(table), len(rows))
            self.assertEqual(list(table.time), [time for time, _, _ in rows])
            for given, place in ((table.tags, 1), (table.fields, 2)):
                self.assertEqual(list(given), list(dict.fromkeys(key for row in rows for key in row[place])))
                for key, column in given.items():
                    self.compare_column(column, [row[place].get(key, MISSING) for row in rows], kinds[measurement, place, key])
        return told

    def compare_column(self, column, cells, kinds):
        found = cells_of(column)
        cells = [of_column(one, len(kinds) > 1) for one in cells]
        self.assertEqual([(type(one), repr(one)) for one in found], [(type(one), repr(one)) for one in cells])
        self.assertEqual(column.mask is None, MISSING not in cells)
        wanted = {frozenset([int]): "q", frozenset([Unsigned]): "Q", frozenset([float]): "d"}.get(frozenset(kinds))
        self.assertEqual(column.values.typecode if isinstance(column.values, array) else None, wanted)

    def test_each_kind(self):
        told = self.compare("m i=-5i,u=18446744073709551615u,f=0.1,s=\"a b\",t=t 5\nm i=7i,u=0u,f=1e400,s=\"\",t=f -5\n" * 3, "m i=-5i,"
                            "u=18446744073709551615u,f=0.1,s=\"a b\",t=t 5\nm i=7i,u=0u,f=1e400,s=\"\",t=f -5\n" * 3)
        fields = told.tables["m"].fields
        self.assertEqual(fields["u"].values, array("Q", [2**64 - 1, 0] * 3))
        self.assertEqual(fields["t"].values, [True, False] * 3)
        self.assertEqual(fields["f"].values[1], math.inf)
        self.assertEqual([column.mask for column in fields.values()], [None] * 5)

    def test_what_is_missing(self):
        text = 'm f=1i 5\nm,t=a g=2.5\nm h="x",f=2i 7\nn,t=b f=t\nm f=3i\nwrong\nm,t=,u=v f=1i\nm,u=v i=1u'
        told = self.compare(text, text)
        self.assertEqual(list(told.tables["m"].fields["g"]), [None, 2.5, None, None, None])
        self.assertEqual(list(told.tables["m"].time), [5, None, 7, None, None])

    def test_a_field_of_several_kinds(self):
        text = 'm f=1i\nm f=2.5\nm g=1\nm f=7u\nm f="x",g=t\nm f=1e400\nm f=-1i,g=f'
        told = self.compare(text, text)
        self.assertEqual(list(map(type, told.tables["m"].fields["f"])), [int, float, type(None), Unsigned, str, float, int])
        long = "m f=1i\n" + "m g=1\n" * 2000 + "m f=2u"
        self.compare(long, long)

    def test_a_key_that_comes_twice(self):
        text = "m,a=1,a=2 f=1i,f=2i\nm,a=3 f=1i,f=2.5,f=3i\nm,f=tag f=1i"
        self.compare(text, text)

    def test_a_tag_and_a_field_of_one_name(self):
        text = 'm,a=1 a=5i\nm a="x"\nm,b\\ c=d\\ e b\\ c=1i\nm,\\==\\= \\,=1i'
        told = self.compare(text, text)
        self.assertEqual((list(told.tables["m"].tags["a"]), list(told.tables["m"].fields["a"])[:2]), (["1", None, None, None], [5, "x"]))

    def test_wide_and_many_tables(self):
        text = "".join(f"m{i % 300} f{i % 7}={i}i,g{i}={i} {i}\n" for i in range(3000))
        self.compare(text, text)
        wide = "w " + ",".join(f"f{i}={i}i" for i in range(20_000)) + "\n" + "w " + ",".join(f"f{i}={i}i" for i in reversed(range(20_000)))
        self.compare(wide, wide)

    def test_each_source(self):
        text = "".join(f'm,t=a\\ {i % 5} f={i}i,s="\n{i}" {i}\nwrong\n' for i in range(5000))
        for source in (text, text.encode(), io.BytesIO(text.encode()), iter([text[:77], text[77:]])):
            self.compare(source, text)
        self.assertEqual([fault.kind for fault in columns(io.BytesIO(b"m f=1i\n\xff\n"), use_numpy=False).faults], [FaultKind.NOT_UTF8])
        self.assertEqual(columns(io.BytesIO(b"m f=1i\nmuch f=1i\n"), max_line=6, use_numpy=False).faults[0].line, 2)
        self.assertEqual(columns("", use_numpy=False).tables, {})
        self.compare("m a=1i, 5\n", "m a=1i, 5\n", strict=True)

    def test_at_random(self):
        chosen = random.Random(11)
        values = ["1i", "-5i", "2u", "0.25", "1e999", "t", "F", '"x"', '"a\\"b"', '""']
        for _ in range(300):
            lines = []
            for _ in range(chosen.randrange(40)):
                tags = "".join(f",{chosen.choice('abcé')}={chosen.choice(['x', 'y', 'z w'.replace(' ', chr(92) + ' ')])}"
                               for _ in range(chosen.randrange(4)))
                fields = ",".join(f"{chosen.choice('abcdé')}={chosen.choice(values)}" for _ in range(chosen.randrange(5)))
                lines.append(f"{chosen.choice(['m', 'n', 'ö'])}{tags} {fields} {chosen.choice(['', '5', '-7'])}")
            self.compare("\n".join(lines), "\n".join(lines))

    def test_what_a_source_raises(self):
        def parts():
            yield b"m f=1i\nm,t=a g=2\n"
            raise RuntimeError("lost")

        for _ in range(3):
            with self.assertRaisesRegex(RuntimeError, "lost"):
                columns(parts())

    def test_memory_is_given_back(self):
        text = "".join(f'm,t=a{i % 7} f={i}i,g={i}.5,s="x{i}",u={i}u {i}\n' for i in range(2000))

        def once():
            columns(text, use_numpy=False)
            try:
                columns(itertools.chain([text], iter([5])), use_numpy=False)
            except TypeError:
                pass

        give_back(self, once, 20, 50_000)

    def test_numbers_take_eight_bytes(self):
        """A million numbers take their bytes, and no object for each."""
        data = b"m,t=a f=1i,g=0.5,h=3u 7\n" * 50_000
        trace(self)
        told = columns(iter([data[:1_000_000], data[1_000_000:]]), use_numpy=False)
        size = tracemalloc.get_traced_memory()[0]
        self.assertEqual(len(told.tables["m"]), 50_000)
        self.assertLess(size, 50_000 * 8 * 5 + 1_200_000)


class Array(list):
    """Of the stand-in for NumPy."""

    def __init__(self, values, dtype):
        super().__init__(values)
        self.dtype = dtype

    def astype(self, dtype):
        return Array([bool(one) for one in self], dtype)


def stand_in():
    """NumPy as far as columns ask for it."""
    module = types.ModuleType("numpy")
    codes = {"int64": "q", "uint64": "Q", "float64": "d", "bool": "B"}

    def frombuffer(data, dtype):
        return Array(memoryview(data).cast(codes[dtype]).tolist(), dtype)

    module.frombuffer = frombuffer
    module.empty = lambda size, dtype: Array([None] * size, dtype)
    return module


class WithNumpy(unittest.TestCase):
    TEXT = 'm,t=a i=1i,u=2u,f=0.5,s="x",b=t,v=1i 5\nm i=2i,u=3u,f=1.5,s="y",b=f,v=2.5\n'
    KINDS = {"i": "int64", "u": "uint64", "f": "float64", "s": "object", "b": "bool", "v": "object"}

    def compare(self):
        table = columns(self.TEXT).tables["m"]
        self.assertEqual({key: str(column.values.dtype) for key, column in table.fields.items()}, self.KINDS)
        plain = columns(self.TEXT, use_numpy=False).tables["m"]
        for key, column in table.fields.items():
            self.assertEqual(list(column.values), list(plain.fields[key].values))
        self.assertEqual((list(table.tags["t"].values), list(table.tags["t"].mask)), (["a", None], [False, True]))
        self.assertEqual((str(table.time.values.dtype), list(table.time.mask)), ("int64", [False, True]))

    def test_the_stand_in(self):
        with mock.patch.dict(sys.modules, numpy=stand_in()):
            self.compare()

    @unittest.skipIf(numpy is None, "there is no NumPy")
    def test_numpy(self):
        self.compare()
        table = columns(self.TEXT).tables["m"]
        self.assertEqual(table.time.masked().tolist(), [5, None])
        self.assertEqual(table.fields["u"].masked().sum(), 5)
        table.fields["i"].values[0] = 7

    @unittest.skipIf(numpy is not None, "there is NumPy")
    def test_where_there_is_no_numpy(self):
        with self.assertRaises(ImportError):
            columns("m f=1i", use_numpy=True)
        self.assertIsInstance(columns("m f=1i").tables["m"].time.values, array)
