"""What `write_columns` writes is what `write_many` writes of the same lines, table by table."""

import math
import os
import random
import struct
import sys
import unittest
from array import array

from line_protocol import (
    Column, Columns, FloatText, Line, NotAdmitted, Table, Unsigned, columns, is_admitted, parse, write_columns, write_many)

from shared import corpora, give_back, numpy, typed

WAYS = [False] if numpy is None else [False, True]
"""Whether NumPy's arrays are used."""

HOSTILE = [
    "m f=1i", "m f=1i 5\nm f=2i\nm f=3i -5", "m,a=1,a=2 f=1i,f=2i\nm,a=3 f=1i,f=2.5", "m,f=t f=1i\nm f=2i", "m a=1i\nm b=2i\nn a=t\nm c=3i",
    'm f=1i\nm f=2.5\nm f=7u\nm f="x"\nm f=t\nm f=-1i', "m f=-0.0,g=0.0\nm f=1e-320,g=1e22\nm f=1e-5,g=123456789012345678901234567890",
    f"m i={2**63 - 1}i,u={2**64 - 1}u {2**63 - 1}\nm i=-{2**63}i,u=0u -{2**63}", 'm\\ \\,n,t\\ \\=\\,=\\ v\\=\\, f\\ \\=="a\\"b\\\\c\nd" 5',
    "m,té=ü fö=1i\n流量,タグ=値 フ=\"値\"", 'm s=""', "m,time=t time=1i 5", "_ _=1i",
    "".join(f"m{i} f{i}={i}i {i}\n" for i in range(300)),
    "m " + ",".join(f"f{i}={i}" for i in range(2000)) + "\n" + "m " + ",".join(f"f{i}={i}i" for i in range(2000)),
    "".join(f'm,t=a{i % 5000} s="s{i % 3000}" {i}\n' for i in range(9000)), "wrong\nm\n# so\n", ""]


def in_columns(lines):
    """Lines as columns have them: measurement by measurement, of a key that comes twice the last value, in the order of the columns, and
    floats without their spelling."""
    tables = {}
    for line in lines:
        tables.setdefault(line.measurement, []).append(line)
    for rows in tables.values():
        tags = dict.fromkeys(key for line in rows for key, _ in line.tags)
        fields = dict.fromkeys(key for line in rows for key, _ in line.fields)
        for line in rows:
            pairs = [[(key, of_line[key]) for key in keys if key in of_line]
                     for keys, of_line in ((tags, dict(line.tags)), (fields, dict(line.fields)))]
            yield Line(line.measurement, *pairs, line.timestamp)


class RoundTrips(unittest.TestCase):
    def compare(self, text):
        """Compares what is written of the columns of a text with its lines: of all that read back, but for those of infinite floats."""
        lines = [line for line in parse(text) if isinstance(line, Line) and is_admitted(line)]
        lines = [line for line in lines if not any(isinstance(value, FloatText) for _, value in line.fields)]
        wanted = list(in_columns(lines))
        for use_numpy in WAYS:
            written = write_columns(columns(write_many(lines), use_numpy=use_numpy))
            self.assertEqual(written, write_many(wanted))
            self.assertEqual([typed(line) for line in parse(written)], [typed(line) for line in wanted])

    def test_hostile_texts(self):
        for text in HOSTILE:
            with self.subTest(text=text[:60]):
                self.compare(text)

    def test_the_corpora(self):
        for name in corpora.NAMES:
            with self.subTest(name=name):
                self.compare(b"".join(corpora.corpus(name, "rows", 60_000)).decode())

    def test_at_random(self):
        chosen = random.Random(17)
        values = ["1i", "-5i", "2u", "0.25", "1e-7", "t", "F", '"x"', '"a\\"b"', '""', "0.1234567890123456"]
        for _ in range(300):
            lines = []
            for _ in range(chosen.randrange(40)):
                tags = "".join(f",{chosen.choice('abcé')}={chosen.choice(['x', 'y', 'z'])}" for _ in range(chosen.randrange(4)))
                fields = ",".join(f"{chosen.choice('abcdé')}={chosen.choice(values)}" for _ in range(chosen.randrange(5)))
                lines.append(f"{chosen.choice(['m', 'n', 'ö'])}{tags} {fields} {chosen.choice(['', '5', '-7'])}")
            self.compare("\n".join(lines))

    def test_an_infinite_float_is_refused(self):
        for use_numpy in WAYS:
            with self.assertRaisesRegex(ValueError, "the table 'm', row 1: the field 'f': -inf has no literal"):
                write_columns(columns("m f=1\nm f=-1e999", use_numpy=use_numpy))

    def test_floats_are_spelled_as_python_spells_them(self):
        chosen = random.Random(3)
        floats = [0.0, -0.0, 1e-4, 9.999999999999999e-05, 1e15, 999999999999999.9, 1e16, 5e-324, 1.7976931348623157e308, 0.1, 1 / 3, 100.0]
        floats += [math.ldexp(1, power) for power in range(-70, 60)]
        floats += [one for two in floats for one in (math.nextafter(two, -math.inf), math.nextafter(two, math.inf))]
        for _ in range(50_000):
            bits = struct.unpack("<d", struct.pack("<Q", chosen.randrange(0x3F00000000000000, 0x4340000000000000)))[0]
            floats += [bits, chosen.random() * 100, chosen.randrange(10**15) / 10 ** chosen.randrange(20), -chosen.randrange(10**4) / 100]
        wanted = "".join(f"m f={one!r}\n" for one in floats if math.isfinite(one))
        floats = array("d", filter(math.isfinite, floats))
        none = Column([None] * len(floats))
        self.assertEqual(write_columns({"m": Table(none, {}, {"f": Column(floats)})}), wanted)
        self.assertEqual(write_many(Line("m", [], [("f", one)]) for one in floats), wanted)


def written(values, mask=None, time=None):
    """The fields that are written of the values of a column, or what is raised."""
    size = len(values)
    table = Table(time or Column(list(range(size))), {}, {"f": Column(values, mask), "g": Column([1] * size)})
    return [line.split(" ")[1][:-5] if "f=" in line else None for line in write_columns({"m": table}).splitlines()]


class Values(unittest.TestCase):
    def test_lists_and_arrays(self):
        for values, wanted in [
            ([1, -2, None], ["f=1i", "f=-2i", None]), ((True, 2.5, Unsigned(3)), ["f=true", "f=2.5", "f=3u"]), (["x", FloatText("1.50")],
            ['f="x"', "f=1.50"]), (array("q", [-5, 2**63 - 1]), ["f=-5i", f"f={2**63 - 1}i"]), (array("b", [-5]), ["f=-5i"]),
            (array("Q", [2**64 - 1]), [f"f={2**64 - 1}u"]), (array("B", [5]), ["f=5u"]), (array("d", [0.1]), ["f=0.1"]),
            (array("f", [0.5]), ["f=0.5"]), (array("u" if sys.version_info < (3, 13) else "w", "ab"), ['f="a"', 'f="b"']), ([], []),
        ]:
            with self.subTest(values=values):
                self.assertEqual(written(values), wanted)

    def test_masks(self):
        for values in ([1, 2, 3], array("q", [1, 2, 3]), (1, 2, 3)):
            for mask in ([False, True, False], (False, True, False)):
                self.assertEqual(written(values, mask), ["f=1i", None, "f=3i"])
        self.assertEqual(written(array("d", [1.0, math.nan, math.inf]), [False, True, True]), ["f=1.0", None, None])
        self.assertEqual(written([1, object(), 3], [False, True, False]), ["f=1i", None, "f=3i"])

    def test_times(self):
        fields = {"f": Column([1, 2, 3])}
        for time in ([5, None, -7], (5, None, -7)):
            self.assertEqual(write_columns({"m": Table(Column(time), {}, fields)}), "m f=1i 5\nm f=2i\nm f=3i -7\n")
        self.assertEqual(write_columns({"m": Table(Column(array("q", [5, 6, 7]), [False, True, False]), {}, fields)}),
                         "m f=1i 5\nm f=2i\nm f=3i 7\n")
        self.assertEqual(write_columns({"m": Table(Column(array("Q", [5, 6, 7])), {}, fields)}), "m f=1i 5\nm f=2i 6\nm f=3i 7\n")

    def test_a_row_without_a_field(self):
        table = Table(Column([1, 2, 3]), {"t": Column(["a", "b", "c"])}, {"f": Column([1, None, 3]), "g": Column([None, None, 2.5])})
        self.assertEqual(write_columns({"m": table}), "m,t=a f=1i 1\nm,t=c f=3i,g=2.5 3\n")
        self.assertEqual(write_columns({"m": Table(Column([]), {}, {"f": Column([])}), "n": table})[:2], "n,")
        self.assertEqual(write_columns({"m": Table(Column([1]), {}, {"f": Column([None])})}), "")
        self.assertEqual((write_columns({}), write_columns(Columns({}, []))), ("", ""))

    def test_tags_of_one_object_and_of_many(self):
        """Texts that are kept, and more of them than are kept."""
        for size in (1, 10, 1000, 5000):
            texts = [f"v{i}" for i in range(size)]
            tags = {key: Column([texts[(i * step) % size] for i in range(9000)]) for step, key in enumerate("abcdefghij")}
            of_row = ["".join(f",{key}=v{(i * step) % size}" for step, key in enumerate("abcdefghij")) for i in range(9000)]
            wanted = "".join(f"m{pairs} f={i}i {i}\n" for i, pairs in enumerate(of_row))
            table = Table(Column(list(range(9000))), tags, {"f": Column(list(range(9000)))})
            self.assertEqual(write_columns({"m": table}), wanted)

    def test_what_a_value_does_meanwhile(self):
        """A value whose conversion changes the lists that were handed in."""
        times, tags, fields = [], ["a", "b"], [1, 2]

        class Changing:
            def __index__(self):
                times.clear(), tags.clear(), fields.clear()
                return 5

        times += [Changing(), 6]
        table = Table(Column(times), {"t": Column(tags)}, {"f": Column(fields)})
        self.assertEqual(write_columns({"m": table}), "m,t=a f=1i 5\nm,t=b f=2i 6\n")

    @unittest.skipIf("WATCHED" in os.environ, "the sanitizer keeps what is given back")
    def test_memory_is_given_back(self):
        good = columns("m,t=a f=1i,g=0.5,s=\"x\",b=t 5\nm,u=b f=7i\nn f=2u\n" * 50, use_numpy=False)
        bad = {"m": Table(Column([1, 2]), {"t": Column(["a", "b"])}, {"f": Column([1.5, object()])})}
        refused = {"m": Table(Column([1, 2]), {"t": Column(["a", "b\n"])}, {"f": Column([1.5, 2.5])})}

        def once():
            write_columns(good)
            for wrong in (bad, refused, {"m": bad["m"], 5: 6}, {"m": Table(Column([1]), {}, {"f": Column([1], [5])})}):
                try:
                    write_columns(wrong)
                except (TypeError, NotAdmitted):
                    pass

        give_back(self, once, 100, 30_000)


@unittest.skipIf(numpy is None, "there is no NumPy")
class WithNumpy(unittest.TestCase):
    def test_each_type(self):
        for dtype in ("int8", "int16", "int32", "int64", ">i4", "=i8"):
            self.assertEqual(written(numpy.array([-5, 7], dtype=dtype)), ["f=-5i", "f=7i"])
        for dtype in ("uint8", "uint16", "uint32", "uint64", ">u8"):
            self.assertEqual(written(numpy.array([5, 7], dtype=dtype)), ["f=5u", "f=7u"])
        for dtype in ("float16", "float32", "float64", ">f8"):
            self.assertEqual(written(numpy.array([0.5, -2], dtype=dtype)), ["f=0.5", "f=-2.0"])
        self.assertEqual(written(numpy.array([True, False])), ["f=true", "f=false"])
        self.assertEqual(written(numpy.array(["ab", "c"])), ['f="ab"', 'f="c"'])
        self.assertEqual(written(numpy.array([1, "x", None, 2.5, True], dtype="object")), ["f=1i", 'f="x"', None, "f=2.5", "f=true"])
        self.assertEqual(written(numpy.arange(10)[::-3]), ["f=9i", "f=6i", "f=3i", "f=0i"])
        self.assertEqual(written(numpy.array([[1, 2], [3, 4]])[:, 1]), ["f=2i", "f=4i"])

    def test_types_that_are_refused(self):
        one = numpy.ones(1)
        for values, raised, why in [
            (one.astype("longdouble"), TypeError, "a value is .* not (longdouble|float128)"),
            (one.astype("complex"), TypeError, "not complex128"), (numpy.array([5], "datetime64[ns]"), TypeError, "not datetime64"),
            (numpy.array([5], "timedelta64[ns]"), TypeError, "not timedelta64"),
            (numpy.array([b"x"]), TypeError, "not bytes_"), (numpy.ones((1, 1)), ValueError, "one dimension, not 2"),
            (numpy.array(5), ValueError, "one dimension, not 0"), (numpy.array([math.nan]), ValueError, "nan has no literal"),
            (numpy.array([math.inf], "float32"), ValueError, "inf has no literal"), (numpy.zeros(1, "i4,i4"), TypeError, "not void"),
        ]:
            with self.subTest(values=values), self.assertRaisesRegex(raised, why):
                write_columns({"m": Table(Column([5]), {}, {"f": Column(values)})})
        for mask in (one, numpy.array(False), numpy.zeros((1, 1), "bool")):
            with self.subTest(mask=mask), self.assertRaisesRegex(TypeError, "a mask is"):
                write_columns({"m": Table(Column([5]), {}, {"f": Column([1], mask)})})
        for times in (one, numpy.array([True]), numpy.array(["5"]), numpy.array([5], "timedelta64[ns]")):
            with self.subTest(times=times), self.assertRaisesRegex(TypeError, "a timestamp is an int or a datetime, not"):
                write_columns({"m": Table(Column(times), {}, {"f": Column([1])})})
        with self.assertRaisesRegex(TypeError, "the value of the tag 't' is a str, not float64: 1.0"):
            write_columns({"m": Table(Column([5]), {"t": Column(one)}, {"f": Column([1])})})

    def test_scalars_in_lists(self):
        values = [numpy.int8(-5), numpy.uint64(2**64 - 1), numpy.float32(0.5), numpy.bool_(True), numpy.str_("x"), numpy.float64(0.1)]
        self.assertEqual(written(values), ["f=-5i", f"f={2**64 - 1}u", "f=0.5", "f=true", 'f="x"', "f=0.1"])
        table = Table(Column([numpy.int64(5)]), {"t": Column([numpy.str_("v")])}, {"f": Column([1])})
        self.assertEqual(write_columns({"m": table}), "m,t=v f=1i 5\n")

    def test_masks(self):
        mask = numpy.array([False, True, False])
        for values in (numpy.array([1, 2, 3]), [1, 2, 3]):
            self.assertEqual(written(values, mask), ["f=1i", None, "f=3i"])
        masked = numpy.ma.MaskedArray([1, 2, 3], [True, False, False])
        self.assertEqual(written(masked), [None, "f=2i", "f=3i"])
        self.assertEqual(written(masked, mask), [None, None, "f=3i"])
        self.assertEqual(written(numpy.ma.MaskedArray([1.5, math.nan])[:1]), ["f=1.5"])
        table = columns("m,t=a f=1i 5\nm g=0.5").tables["m"]
        again = Table(Column(table.time.masked()), {key: Column(one.masked()) for key, one in table.tags.items()},
                      {key: Column(one.masked()) for key, one in table.fields.items()})
        self.assertEqual(write_columns({"m": again}), "m,t=a f=1i 5\nm g=0.5\n")

    def test_times(self):
        for time, wanted in [
            (numpy.array([5, 6], "datetime64[ns]"), "5 6"), (numpy.array([5, 6], "datetime64[s]"), "5000000000 6000000000"),
            (numpy.array(["1970-01-01", "1970-01-02"], "datetime64[D]"), "0 86400000000000"), (numpy.array([5, 6], "int32"), "5 6"),
            (numpy.array([5, 6], "uint64"), "5 6"), (numpy.array([5000, 6000], "datetime64[ps]"), "5 6"),
        ]:
            text = write_columns({"m": Table(Column(time), {}, {"f": Column([1, 2])})})
            self.assertEqual(" ".join(line.split(" ")[2] for line in text.splitlines()), wanted)
        for time in (numpy.array(["NaT", 6], "datetime64[ns]"), numpy.array(["NaT", "1970-01-01"], "datetime64[D]")):
            text = write_columns({"m": Table(Column(time), {}, {"f": Column([1, 2])})})
            self.assertEqual(text.splitlines()[0], "m f=1i")
        for time in (numpy.array(["3000-01-01"], "datetime64[D]"), numpy.array([5], "datetime64[ps]"), numpy.array([2**63], "uint64")):
            with self.subTest(time=time), self.assertRaises(OverflowError):
                write_columns({"m": Table(Column(time), {}, {"f": Column([1])})})
