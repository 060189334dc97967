"""Lines that were read are written as they were read, many of them in one call, and scalars of NumPy as what they are."""

import contextlib
import copy
import dataclasses
import math
import random
import struct
import sys
import types
import unittest
from decimal import Decimal
from unittest import mock

from line_protocol import Builder, FloatText, Line, Unsigned, base, is_admitted, is_base_safe, key, parse, show, write, write_many

from shared import copies_of, give_back, numpy

LITERALS = (
    "1.50", "0.10", "1", "-0", "007", "1e5", "1E+5", "0.30000000000000004", "1e22", "1e-400", "9007199254740993", "5e-324", "00.5", "-0.0",
    "123456789012345678", "0.000001", "1.0000000000000000000000000001", "179769313486231580793728971405301e276", "1e16",
    "12345678901234567890")


class Literals(unittest.TestCase):
    def test_a_float_is_written_as_it_was_read(self):
        for literal in LITERALS:
            text = f"m f={literal}\n"
            with self.subTest(literal=literal):
                [line] = parse(text)
                self.assertIs(type(line.fields[0][1]), float)
                self.assertEqual((write(line), show(line)), (text, text[:-1]))

    def test_many_floats_among_other_values(self):
        fields = ",".join(f'f{i}={literal},i{i}={i}i,s{i}="{literal}"' for i, literal in enumerate(LITERALS * 20))
        text = f"m,t=v {fields},last=1e999,f=1.10 5\n"
        [line] = parse(text)
        self.assertEqual(write(line), text)

    def test_what_the_caller_changed_is_spelled_anew(self):
        [line] = parse("m a=1.50,b=2.50,c=3.50")
        line.fields[1] = ("b", 2.25)
        self.assertEqual(write(line), "m a=1.50,b=2.25,c=3.50\n")
        line.fields[0] = ("a", 1)
        self.assertIn("a=1i,b=2.25,c=3.5", write(line))
        line.fields = [("c", 3.5)]
        self.assertIn(write(line), ("m c=3.5\n", "m c=3.50\n"))
        line.fields[:] = [("x", -0.0), ("y", 0.0)]
        self.assertEqual(write(line), "m x=-0.0,y=0.0\n")
        self.assertEqual(write(Line("m", [], [("a", 1.5)])), "m a=1.5\n")

    def test_zeros_keep_their_signs(self):
        [line] = parse("m a=0.00,b=-0.00")
        line.fields.reverse()
        self.assertEqual([math.copysign(1, value) for _, value in next(parse(write(line))).fields], [-1, 1])

    def test_what_was_copied_keeps_its_literals(self):
        text = "m,t=a f=1.50,g=2 5\n"
        [line] = parse(text)
        for again in copies_of(line):
            self.assertEqual((again, type(again), write(again)), (line, Line, text))
        self.assertEqual(write(dataclasses.replace(line, timestamp=6)), "m,t=a f=1.5,g=2.0 6\n")

    def test_what_is_kept_cannot_be_turned_into_another_line(self):
        [line] = parse("m f=1.50")
        for spelled in (b"", b"\n", b"1.5", b"2.5\n", b"x\n", b"1.5 5\n", b"\0\n", None, 5, "1.50\n"):
            line._spelled = spelled
            with self.subTest(spelled=spelled):
                try:
                    self.assertEqual(write(line), "m f=1.5\n")
                except ValueError:
                    self.assertNotIn(spelled, (b"", b"\n", b"1.5", b"2.5\n", None, 5))

    def test_floats_are_the_nearest(self):
        """Literals of up to 25 digits, at random and near the middle between two doubles, are read as `float` reads them."""
        chosen = random.Random(3)
        literals = []
        for _ in range(100_000):
            digits = str(chosen.randrange(10 ** chosen.randrange(1, 26)))
            point = chosen.randrange(1, len(digits) + 1)
            literals.append(digits[:point] + "." + digits[point:] if point < len(digits) else digits)
        for _ in range(50_000):
            bits = struct.unpack("<d", struct.pack("<Q", chosen.randrange(0x3E70000000000000, 0x4330000000000000)))[0]
            middle = format(Decimal(bits) + Decimal(math.ulp(bits)) / 2, "f")
            literals += [middle[: chosen.randrange(3, 22)].rstrip("."), middle]
        literals += ["0." + "0" * zeros + digits for zeros in range(30) for digits in ("1", "17", "123456789012345678", "9007199254740993")]
        literals = [one for one in literals if one and one[0].isdigit()]
        text = "\n".join(f"m f={literal},g=-{literal}" for literal in literals)
        for literal, line in zip(literals, parse(text)):
            if [value for _, value in line.fields] != [float(literal), -float(literal)]:
                self.fail(f"{literal} was read as {line.fields}")

    def test_all_that_was_read_is_written_as_it_was_read(self):
        """Floats as Python spells them, with digits more or less, are written as they were."""
        chosen = random.Random(5)
        lines = []
        for number in range(30_000):
            value = chosen.choice(
                [chosen.random(), chosen.uniform(-1e6, 1e6), chosen.randrange(10**6) / 100, 10.0 ** chosen.randrange(-9, 25)])
            literal = chosen.choice([repr(value), format(value, ".6f"), format(value, ".17g"), format(value, ".3e")])
            lines.append(f"m,t=a{number} f={literal},g=1i,h={literal} {number}\n")
        text = "".join(lines)
        self.assertEqual(write_many(parse(text)), text)


class Many(unittest.TestCase):
    LINES = [Line("m", [("t", f"a {i}")], [("f", i), ("g", i / 4), ("s", '"')], i) for i in range(1000)]

    def test_many_lines_in_one_call(self):
        wanted = "".join(map(write, self.LINES))
        for lines in (self.LINES, tuple(self.LINES), iter(self.LINES), (line for line in self.LINES), parse(wanted)):
            with self.subTest(lines=type(lines).__name__):
                self.assertEqual(write_many(lines), wanted)
        self.assertEqual(write_many([]), "")
        self.assertEqual(list(parse(wanted)), self.LINES)

    def test_a_line_as_long_as_many(self):
        lines = [Line("m", [], [("s", "x" * size)]) for size in (1, 1000, 1_000_000, 3, 5_000_000)]
        self.assertEqual(write_many(lines), "".join(map(write, lines)))

    def test_which_line_is_refused(self):
        for wrong, raised, why in [
            (Line("m"), ValueError, "line 3: the line of the measurement 'm' has no field"),
            (Line("m", [], [("f", math.nan)]), ValueError, "line 3: the field 'f': nan has no literal"),
            (Line("m", [], [("f", 2**63)]), OverflowError, "line 3: the field 'f': 9223372036854775808 is not"),
            (Line("m", [], [("f", None)]), TypeError, "line 3: the field 'f': a value is an int"),
            (None, TypeError, "line 3: a line is a Line, not NoneType: None"), ("m f=1i", TypeError, "line 3: a line is a Line, not str"),
        ]:
            for rest in ([], self.LINES[:2]):
                with self.subTest(wrong=wrong), self.assertRaisesRegex(raised, "^" + why):
                    write_many([*self.LINES[:2], wrong, *rest])
        with self.assertRaises(UnicodeEncodeError):
            write_many([Line("\ud800", [], [("f", 1)])])

    def test_what_the_lines_raise_comes_as_it_is(self):
        def lines():
            yield self.LINES[0]
            raise ValueError("mine")

        with self.assertRaisesRegex(ValueError, "^mine$"):
            write_many(lines())
        with self.assertRaisesRegex(ValueError, "^mine$"):
            write_many(map(lambda one: (_ for _ in ()).throw(ValueError("mine")), [1]))

    def test_memory_is_given_back(self):
        lines = [*parse('m,t=a f=1e400,g=1.50,h=-1e999,i=5i,u=7u,s="x",b=t 5\nm f=0.30\n' * 20), *self.LINES[:40]]

        def once():
            for line in lines:
                write(line), show(line), base(line), key(line), is_base_safe(line), is_admitted(line)
            write_many(lines)
            for wrong in (Line("m"), Line("m", [("a", "b")], [("f", None)]), Line("m", [("a", 5)]), Line("#", [], [("f", 1)]), None):
                for call in (write, show, is_admitted, base, key, lambda line: write_many([lines[0], line])):
                    with contextlib.suppress(TypeError, ValueError):
                        call(wrong)

        give_back(self, once, 200, 60_000)

    def test_lists_that_change_meanwhile(self):
        class Changing(float):
            def __float__(self):
                return 1.0

        line = Line("m", [("t", "v")], [])

        class Index:
            def __index__(self):
                line.fields.clear()
                line.tags.clear()
                return 5

        line.fields += [("f", Changing(1.5)), ("g", 1)]
        line.timestamp = Index()
        self.assertEqual(write(line), "m,t=v f=1.5,g=1i 5\n")


def stand_in():
    """The classes of NumPy's scalars as far as the package asks for them."""
    module = types.ModuleType("numpy")
    module.generic = type("generic", (), {"__init__": lambda self, value: setattr(self, "value", value)})
    number = type("number", (module.generic,), {
        "__int__": lambda self: int(self.value), "__float__": lambda self: float(self.value), "__index__": lambda self: int(self.value)})
    module.bool_ = type("bool_", (module.generic,), {"__bool__": lambda self: bool(self.value)})
    module.signedinteger, module.unsignedinteger, module.floating = (type(name, (number,), {}) for name in ("si", "ui", "fl"))
    for name, base in [("int8", "signedinteger"), ("int64", "signedinteger"), ("timedelta64", "signedinteger"),
                       ("uint8", "unsignedinteger"), ("uint64", "unsignedinteger"), ("float16", "floating"), ("float32", "floating"),
                       ("longdouble", "floating"), ("complex128", "generic"), ("datetime64", "generic")]:
        setattr(module, name, type(name, (getattr(module, base),), {}))
    module.float64 = type("float64", (float, module.floating), {"__init__": lambda self, value: None})
    module.str_ = type("str_", (str, module.generic), {"__init__": lambda self, value: None})
    return module


class Scalars(unittest.TestCase):
    """Of NumPy, where it is there, and of classes that are like its classes."""

    def modules(self):
        yield stand_in()
        if numpy is not None:
            yield numpy

    def test_scalars_are_written_as_what_they_are(self):
        for module in self.modules():
            with mock.patch.dict(sys.modules, numpy=module):
                for value, text in [
                    (module.bool_(True), "true"), (module.bool_(False), "false"), (module.int8(-3), "-3i"),
                    (module.int64(2**63 - 1), f"{2**63 - 1}i"),
                    (module.uint8(3), "3u"), (module.uint64(2**64 - 1), f"{2**64 - 1}u"), (module.float64(0.1), "0.1"),
                    (module.float32(0.5), "0.5"), (module.float16(1.5), "1.5"), (module.str_("a b"), '"a b"'),
                ]:
                    line = Line("m", [], [("f", value)])
                    with self.subTest(value=value, module=module):
                        built = Builder().measurement("m").field("f", value).close_line().build()
                        self.assertEqual((write(line), write_many([line]), built), (f"m f={text}\n",) * 3)
                        self.assertTrue(is_admitted(line))
                line = Line(module.str_("m"), [(module.str_("t"), module.str_("v"))], [("f", 1)], module.int64(5))
                self.assertEqual(write(line), "m,t=v f=1i 5\n")

    def test_what_has_no_exact_value_is_refused(self):
        for module in self.modules():
            with mock.patch.dict(sys.modules, numpy=module):
                values = [module.timedelta64(5), module.complex128(1)]
                if not issubclass(module.longdouble, float):
                    values.append(module.longdouble(1))
                for value in values:
                    with self.subTest(value=value), self.assertRaisesRegex(TypeError, "the field 'f': a value is"):
                        write(Line("m", [], [("f", value)]))
                with self.assertRaisesRegex(TypeError, "a timestamp is an int or a datetime, not bool"):
                    write(Line("m", [], [("f", 1)], module.bool_(True)))
                for value in (module.float64("nan"), module.float32(math.inf)):
                    with self.subTest(value=value), self.assertRaisesRegex(ValueError, "the field 'f'"):
                        write(Line("m", [], [("f", value)]))


class Objects(unittest.TestCase):
    """Lines and faults are dataclasses."""

    def test_lines_are_dataclasses(self):
        [line] = parse("m,t=a f=1i 5")
        self.assertEqual(dataclasses.asdict(line), {"measurement": "m", "tags": [("t", "a")], "fields": [("f", 1)], "timestamp": 5})
        self.assertEqual([one.name for one in dataclasses.fields(Line)], ["measurement", "tags", "fields", "timestamp"])
        self.assertEqual(repr(line), "Line(measurement='m', tags=[('t', 'a')], fields=[('f', 1)], timestamp=5)")
        self.assertEqual(Line("m"), Line("m", [], [], None))
        self.assertIsNot(Line("m").tags, Line("m").tags)
        self.assertNotEqual(Line("m"), "m")
        with self.assertRaises(TypeError):
            hash(line)
        with self.assertRaises(TypeError):
            Line()

    def test_members_can_be_set_and_deleted(self):
        [line] = parse("m f=1i")
        line.measurement, line.timestamp = "n", 7
        self.assertEqual(write(line), "n f=1i 7\n")
        del line.fields
        with self.assertRaises(AttributeError):
            line.fields
        with self.assertRaisesRegex(TypeError, "a line is a Line, not Line"):
            with mock.patch.object(Line, "__repr__", lambda self: "a line"):
                write(line)

    def test_a_class_of_the_caller(self):
        class Mine(Line):
            pass

        line = Mine("m", [], [("f", 1.5)])
        line.more = 5
        self.assertEqual((write(line), copy.copy(line).more, copy.deepcopy(line)), ("m f=1.5\n", 5, line))

        class Other:
            measurement, tags, fields, timestamp = "m", (), (("f", True),), None

        self.assertEqual(write(Other()), "m f=true\n")

    def test_faults_are_dataclasses(self):
        [fault] = parse("m f=1i é")
        for again in copies_of(fault):
            self.assertEqual((again, again.item, again.line, again.offset, again.refused), (fault, 1, 1, 0, "m f=1i é".encode()))
        self.assertEqual(fault.message, "Could not parse entire line. Found trailing content: ' é'")
        self.assertIn("text=' é'", repr(fault))

    def test_an_unsigned_integer_stays_one(self):
        [line] = parse(f"m f={2**64 - 1}u,g=0u")
        self.assertEqual([type(value) for _, value in line.fields], [Unsigned, Unsigned])
        self.assertEqual(write(line), f"m f={2**64 - 1}u,g=0u\n")
        [line] = parse("m f=1e400")
        self.assertEqual(type(line.fields[0][1]), FloatText)
