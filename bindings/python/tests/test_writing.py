"""What is written, and what is rebuilt."""

import copy
import math
import random
import re
import tracemalloc
import unittest
from concurrent.futures import ThreadPoolExecutor
from types import SimpleNamespace

from line_protocol import DuplicateTag, Line, Rebuilt, Unsigned, base, is_admitted, is_base_safe, key, parse, rebuild, show, write

from shared import trace

LINE = Line(
    "c pu", [("z", "a,b"), ("h=", "é")],
    [("i", -64), ("u", Unsigned(7)), ("f", 1.5), ("s", 'x"\\y'), ("t", True)], 5)


class Writing(unittest.TestCase):
    def test_a_line_reads_back(self):
        text = write(LINE)
        self.assertEqual(text, 'c\\ pu,z=a\\,b,h\\==é i=-64i,u=7u,f=1.5,s="x\\"\\\\y",t=true 5\n')
        self.assertEqual((list(parse(text)), is_admitted(LINE)), ([LINE], True))

    def test_a_line_is_shown(self):
        self.assertEqual(show(Line("m", [("a", "b")], [("s", "x y")], 5)), "m,a=b s=x y 5")

    def test_the_base_has_its_tags_in_order(self):
        self.assertEqual(base(Line("m", [("z", "1"), ("a", "2")], [("f", 1)])), "m,a=2,z=1")
        with self.assertRaisesRegex(DuplicateTag, "^a$"):
            base(Line("m", [("a", "1"), ("a", "2")], [("f", 1)]))

    def test_bases_are_those_of_the_library(self):
        """A line whose keys rise is not handed to the library; what has its members is."""
        rows = [
            [], [("a", "1"), ("ab", "2"), ("b", "3")], [("a", "1"), ("a", "2")], [("ab", "1"), ("a", "2")], [("é", "1"), ("z", "2")],
            [(",", "x y"), ("z", "\\"), ("\U0001f600", "é")], [("\uffff", "1"), ("\U00010000", "2")], [("", "1"), ("a", "")],
            [("a", "1"), ("b", "2"), ("b", "3"), ("a", "4")]]
        for tags in rows:
            for name in ("m", "a, b", "é", ""):
                with self.subTest(name=name, tags=tags):
                    answers = []
                    for line in (Line(name, tags), SimpleNamespace(measurement=name, tags=tags)):
                        try:
                            answers.append(base(line))
                        except DuplicateTag as raised:
                            answers.append(raised.args)
                    self.assertEqual(answers[0], answers[1])
        for tags in ([("a", "\ud800")], [("\ud800", "1")], [("a", 1)], [("a",)], [("a", "1", "2")], [["a", None]], "ab", 5):
            said = []
            for line in (Line("m", tags), SimpleNamespace(measurement="m", tags=tags)):
                with self.subTest(tags=tags), self.assertRaises((TypeError, ValueError)) as raised:
                    base(line)
                said.append((type(raised.exception), str(raised.exception)))
            self.assertEqual(said[0], said[1])

    def test_bases_and_keys_do_not_look_at_fields(self):
        for fields in ([], [("f", math.nan)], [("f", None)], [(None, 1)]):
            with self.subTest(fields=fields):
                self.assertEqual(base(Line("m", [("a", "2")], fields)), "m,a=2")
                self.assertEqual(key(Line("m", [("a", "2")], fields)), "m,a=2")
                self.assertTrue(is_base_safe(Line("m", [("a", "2")], fields)))

    def test_bases_are_safe_where_no_name_divides_them_or_is_one_escape_alone(self):
        more = "".join(f",{key}=v" for key in "abcdefgh")
        for series, text, safe in (
                ("m", "m", True),
                ("m,b=2,a=1", "m,a=1,b=2", True),
                ("m\\ n,a\\,b=1\\=2", "m n,a,b=1=2", True),
                ("m,a=1\\,b\\=2", "m,a=1,b=2", False),
                ("m\\,n", "m,n", False),
                ("m,a\\=b=1", "m,a=b=1", False),
                ("m,,=v", "m,,=v", False),
                ("m,\\,=v", "m,,=v", False),
                ("m,a=\\=", "m,a==", False),
                ("m" + more + ",i=9", "m" + more + ",i=9", True),
                ("m" + more + ",i=\\,9", "m" + more + ",i=,9", False)):
            with self.subTest(series=series):
                [line] = parse(series + " f=1i")
                self.assertEqual((base(line), is_base_safe(line)), (text, safe))

    def test_keys_tell_series_whatever_their_names_hold(self):
        tags = [f",k{number:02}=v" for number in range(99)]
        for series, text in (
                ("m", "m"),
                ("m,b=2,a=1", "m,a=1,b=2"),
                ("m,a=1\\,b\\=2", "m,a=1\\,b\\=2"),
                ("m,\\,=v", "m,\\,=v"),
                ("m,,=v", "m,\\,=v"),
                ("m,a=c\\d", "m,a=c\\\\d"),
                ("m,a=c\\\\d", "m,a=c\\\\d"),
                ("m,b=1,a=2,b=0,a=1", "m,a=2,a=1,b=1,b=0"),
                ("m,a=2,a=1,b=c", "m,a=2,a=1,b=c"),
                ("m=n,a=b=c,d=e", "m=n,a=b\\=c,d=e"),
                ("m=n,a,b=c,d=e", "m=n,a\\,b=c,d=e"),
                ("m=n=o,a=b,c=d", "m=n=o,a=b,c=d"),
                ("m,\U00010000=1,\uffff=1,aa=1,a=1,B=1", "m,B=1,a=1,aa=1,\uffff=1,\U00010000=1"),
                ("m" + "".join(reversed(tags)), "m" + "".join(tags))):
            with self.subTest(series=series):
                [line] = parse(series + " f=1i")
                self.assertEqual(key(line), text)
                [again] = parse(text + " f=1i")
                self.assertEqual(key(again), text)

    def test_keys_are_as_their_definition_says(self):
        rng = random.Random(7)

        def name():
            return "".join(rng.choices("abB,= \\\n\t#\u00e9", [9, 9, 9, 1, 1, 1, 1, 1, 1, 1, 3], k=rng.randrange(3)))

        for _ in range(3000):
            measurement, tags = name(), [(name(), name()) for _ in range(rng.randrange(4))]
            text = re.sub(r"[, \\]", r"\\\g<0>", measurement)
            for tag in sorted(tags, key=lambda tag: tag[0]):
                text += ",%s=%s" % tuple(re.sub(r"[,= \\]", r"\\\g<0>", part) for part in tag)
            self.assertEqual(key(Line(measurement, tags)), text)

    def test_names_that_do_not_read_back_have_keys(self):
        self.assertEqual(key(Line("#\n", [("b\\", ""), ("", "\t")])), "#\n,=\t,b\\\\=")

    def test_floats_read_back(self):
        for value in (5e-324, 1.7976931348623157e308, -0.0, 0.1, 1e22, 123456789.125):
            with self.subTest(value=value):
                [line] = parse(write(Line("m", [], [("f", value)])))
                self.assertEqual((math.copysign(1, line.fields[0][1]), line.fields[0][1]), (math.copysign(1, value), value))


class Rebuilding(unittest.TestCase):
    def test_a_text_is_rebuilt(self):
        self.assertEqual(
            rebuild("m f=1i 5\nm f\n b,x=y  g=t\n"),
            Rebuilt("m f=1i 5\nb,x=y g=true\n", "item 2: No fields were provided\n", 2, 1))
        self.assertEqual(rebuild(""), Rebuilt("", "", 0, 0))

    def test_bytes_are_rebuilt_as_bytes(self):
        text = "é,ü=ö\\ ß x=1i\nm é\n"
        rebuilt = rebuild(text)
        self.assertEqual((rebuilt.batch, rebuilt.refused), ("é,ü=ö\\ ß x=1i\n", 1))
        wanted = Rebuilt(rebuilt.batch.encode(), rebuilt.faults.encode(), 1, 1)
        for kind in (bytes, bytearray, memoryview):
            with self.subTest(kind=kind.__name__):
                self.assertEqual(rebuild(kind(text.encode())), wanted)

    def test_what_was_rebuilt_stays_as_it_is(self):
        first = rebuild(b"m f=1i\nm f\n"), rebuild("m f=1i\nm f\n")
        wanted = copy.deepcopy(first)
        rebuild("other g=t\n" * 100 + "x\n" * 100)
        self.assertEqual(first, wanted)

    def test_what_takes_more_room_than_the_text(self):
        for text in ("x\n" * 1000, "m " + ",".join(["a=t"] * 1000)):
            with self.subTest(text=text[:10]):
                rebuilt = rebuild(text)
                self.assertGreater(len(rebuilt.batch) + len(rebuilt.faults), len(text) * 3 // 2 + 64)
                self.assertEqual(
                    (rebuilt.carried, rebuilt.refused), (rebuilt.batch.count("\n"), rebuilt.faults.count("\n")))

    def test_no_more_memory_is_kept_than_a_call_may_keep(self):
        text = b"m f=1i\n" * (1 << 22)
        trace(self)
        self.assertEqual(rebuild(text).carried, 1 << 22)
        self.assertLess(tracemalloc.get_traced_memory()[0], 1 << 26)

    def test_threads_rebuild_side_by_side(self):
        texts = [f"m,t=a{number} f={number}i\nm {number}\n" * 2000 for number in range(8)]
        with ThreadPoolExecutor(4) as threads:
            self.assertEqual(list(threads.map(rebuild, texts * 4)), [rebuild(text) for text in texts] * 4)
