"""What is read, in one block and over several."""

import contextlib
import io
import runpy
import unittest
import weakref
from pathlib import Path

from line_protocol import Fault, FaultKind, Line, Side, Unsigned, parse, split


class Lines(unittest.TestCase):
    def test_each_kind_of_value(self):
        [line] = parse('cpu,host=A,zone=w i=-64i,u=18446744073709551615u,f=1.5e3,s="a b",t=T,n=false -5')
        self.assertEqual(line.measurement, "cpu")
        self.assertEqual(line.tags, [("host", "A"), ("zone", "w")])
        self.assertEqual(
            line.fields, [("i", -64), ("u", 2**64 - 1), ("f", 1500.0), ("s", "a b"), ("t", True), ("n", False)])
        self.assertEqual([type(value) for _, value in line.fields], [int, Unsigned, float, str, bool, bool])
        self.assertEqual(line.timestamp, -5)

    def test_escapes_are_taken_off(self):
        [line] = parse('c\\ pu,h\\=ost=A\\ B msg="a\\"b",k\\,l=1i')
        self.assertEqual(line, Line("c pu", [("h=ost", "A B")], [("msg", 'a"b'), ("k,l", 1)]))

    def test_texts_beyond_ascii(self):
        text = 'é,ü=ö\\ ß ä="€\\"",x=1i\n'
        wanted = Line("é", [("ü", "ö ß")], [("ä", '€"'), ("x", 1)])
        self.assertEqual(list(parse(text)), [wanted])
        self.assertEqual(list(parse(text.encode())), [wanted])

    def test_no_item(self):
        for text in ("\n\n", "# a comment", "  \n#\n"):
            with self.subTest(text=text):
                self.assertEqual(list(parse(text)), [])

    def test_faults_are_in_their_places(self):
        items = list(parse("a f=1i\nm 5\nm f=9223372036854775808i\nm u=-1u\nm f=1 rest\nb f=2i"))
        self.assertEqual([type(item) for item in items], [Line, Fault, Fault, Fault, Fault, Line])
        self.assertEqual(items[1], Fault(FaultKind.FIELD_SET_MISSING))
        self.assertEqual(items[2], Fault(FaultKind.INTEGER_VALUE_INVALID, "9223372036854775808", Side.ABOVE))
        self.assertEqual(items[4].kind, FaultKind.CANNOT_PARSE_ENTIRE_LINE)
        self.assertIn("rest", items[4].text)

    def test_repeated_keys_are_kept(self):
        [line] = parse("m,a=1,a=2 f=1i,f=2i")
        self.assertEqual((line.tags, line.fields), ([("a", "1"), ("a", "2")], [("f", 1), ("f", 2)]))

    def test_pieces(self):
        text = 'a f=1\n b f="x\ny"\nc'
        for given in (text, *(kind(text.encode()) for kind in (bytes, bytearray, memoryview))):
            self.assertEqual(list(split(given)), ["a f=1", ' b f="x\ny"', "c"])

    def test_the_example_prints_its_items(self):
        printed = io.StringIO()
        with contextlib.redirect_stdout(printed):
            runpy.run_path(str(Path(__file__).parent.parent / "example.py"))
        self.assertEqual(
            printed.getvalue(),
            "disk usage [('host', 'a')] [('free', 42.5)] None\na fault: FIELD_SET_MISSING \n"
            "the value of the tag 'user' is not admitted: 'guest\\npayments' holds a newline\n"
            "Counter({'cpu': 4, 'cpu,az=b,host=a': 3})\n")


class Blocks(unittest.TestCase):
    def test_blocks_lose_nothing(self):
        for count in (1, 255, 256, 257, 1000):
            with self.subTest(count=count):
                text = "\n".join(f'm,t=a\\ {i} f={i}i,g="\\"{i}" {i}' for i in range(count))
                self.assertEqual(
                    list(parse(text)), [Line("m", [("t", f"a {i}")], [("f", i), ("g", f'"{i}')], i) for i in range(count)])

    def test_a_line_with_more_parts_than_a_block_has(self):
        fields = [(f"f{i}", i) for i in range(10_000)]
        text = "a f=1i\nw " + ",".join(f"{key}={value}i" for key, value in fields) + "\nb f=2i"
        self.assertEqual(
            list(parse(text)), [Line("a", [], [("f", 1)]), Line("w", [], fields), Line("b", [], [("f", 2)])])

    def test_a_text_with_more_copies_than_a_block_has_room(self):
        long = "\\ x" * 20_000
        text = f"a\\ b f=1i\nm,t={long} f=1i\nc\\ d f=2i\nm f=1 {long}"
        items = list(parse(text))
        self.assertEqual([item.measurement for item in items[:3]], ["a b", "m", "c d"])
        self.assertEqual(items[1].tags, [("t", " x" * 20_000)])
        self.assertIsInstance(items[3], Fault)

    def test_the_text_is_kept_while_it_is_read(self):
        items = parse(b"m f=1i\n" * 1000)
        self.assertEqual(sum(1 for _ in items), 1000)

    def test_an_item_that_is_let_go_is_held_by_nothing(self):
        items = parse("m f=1i\nm f\n" * 500)
        line, fault = weakref.ref(next(items)), weakref.ref(next(items))
        for _ in range(500):
            next(items)
        self.assertEqual((line(), fault()), (None, None))
