"""Portable lines: the rows of checks/portable_rows.txt, which an oracle and measured servers tell of. The head of that table says how a row
is spelled."""

import re
import sys
import unittest
from pathlib import Path

from line_protocol import CLAUSES, Limits, Line, Unsigned, broken_clauses, is_portable, split, verdicts, write

TABLE = Path(__file__).parents[3] / "checks" / "portable_rows.txt"
ESCAPES = {"n": b"\n", "t": b"\t", "r": b"\r", "0": b"\0", "\\": b"\\"}
MEASURED = Limits(latest=1796100000000000000)
"""The rows were measured at such a time, and VictoriaMetrics keeps no timestamp that comes two days later."""


def many(found):
    """What `{TEXT*COUNT}` stands for."""
    width = len(str(int(found[2]) - 1))
    return "".join(found[1].replace("@", f"{at:0{width}}") for at in range(int(found[2])))


def text_of(cell):
    """The bytes that a cell stands for."""
    parts = re.split(r"\\(x[0-9a-f]{2}|.)", re.sub(r"\{([^{}]*)\*(\d+)\}", many, cell))
    parts[1::2] = [ESCAPES.get(part) or bytes.fromhex(part[1:]) for part in parts[1::2]]
    return b"".join(part if isinstance(part, bytes) else part.encode() for part in parts)


def rows():
    """The text of each row, the names of what it breaks, or None, and what is made of it."""
    for line in TABLE.read_text(encoding="utf-8").split("\n"):
        if line and line[0] != "#":
            _, cell, bits, *told = line.split("\t")
            names = [name for place, name in enumerate(CLAUSES, 1) if int(bits) >> place & 1]
            yield text_of(cell), None if int(bits) & 1 else tuple(names), told


ROWS = list(rows())


class Rows(unittest.TestCase):
    def test_each_row_breaks_what_the_oracle_says(self):
        self.assertGreater(len(ROWS), 200)
        for text, names, _ in ROWS:
            with self.subTest(text=text[:80]):
                self.assertEqual(broken_clauses(text), names)
                self.assertEqual(is_portable(text), names == ())
                if names is not None:
                    self.assertEqual(broken_clauses(text.decode()), names)

    def test_what_is_portable_is_read_so(self):
        for server, at in (("influx1", 0), ("victoria", 2)):
            portable = [told[at : at + 2] for text, _, told in ROWS if is_portable(text, server, limits=MEASURED)]
            self.assertEqual([told for told in portable if told != ["same", "same"]], [])
            self.assertGreater(len(portable), 50)
            self.assertGreater(sum(told[at : at + 2] != ["same", "same"] for _, _, told in ROWS), 50)

    def test_servers_have_clauses_of_their_own(self):
        for text, names, _ in ROWS:
            one, other = broken_clauses(text, "influx1"), broken_clauses(text, "victoria")
            if names is not None:
                self.assertEqual(set(one) | set(other), set(names))
                self.assertEqual((one, other), tuple(tuple(n for n in names if n in some) for some in (one, other)))
            self.assertEqual((is_portable(text, "influx1"), is_portable(text, "victoria")), (one == (), other == ()))

    def test_many_lines_by_one_call(self):
        its = [(text.rstrip(b"\n"), names) for text, names, _ in ROWS if names is not None]
        wanted = [(text, names) for text, names in its if b"\n" not in text] * 5
        body = b"\n\n# a comment\n".join(text for text, _ in wanted)
        for dialect in ("strict", "newline-delimited"):
            self.assertEqual(verdicts(body, dialect=dialect), wanted)
            self.assertEqual(verdicts(body.decode(), dialect=dialect), [(text.decode(), names) for text, names in wanted])
            self.assertEqual(
                [text for text, broken in verdicts(body, "influx1", dialect=dialect) if broken == ()],
                [text for text, _ in wanted if is_portable(text, "influx1")])


class Texts(unittest.TestCase):
    def test_what_is_no_line(self):
        for text in ("", "\n", "\n\n", " ", "# m f=1", "m f=1\n\n", "m f=1\nm f=1", "m f=1\r\n", "m f=", 'm s="\n', b"m f=\xff", b"m\xff f=1"):
            with self.subTest(text=text):
                self.assertEqual((broken_clauses(text), is_portable(text)), (None, False))

    def test_what_verdicts_tell_of_others(self):
        self.assertEqual((verdicts(""), verdicts(b"\n \n# m f=1\n")), ([], []))
        self.assertEqual(
            verdicts(b"m 5\n\xff f=1\n m f=1u\r\nm f=1,"), [(b"m 5", None), (b"\xff f=1", None), (b" m f=1u\r", None), (b"m f=1,", None)])
        body = 'm s="a\nm f=1"\nm f=1'
        self.assertEqual(verdicts(body), [('m s="a\nm f=1"', ("newline",)), ("m f=1", ())])
        self.assertEqual(verdicts(body, dialect="newline-delimited"), [('m s="a', None), ('m f=1"', None), ("m f=1", ())])

    def test_a_line_that_takes_more_than_is_lent(self):
        tags = "".join(f",t{at}=\\ {at}" for at in range(10_000))
        long = f"m{tags} " + ",".join(f"f{at}={at}" for at in range(10_000))
        spaces = "m,t=" + "\\ " * 200_000 + " f=1"
        told = verdicts("m f=1\n" + "\n".join([long, spaces] * 3) + "\nm f=1u")
        self.assertEqual([line for line, _ in told], ["m f=1", *[long, spaces] * 3, "m f=1u"])
        self.assertEqual([names for _, names in told], [broken_clauses(line) for line, _ in told])
        self.assertIn("too_many_tags", told[1][1])
        self.assertIn("long_tag_value", told[2][1])

    def test_what_is_written(self):
        line = write(Line("m", [("a", "x\\y")], [("f", Unsigned(1))]))
        self.assertEqual((broken_clauses(line), broken_clauses(line, "victoria")), (("tag_escape", "unsigned"), ()))

    def test_pieces_are_those_of_the_splitter(self):
        body = 'm f=1\nm s="a\nb" 5\n\n#x\n m,a=b f=1u\nm s="\\"\\\n" 5'
        for dialect in ("crate", "strict", "newline-delimited"):
            lines = [line for line in split(body, dialect=dialect) if line and line[0] != "#"]
            self.assertEqual([line for line, _ in verdicts(body, dialect=dialect)], lines)

    @unittest.skipIf(sys.maxsize < 2**32, "no text is so long")
    def test_a_text_that_no_row_holds(self):
        try:
            text = bytes(2**32 + 1)
        except MemoryError:
            self.skipTest("there is no memory for the text")
        self.assertIsNone(broken_clauses(text))


class LimitsOfServers(unittest.TestCase):
    ALL = {"line": 2**70, "tags": 2**70, "earliest": -(2**63), "latest": 2**63 - 1}

    def test_limits_are_those_that_are_given(self):
        for limits, text, names in [
            ({"line": 4}, "m f=1", ("long_line",)), ({"line": 5}, "m f=1\n", ()), ({"line": 0}, "m f=1", ("long_line",)),
            ({"tags": 1}, "m,a=1,b=2 f=1", ("too_many_tags",)), ({"tags": 0}, "m f=1", ()),
            ({"earliest": 6}, "m f=1 5", ("time_not_kept",)), ({"latest": -6}, "m f=1 -5", ("time_not_kept",)),
            ({"earliest": 5, "latest": 5}, "m f=1 5", ()),
        ]:
            with self.subTest(limits=limits, text=text):
                own = Limits(**{**self.ALL, **limits})
                self.assertEqual(broken_clauses(text, limits=own), names)
                self.assertEqual([broken for _, broken in verdicts(text, limits=own)], [names])
                self.assertEqual(is_portable(text, "victoria", limits=own), not names)

    def test_what_is_refused(self):
        for words, error, said in [
            ({"limits": None}, TypeError, "limits are Limits, not NoneType: None"), ({"limits": (1, 2, 3, 4)}, TypeError, "limits are Limits"),
            ({"limits": Limits(tags=-1)}, ValueError, "tags of Limits is -1, and must not be less than 0"),
            ({"limits": Limits(line="5")}, TypeError, "line of Limits is an int, not str: '5'"),
            ({"limits": Limits(line=True)}, TypeError, "line of Limits is an int, not bool"),
            ({"limits": Limits(latest=2**63)}, OverflowError, "latest of Limits"), ({"servers": "Victoria"}, ValueError, "not 'Victoria'"),
            ({"servers": None}, TypeError, "servers are a str, not NoneType"), ({"servers": ["all"]}, TypeError, "servers are a str"),
        ]:
            for call in (broken_clauses, is_portable, verdicts):
                with self.subTest(call=call.__name__, words=words), self.assertRaisesRegex(error, said):
                    call("m f=1", **words)
