"""`parse` with `errors="raise"`, and what is said where a path was given as a text, or bytes that gzip made."""

import gzip
import io
import os
import unittest
import warnings
from pathlib import Path

from line_protocol import Fault, Line, Unreadable, columns, parse, to_frame

from shared import Folder, copies_of, pandas

TEXT = "m f=1i\nm f=\n# a comment\nn f=2i\nm f=99999999999999999999i 5\n"


class Raising(unittest.TestCase):
    SOURCES = {
        "a text": lambda: TEXT, "bytes": TEXT.encode, "a file": lambda: io.BytesIO(TEXT.encode()),
        "parts": lambda: iter([TEXT[:9], TEXT[9:].encode()])}

    def test_each_line_and_each_fault(self):
        for name, source in self.SOURCES.items():
            for words in ({}, {"dialect": "newline-delimited"}, {"strict": True}, {"max_line": 100}):
                with self.subTest(source=name, words=words):
                    items, faults, found = parse(source(), errors="raise", **words), [], []
                    while True:
                        try:
                            found.append(next(items))
                        except Unreadable as raised:
                            faults.append(raised.fault)
                        except StopIteration:
                            break
                    given = list(parse(source(), **words))
                    self.assertEqual(found, [item for item in given if isinstance(item, Line)])
                    self.assertEqual(faults, [item for item in given if isinstance(item, Fault)])
                    self.assertEqual([(fault.line, fault.item) for fault in faults], [(2, 2), (5, 4)])

    def test_what_is_said(self):
        with self.assertRaises(ValueError) as found:
            list(parse(TEXT, errors="raise"))
        self.assertEqual((type(found.exception), str(found.exception)), (Unreadable, "line 2: No fields were provided: b'm f='"))
        for again in copies_of(found.exception):
            self.assertEqual((type(again), str(again), again.fault), (Unreadable, str(found.exception), found.exception.fault))
        with self.assertRaises(Unreadable) as found:
            list(parse("m f=1i " + 100_000 * "x", errors="raise"))
        self.assertLess(len(str(found.exception)), 400)

    def test_lines_that_can_be_read(self):
        self.assertEqual(list(parse("m f=1i\n# c\n\n", errors="raise")), [Line("m", [], [("f", 1)])])
        self.assertEqual(list(parse("", errors="raise")), [])
        self.assertEqual(list(parse(TEXT, errors="fault")), list(parse(TEXT)))

    def test_what_is_no_word_for_errors(self):
        for errors, raised, why in ((None, TypeError, "errors is a str, not NoneType"), (True, TypeError, "errors is a str, not bool: True"),
                                    ("strict", ValueError, "errors is 'fault' or 'raise', not 'strict'"), ("", ValueError, "not ''")):
            with self.subTest(errors=errors), self.assertRaisesRegex(raised, why):
                parse(TEXT, errors=errors)


class Paths(Folder):
    """In a folder with a file data.lp."""

    def setUp(self):
        super().setUp()
        self.addCleanup(os.chdir, os.getcwd())
        os.chdir(self.folder)
        Path("data.lp").write_text(TEXT)
        Path("m f=1i").write_text(TEXT)

    def test_a_path_that_is_given_as_a_text(self):
        hint = r"a str is a text, and there is a file of that name: pathlib\.Path\('data\.lp'\) is read as a path"
        with self.assertRaisesRegex(Unreadable, rf"line 1: .*: b'data\.lp'; {hint}"):
            list(parse("data.lp", errors="raise"))
        calls = [parse, lambda source: columns(source, use_numpy=False), *([to_frame] if pandas else [])]
        for call in calls:
            with self.assertWarnsRegex(UserWarning, hint):
                call("data.lp")
        with self.assertWarns(UserWarning) as told:
            parse("data.lp")
        self.assertEqual(told.filename, __file__)

    def test_other_texts_are_no_paths(self):
        with warnings.catch_warnings():
            warnings.simplefilter("error")
            for text in ("no.lp", "m f=1i", "data.lp\n", "", "m", ".", "data.lp\0", "\ud800"[:0], "x" * 5000, b"data.lp", Path("data.lp")):
                with self.subTest(text=text):
                    list(parse(text))
                    columns(text, use_numpy=False)
        with self.assertRaises(Unreadable) as found:
            list(parse("no.lp", errors="raise"))
        self.assertNotIn("file", str(found.exception))


class Compressed(Folder):
    DATA = gzip.compress(TEXT.encode())
    HINT = "it begins as what gzip made: gzip.open reads such a file, and gzip.decompress such bytes"

    def test_bytes_that_gzip_made(self):
        for call in (parse, lambda data: columns(data, use_numpy=False), *([to_frame] if pandas else [])):
            for kind in (bytes, bytearray, memoryview):
                with self.assertRaisesRegex(UnicodeDecodeError, f"invalid start byte; {self.HINT}"):
                    call(kind(self.DATA))

    def test_a_file_that_gzip_made(self):
        path = self.file(self.DATA)
        with self.assertRaisesRegex(Unreadable, f"the line is not UTF-8: .*; {self.HINT}"):
            list(parse(path, errors="raise"))
        for call in (lambda source: columns(source, use_numpy=False), *([to_frame] if pandas else [])):
            with self.assertWarnsRegex(UserWarning, self.HINT):
                call(path)

    def test_other_bytes(self):
        for data in (b"m f=1i\n" + self.DATA, b"\x1f", b"m\xff", b"\x1f\x8c"):
            with self.subTest(data=data[:9]), warnings.catch_warnings():
                warnings.simplefilter("error")
                columns(io.BytesIO(data), use_numpy=False)
