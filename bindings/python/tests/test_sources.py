"""What is read from paths, files and parts, and where a fault says that it is."""

import array
import bz2
import contextlib
import copy
import gc
import gzip
import io
import itertools
import json
import mmap
import os
import pathlib
import pickle
import random
import re
import subprocess
import sys
import threading
import tracemalloc
import unittest
import warnings
import weakref
from concurrent.futures import ThreadPoolExecutor
from typing import get_args
from unittest import mock

import line_protocol
from line_protocol import Dialect, Fault, FaultKind, Line, columns, parse, rebuild, split

from shared import Folder, copies_of, open_files, table_of, trace, typed

RELAY = os.environ.get("LP_RELAY", "")
DIALECTS = get_args(Dialect)
OPTIONS = {dialect: [] if dialect == "crate" else [f"--{dialect}"] for dialect in DIALECTS}
"""How `lp_relay` is asked for each dialect."""

TEXT = 'cpu,host=a\\ b usage=64i,load=1.50 5\n# a comment\n\nm s="a\nb",u=7u\nm f\nümlaut,t=ö s="\\"" -3\nlast f=t'


def located(items):
    """Items with all that they say."""
    return [
        (typed(item), *(getattr(item, name, None) for name in (
            "item", "line", "offset", "last_line", "piece_line", "piece_offset", "refused", "stop_line", "stop_column"))) for item in items]


def in_parts(data, size):
    """Data in parts of this size."""
    return (data[at : at + size] for at in range(0, len(data), size))


class Kinds(Folder):
    def sources(self, text):
        """Each kind of source, with what closes it."""
        data = text.encode()
        path = self.file(data)
        (self.folder / "gz").write_bytes(gzip.compress(data))
        (self.folder / "bz2").write_bytes(bz2.compress(data))
        opened = [
            open(path, "rb"), open(path, "rb", buffering=0), open(path, encoding="utf-8", newline=""), gzip.open(self.folder / "gz"),
            gzip.open(self.folder / "gz", "rt", encoding="utf-8", newline=""), bz2.open(self.folder / "bz2"), io.BytesIO(data),
            io.StringIO(text, newline="")]
        for file in opened:
            self.addCleanup(file.close)
        yield from opened
        yield from (path, data, bytearray(data), memoryview(data), array.array("B", data), text)
        with open(path, "rb") as file, mmap.mmap(file.fileno(), 0, access=mmap.ACCESS_READ) as mapped:
            yield mapped
        for size in (1, 2, 3, 7, 1000):
            yield in_parts(data, size)
            yield in_parts(text, size)
            yield map(bytearray, in_parts(data, size))
        yield iter([data])
        yield iter([text[:20], data[len(text[:20].encode()) :]])

    def test_each_kind_of_source(self):
        for text in (TEXT, TEXT + "\n", "m f=1i", "\n", "#", " "):
            for dialect in DIALECTS:
                wanted = located(parse(text, dialect=dialect))
                for source in self.sources(text):
                    with self.subTest(text=text, dialect=dialect, source=type(source).__name__):
                        self.assertEqual(located(parse(source, dialect=dialect)), wanted)

    def test_a_source_of_nothing(self):
        for source in (b"", "", io.BytesIO(), iter([]), iter([b"", ""]), self.file(b"")):
            with self.subTest(source=source):
                self.assertEqual(list(parse(source)), [])

    def test_blocks_lose_nothing(self):
        text = "".join(f'm,t=a\\ {i} f={i}i,g="\n{"x" * 200}" {i}\nwrong\n' for i in range(15_000))
        self.assertGreater(len(text), 3 << 20)
        data, wanted = text.encode(), located(parse(text))
        for source in (io.BytesIO(data), self.file(data), in_parts(data, 100_003), iter([text])):
            items = located(parse(source))
            if items != wanted:
                self.fail(f"not the same items from {source}")

    def test_a_line_longer_than_many_blocks(self):
        long = b'm s="' + b"a\n" * 4_000_000 + b'"\nn f=1i'
        items = list(parse(io.BytesIO(long)))
        self.assertEqual([item.measurement for item in items], ["m", "n"])
        self.assertEqual(len(items[0].fields[0][1]), 8_000_000)
        with mock.patch.object(line_protocol._fast, "cut", wraps=line_protocol._fast.cut) as cut:
            self.assertEqual(list(parse(in_parts(long, 20_000))), items)
        self.assertLess(cut.call_count, 20)  # of 401 parts

    def test_a_character_that_utf_8_has_not(self):
        items = parse(iter(["m f=1i\n", "\ud800"]))
        self.assertEqual(next(items), Line("m", [], [("f", 1)]))
        with self.assertRaises(UnicodeEncodeError):
            next(items)
        self.assertEqual(list(items), [])

    def test_what_is_left_of_a_source_is_made_by_calls_alone(self):
        for items in (parse("m f=1i"), split("a"), parse(iter([]))):
            with self.assertRaises(TypeError):
                type(items)()
            with self.assertRaises(TypeError):
                copy.copy(items)
            with self.assertRaises(TypeError):
                pickle.dumps(items)
            self.assertIs(iter(items), items)
        with self.assertRaises(TypeError):
            line_protocol._fast.columns(split("a"))
        with self.assertRaises(TypeError):
            line_protocol._fast.read("m", 5, False, False)

    def test_a_path_that_cannot_be_opened(self):
        with self.assertRaises(FileNotFoundError):
            parse(self.folder / "nothing")
        with self.assertRaises(IsADirectoryError):
            parse(self.folder)

    def test_what_reading_raises_comes_through(self):
        class Failing(io.RawIOBase):
            def read(self, size=-1):
                raise OSError("the device failed")

        with self.assertRaisesRegex(OSError, "the device failed"):
            list(parse(Failing()))

        def parts():
            yield b"m f=1i\n"
            raise RuntimeError("lost")

        items = parse(parts())
        self.assertEqual(next(items).measurement, "m")
        with self.assertRaisesRegex(RuntimeError, "lost"):
            next(items)
        self.assertEqual(list(items), [])

    def test_files_are_closed(self):
        path = self.file(TEXT.encode())
        with warnings.catch_warnings(record=True) as told:
            warnings.simplefilter("always")
            list(parse(path))
            parse(path)
            next(parse(path))
            gc.collect()
        self.assertEqual(told, [])
        before = open_files()
        held = [parse(path) for _ in range(10)]
        del held
        self.assertEqual(open_files(), before)

    def test_lines_come_as_they_arrive(self):
        read, write = os.pipe()
        with open(read, "rb") as source, open(write, "wb", buffering=0) as target:
            items = parse(source)
            for number in range(3):
                target.write(b"m f=%di\nm f" % number)
                self.assertEqual(next(items), Line("m", [], [("f", number)]))
                target.write(b"=0i\n")
                self.assertEqual(next(items), Line("m", [], [("f", 0)]))


def pieces_of(data, dialect):
    """The pieces of bytes, which need not be UTF-8: start, end, and whether the piece gives an item."""
    at = 0
    for piece in split(data.decode("latin-1").translate({byte: "x" for byte in range(128, 256)}), dialect=dialect):
        yield at, at + len(piece)
        at += len(piece) + 1


ALPHABET = [b"\n", b"\n", b" ", b" ", b"\\", b'"', b"=", b"=", b",", b"#", b"m", b"1i", b"f=1i", b"\xff", b"\xc3", b"\t", "é".encode()]
"""Bytes that mean something, and some that are no UTF-8."""

DROPPED = re.compile(rb"(?:[ \t\n]|#[^\n]*)*")
"""What is dropped at the start of a piece: docs/FORMAT.md, section 4."""


def bad_byte_of(data):
    """The place of the first byte that makes bytes no UTF-8, or None."""
    try:
        data.decode()
    except UnicodeDecodeError as raised:
        return raised.start
    return None


def unread(kind, refused, stop, piece):
    """The fault of a piece that is not read. Reading stopped at this byte of it."""
    return Fault(kind, refused=refused, stop_line=1 + piece.count(b"\n", 0, stop), stop_column=stop - piece.rfind(b"\n", 0, stop))


def wanted_of(data, dialect, limit):
    """The items of bytes as docs/FORMAT.md has it for a relay: each piece alone."""
    items, number = [], 0
    for start, end in pieces_of(data, dialect):
        piece = data[start:end]
        bad, text, line = bad_byte_of(piece), start + DROPPED.match(piece).end(), 1 + data.count(b"\n", 0, start)
        if limit is not None and len(piece) > limit:
            found = [unread(FaultKind.TOO_LONG, piece[:limit], 0, piece)]
        elif bad is not None:
            found = [unread(FaultKind.NOT_UTF8, piece, bad, piece)]
        else:
            found = list(parse(piece, dialect=dialect))
            assert len(found) < 2
        for item in found:
            number += 1
            is_read = isinstance(item, Line) or item.kind < 100
            item.offset, item.last_line = text if is_read else start, line + piece.count(b"\n")
            item.line = 1 + data.count(b"\n", 0, item.offset)
            if isinstance(item, Fault):
                item.item, item.piece_line, item.piece_offset, item.stop_line = number, line, start, item.stop_line + line - 1
                item.refused = piece if is_read else item.refused
            items.append(item)
    return located(items)


PLACES = [
    (b"x", None, [(1, 0, 1, 0)], None),
    (b"  x", None, [(1, 2, 1, 0)], None),
    (b"\n\n  \tx", None, [(3, 5, 3, 2)], None),
    (b"\\\nx", None, [(1, 0, 1, 0)], None),
    (b"#\\\n x", None, [(2, 4, 1, 0)], [(2, 4, 2, 3)]),
    (b"#\\\n#\\\n\t x\nm", None, [(3, 8, 1, 0), (4, 10, 4, 10)], [(3, 8, 3, 6), (4, 10, 4, 10)]),
    (b'# c\n\nm s="a\nb"\nx\n', None, [(5, 15, 5, 15)], None),
    (b'\tm s="a\nb",v=9i9', None, [(1, 1, 1, 0)], None),
    (b'# a="\nx" b\n y', None, [(2, 6, 1, 0), (3, 12, 3, 11)], [(2, 6, 2, 6), (3, 12, 3, 11)]),
    ("# é\n é".encode(), None, [(2, 6, 2, 5)], None),
    (b"\n\n\t\xff", None, [(3, 2, 3, 2)], None),
    (b"#\\\n \xff", None, [(1, 0, 1, 0)], [(2, 3, 2, 3)]),
    (b"\n   xxxx\n x", 5, [(2, 1, 2, 1), (3, 10, 3, 9)], None),
    (b"\n#\\\n xxxx\n x", 5, [(2, 1, 2, 1), (4, 11, 4, 10)], [(3, 5, 3, 4), (4, 11, 4, 10)]),
]
"""Bytes, `max_line`, and line, offset, piece_line and piece_offset of each fault; also in the strict dialect, if they differ there."""


class Places(unittest.TestCase):
    def test_the_place_of_the_text_and_that_of_its_piece(self):
        for data, limit, wanted, in_strict in PLACES:
            for dialect in ("crate", "strict"):
                for size in (1, 2, 3, len(data)):
                    with self.subTest(data=data, dialect=dialect, size=size):
                        items = list(parse(in_parts(data, size), dialect=dialect, max_line=limit))
                        faults = [item for item in items if isinstance(item, Fault)]
                        found = [(fault.line, fault.offset, fault.piece_line, fault.piece_offset) for fault in faults]
                        self.assertEqual(found, in_strict if dialect == "strict" and in_strict else wanted)
                        told = columns(in_parts(data, size), dialect=dialect, max_line=limit, use_numpy=False)
                        self.assertEqual(located(told.faults), located(faults))

    def test_where_reading_stops(self):
        """The rows of docs/FORMAT.md, section 9, each after a comment and before a line."""
        for text, line, column in (
                ("x\\\\", 2, 1), (",x", 2, 1), ("m,t=v,u=w\\\\ a=1i", 2, 9), ("m,t a=1i", 2, 4), ("m,t=v,u a=1i", 2, 6), ('m s="a\nb",v=1i9', 3, 8),
                ("m,t=v a=", 2, 9), (" m a=1i,b=\"\n\n\",c=99999999999999999999u", 4, 5), ("m a=1i 99999999999999999999", 2, 8), ("m a=1i,b", 2, 8)):
            with self.subTest(text=text):
                [fault, _] = parse(f"# c\n{text}\nm f=1i")
                self.assertEqual((fault.stop_line, fault.stop_column), (line, column))

    def test_places_are_copied_and_do_not_count(self):
        for item in parse('\n m s="a\nb"\nm f'):
            for same in copies_of(item):
                self.assertEqual(located([same]), located([item]))
                same.line = same.last_line = same.offset = 0
                self.assertEqual(same, item)
        made = Line("m", [], [("f", 1)])
        self.assertEqual((made.line, made.offset, made.last_line), (0, 0, 0))

    def test_messages_are_those_of_rebuild(self):
        text = "\n".join([
            ",a=b f=1i", "m", "m f", "m,t= f=1i", "m f=99999999999999999999i", "m f=99999999999999999999u", "m f=1i 99999999999999999999",
            "m\\ f=1i", "m f=1i {x}", "m,a f=1i", "m f=1i,,", "m\\"])
        told = rebuild(text)
        faults = list(parse(text))
        self.assertEqual(told.refused, len(faults))
        self.assertEqual("".join(f"item {fault.item}: {fault.message}\n" for fault in faults), told.faults)
        self.assertEqual({fault.kind for fault in faults}, {kind for kind in FaultKind if 1 < kind < 100})

    def test_faults_compare_by_what_is_wrong(self):
        [first, second] = parse("m f\nm f")
        self.assertEqual((first, first), (second, Fault(FaultKind.FIELD_SET_MISSING)))
        self.assertNotEqual((first.item, first.line, first.offset), (second.item, second.line, second.offset))

    def test_many_faults_over_many_blocks(self):
        text = "".join("m f\n" if i % 3 else "# c\n\nm f=1i\n" for i in range(20_000))
        for fault in parse(text):
            if isinstance(fault, Fault):
                self.assertEqual(text[fault.offset : fault.offset + 4], "m f\n")
        self.assertEqual(located(parse(text)), wanted_of(text.encode(), "crate", None))


@unittest.skipUnless(os.access(RELAY, os.X_OK), "LP_RELAY names no program")
class BesideTheProgram(Folder):
    def objects(self, path, dialect, limit):
        """What `lp_relay` says of the faults of a file."""
        options = OPTIONS[dialect] + ["--verbatim", "--check", "--faults", "json"]
        options += [] if limit is None else ["--max-line", str(limit)]
        said = subprocess.run([RELAY, *options, path], stdout=subprocess.DEVNULL, stderr=subprocess.PIPE, check=False)
        self.assertIn(said.returncode, (0, 1), said.stderr[-500:])
        return [json.loads(line) for line in said.stderr.splitlines()]

    def test_each_fault_is_where_the_program_says(self):
        chosen, count = random.Random(23), 0
        for _ in range(60):
            data = b"".join(chosen.choice(ALPHABET) for _ in range(chosen.randrange(400)))
            path, dialect, limit = self.file(data), chosen.choice(DIALECTS), chosen.choice([None, None, 1, 3, 8])
            objects = self.objects(path, dialect, limit)
            count += len(objects)
            keys = ["item", "line", "offset", "piece_line", "piece_offset", "stop_line", "stop_column"]
            objects = [{"stop_line": one["line"], "stop_column": 1, **one} for one in objects]  # of a line that is too long it says none
            with self.subTest(data=data, dialect=dialect, limit=limit):
                for source in (path, in_parts(data, 7)):
                    faults = [item for item in parse(source, dialect=dialect, max_line=limit) if isinstance(item, Fault)]
                    self.assertEqual(
                        [[*(getattr(fault, key) for key in keys), fault.kind.name.lower(), fault.message] for fault in faults],
                        [[*(one[key] for key in keys), one["kind"], one["text"]] for one in objects])
        self.assertGreater(count, 500)


class Bytes(unittest.TestCase):
    """Lines that are no UTF-8, or too long."""

    def test_a_line_that_is_no_utf8(self):
        data = b"m f=1i\nm,t=\xff f=2i\n# \xfe\nm s=\"\xc3\n\"\nm f=3i\n\xe2\x82"
        items = list(parse(io.BytesIO(data)))
        self.assertEqual(located(items), wanted_of(data, "crate", None))
        self.assertEqual([type(item) for item in items], [Line, Fault, Fault, Fault, Line, Fault])
        self.assertEqual((items[1].kind, items[1].message), (FaultKind.NOT_UTF8, "the line is not UTF-8"))
        self.assertEqual((items[1].item, items[1].line, items[1].offset, items[1].refused), (2, 2, 7, b"m,t=\xff f=2i"))
        self.assertEqual((items[5].item, items[5].line, items[5].refused), (6, 7, b"\xe2\x82"))

    def test_a_character_over_two_parts(self):
        for at in range(10):
            data = "mé f=1i\nn€ f=2i".encode()
            self.assertEqual([item.measurement for item in parse(iter([data[:at], data[at:]]))], ["mé", "n€"])

    def test_a_line_that_is_too_long(self):
        data = b'm f=1i\nlong s="a\nb"\nm f=2i\nlonger f=1i'
        for source in (data, data.decode(), io.BytesIO(data), in_parts(data, 1), in_parts(data, 5)):
            items = list(parse(source, max_line=6))
            self.assertEqual([type(item) for item in items], [Line, Fault, Line, Fault])
            self.assertEqual((items[1].kind, items[1].message, items[1].refused), (FaultKind.TOO_LONG, "the line is too long", b"long s"))
            self.assertEqual([(fault.item, fault.line, fault.offset) for fault in items[1::2]], [(2, 2, 7), (4, 5, 27)])
            self.assertEqual(items[2], Line("m", [], [("f", 2)]))
        self.assertEqual(len(list(parse(data, max_line=13))), 4)
        self.assertEqual(len([item for item in parse(data, max_line=13) if isinstance(item, Line)]), 4)

    def test_the_greatest_and_the_least_limit(self):
        self.assertEqual(len(list(parse("m f=1i", max_line=10**30))), 1)
        self.assertEqual([item.kind for item in parse("m f=1i\n\n", max_line=0)], [FaultKind.TOO_LONG])

    def test_a_text_in_memory_is_utf8_or_refused(self):
        for limit in (None, 3, 100):
            with self.subTest(limit=limit), self.assertRaises(UnicodeDecodeError):
                parse(b"m f=1i\n\xff", max_line=limit)

    def test_each_text_cut_anywhere(self):
        """Texts over bytes that mean something, in parts of any sizes, with each limit."""
        chosen = random.Random(7)
        for _ in range(20_000):
            data = b"".join(chosen.choice(ALPHABET) for _ in range(chosen.randrange(24)))
            dialect, limit = chosen.choice(DIALECTS), chosen.choice([None, None, 0, 1, 2, 3, 5, 8])
            cuts = sorted(chosen.randrange(len(data) + 1) for _ in range(chosen.randrange(6)))
            parts = [data[start:end] for start, end in zip([0, *cuts], [*cuts, len(data)])]
            with self.subTest(parts=parts, dialect=dialect, limit=limit):
                self.assertEqual(located(parse(iter(parts), dialect=dialect, max_line=limit)), wanted_of(data, dialect, limit))
            if bad_byte_of(data) is None:
                with self.subTest(data=data, dialect=dialect, limit=limit):
                    self.assertEqual(located(parse(data, dialect=dialect, max_line=limit)), wanted_of(data, dialect, limit))


class Memory(Folder):
    @unittest.skipUnless(os.path.exists("/proc/self/statm"), "the system does not say how much memory is taken")
    @unittest.skipIf("WATCHED" in os.environ, "the sanitizer keeps what is given back")
    def test_a_million_items_take_no_more_memory_than_a_few(self):
        block = b"".join(b"m,t=a%d f=1i,g=0.10 %d\nm f\n%s" % (i, i, b"" if i % 50 else b"x \xff\n") for i in range(5_000))
        count = 0
        for count, _ in enumerate(parse(itertools.repeat(block, 100)), 1):
            if count == 250_000:
                before = self.resident()
        self.assertEqual(count, 1_010_000)
        self.assertLess(self.resident(), before + (4 << 20))

    def resident(self):
        """How many bytes of memory the process takes."""
        gc.collect()
        return int(pathlib.Path("/proc/self/statm").read_text(encoding="ascii").split()[1]) * mmap.PAGESIZE

    def test_a_long_line_that_is_refused_is_not_kept(self):
        trace(self)
        parts = itertools.chain([b'm s="'], itertools.repeat(b"a\n" * 50_000, 300), [b'"\nm f=1i'])
        items = list(parse(parts, max_line=1000))
        self.assertEqual([(item.kind, item.line) for item in items[:1]], [(FaultKind.TOO_LONG, 1)])
        self.assertEqual(items[1].measurement, "m")
        self.assertLess(tracemalloc.get_traced_memory()[1], 1 << 20)

    def test_a_line_does_not_keep_its_block(self):
        block = b"m,t=a f=0.10 5\n" * 6_000
        trace(self)
        kept = [item for number, item in enumerate(parse(itertools.repeat(block, 50))) if number % 6_000 == 0]
        self.assertEqual(len(kept), 50)
        self.assertLess(tracemalloc.get_traced_memory()[0], 1 << 20)


class Collection(unittest.TestCase):
    def test_collection_while_items_are_read(self):
        threshold = gc.get_threshold()
        self.addCleanup(gc.set_threshold, *threshold)
        gc.set_threshold(1, 1, 1)
        text = 'm,t=a\\ b f=0.10,s="x",u=1u 5\nwrong\nm f=1e400\n' * 30
        self.assertEqual(len(list(parse(iter([text])))), 90)

    def test_cycles_are_collected(self):
        [line, fault] = parse("m,t=a f=1i\nm f")
        line.fields.append(("self", line))
        fault.text = fault
        items = None

        def parts():
            yield b"m f=1i\n"
            yield items

        items = parse(parts())
        next(items)
        references = [weakref.ref(one) for one in (line, fault)]
        del line, fault, items
        gc.collect()
        self.assertEqual([reference() for reference in references], [None, None])

    def test_objects_count_their_references(self):
        """Reads and writes much, and counts the references of what is shared, and the objects."""
        text = 'm,t=a\\ b,k=v f=0.10,s="x",u=1u,b=t,i=5i 5\nwrong\nm f=1e400\nm f=1i\n'

        def once():
            items = list(parse(iter([text])))
            lines = [item for item in items if isinstance(item, Line)]
            line_protocol.write_many(lines)
            for line in lines:
                line_protocol.show(line), line_protocol.base(line), line_protocol.key(line)
                line_protocol.is_admitted(line), line_protocol.is_base_safe(line)
            for wrong in (None, Line("m"), Line("m", 5), Line("m", [], [("f", None)]), Line(5), Line("m", [(1, 2)])):
                with contextlib.suppress(ValueError, TypeError):
                    line_protocol.write(wrong)

        once()
        shared = [None, True, FaultKind.GENERIC_PARSING_ERROR, line_protocol.Side.NEITHER, Line, Fault, line_protocol.Unsigned]
        gc.collect()
        before = [*map(sys.getrefcount, shared), len(gc.get_objects())]
        for _ in range(5000):
            once()
        gc.collect()
        after = [*map(sys.getrefcount, shared), len(gc.get_objects())]
        for one, two in zip(before, after):
            self.assertLess(abs(one - two), 3000)


class Threads(unittest.TestCase):
    def test_threads_read_side_by_side(self):
        texts = [f"m,t=a{number} f={number}i\nm {number}\n" * 5000 for number in range(4)]
        with ThreadPoolExecutor(4) as threads:
            found = list(threads.map(lambda text: list(parse(text)), texts))
        self.assertEqual(found, [list(parse(text)) for text in texts])

    def test_the_lock_is_let_go_while_a_block_is_read(self):
        """Another thread counts while a call is in the library, which gives it no other chance to run."""
        count, is_over = [0], threading.Event()

        def go_on():
            while not is_over.wait(0.0001):
                count[0] += 1

        long, numbers = 'm s="' + "x" * 16_000_000 + '"', array.array("q", range(100_000))
        table = line_protocol.rows._told_table("m", table_of(numbers, {"f": numbers, "g": numbers})["m"])
        calls = [
            (lambda: long.encode(), parse), (lambda: parse(long), next), (lambda: None, lambda _: line_protocol.rebuild(long)),
            (lambda: long.encode(), lambda data: line_protocol._fast.cut(data, 0, 9)),
            (lambda: long.encode(), lambda data: line_protocol._fast.part_ends(iter([data]), len(data), 2, False)),
            (lambda: iter([table]), lambda tables: line_protocol._fast.write_columns(tables, 0, []))]
        interval = sys.getswitchinterval()
        self.addCleanup(sys.setswitchinterval, interval)
        sys.setswitchinterval(100)
        thread = threading.Thread(target=go_on)
        thread.start()
        told = []
        for prepare, call in calls:
            for _ in range(30):  # on a busy machine the other thread may not be awake in time
                given = prepare()
                before = count[0]
                call(given)
                if count[0] > before:
                    told.append(call)
                    break
        is_over.set()
        thread.join()
        self.assertEqual(len(told), len(calls))

    def test_one_source_in_many_threads(self):
        """Each item goes to one thread, or a call is refused."""
        items, refused = parse("m f=1i\n" * 200_000), []

        def read():
            count = 0
            while True:
                try:
                    next(items)
                    count += 1
                except StopIteration:
                    return count
                except ValueError as raised:
                    refused.append(raised)

        interval = sys.getswitchinterval()
        self.addCleanup(sys.setswitchinterval, interval)
        sys.setswitchinterval(1e-6)
        with ThreadPoolExecutor(4) as threads:
            taken = [threads.submit(read) for _ in range(4)]
        self.assertEqual(sum(count.result() for count in taken), 200_000)
        self.assertTrue(all("another call" in str(one) for one in refused))

    def test_a_source_that_reads_itself(self):
        items = None

        def parts():
            yield b"m f=1i\n"
            next(items)

        items = parse(parts())
        next(items)
        with self.assertRaisesRegex(ValueError, "another call"):
            next(items)
