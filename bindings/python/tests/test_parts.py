"""Where files are cut, and what is read of the parts: together it is what is read of the whole."""

import bisect
import gc
import itertools
import os
import pickle
import random
import re
import subprocess
import sys
import tracemalloc
import unittest
from pathlib import Path
from unittest import mock

from line_protocol import _fast, columns, part_ends
from line_protocol.parts import START, after, as_paths, blocks_of, columns_of, cut, read_part
from line_protocol.sources import BLOCK
from shared import Folder, open_files, trace
from test_sources import DIALECTS, OPTIONS, located

TOP = Path(__file__).parents[3]
RELAY = os.environ.get("LP_RELAY", "")
COMMENT = re.compile(rb"[ \t]*#")
ALPHABET = [b"\n", b" ", b"\\", b'"', b"=", b",", b"#", b"m"]
LONG = b'm s="' + b"a\\\"\n" * 70_000 + b'" 1\nn f=1i\n# "\n' + b"# x=\"" + b"\n" * 300_000 + b'"\nlast f=1,s="' + b"\xff\n" * 90_000


def piece_end(data, start, dialect):
    """Where the newline is that ends the piece from `start` on, or None: docs/FORMAT.md, sections 3 and 17."""
    if dialect == "newline-delimited" or dialect == "strict" and COMMENT.match(data, start):
        found = data.find(b"\n", start)
        return None if found < 0 else found
    place, is_escaped, excess = "head", False, 0
    for at in range(start, len(data)):
        byte = data[at : at + 1]
        if is_escaped or byte == b"\\":
            is_escaped = not is_escaped
        elif place == "quoted":
            place = "plain" if byte == b'"' else place
        elif byte == b"\n":
            return at
        elif place == "head":
            place = "plain" if byte == b" " else place
        else:
            excess += (byte == b"=") - (byte == b",")
            place = "quoted" if byte == b'"' and excess > 0 else place
    return None


def cuts_of(data, dialect):
    """Each place directly after a newline that ends a piece, or the start where there is none."""
    cuts = [0]
    while (end := piece_end(data, cuts[-1], dialect)) is not None:
        cuts.append(end + 1)
    return cuts[1:] or cuts


def wanted_ends(data, cuts, parts):
    """The ends of parts as docs/FORMAT.md has them, section 20."""
    places = [max(1, number * len(data) // parts) for number in range(1, parts)]
    return [cuts[min(bisect.bisect_left(cuts, place), len(cuts) - 1)] for place in places] + [len(data)]


def in_blocks(data, chosen):
    """Data in blocks of any sizes."""
    cuts = sorted(chosen.randrange(len(data) + 1) for _ in range(chosen.randrange(6)))
    return [data[start:end] for start, end in zip([0, *cuts], [*cuts, len(data)])]


def corpora(folder, size):
    """Hostile corpora of the bench, each of about so many bytes."""
    names = ["hostile", "escapes", "strings", "faulty", "quotes", "manystrings"]
    subprocess.run(
        [sys.executable, "-B", TOP / "bench" / "corpora.py", "--seed", "parts", "--size", str(size), "--out", folder, *names],
        check=True, stdout=subprocess.DEVNULL)
    return [folder / f"{name}.lp" for name in names]


def lost():
    """Blocks of which one is lost."""
    yield b"m\n"
    raise RuntimeError("lost")


class Ends(unittest.TestCase):
    def compare(self, data, dialect, parts, blocks):
        found = _fast.part_ends(iter(blocks), len(data), parts, DIALECTS.index(dialect))
        if found != wanted_ends(data, cuts_of(data, dialect), parts):
            self.fail(f"{blocks}, dialect={dialect}, is cut into {parts} parts at {found}")

    def test_each_short_text(self):
        for size in range(6):
            for text in itertools.product(ALPHABET, repeat=size):
                data = b"".join(text)
                for dialect in DIALECTS:
                    self.compare(data, dialect, 4, [data])
                    self.compare(data, dialect, 4, text)

    def test_texts_in_blocks(self):
        chosen = random.Random(3)
        for _ in range(20_000):
            data = b"".join(chosen.choice([*ALPHABET, b"f=1i", b"\n", b"\xff", "é".encode()]) for _ in range(chosen.randrange(40)))
            self.compare(data, chosen.choice(DIALECTS), chosen.randrange(1, 60), in_blocks(data, chosen))

    def test_no_more_is_read_than_is_needed(self):
        blocks = iter([b"m f=1i\n" * 4, b"n f=1i\n" * 4, b"never", 5])
        self.assertEqual(_fast.part_ends(blocks, 61, 2, False), [35, 61])
        self.assertEqual(list(blocks), [b"never", 5])
        self.assertEqual(_fast.part_ends(blocks, 61, 1, False), [61])

    def test_what_is_handed_to_the_extension(self):
        for blocks in (b"m", [b"m"], None, 5):
            with self.subTest(blocks=blocks), self.assertRaises(TypeError):
                _fast.part_ends(blocks, 1, 2, False)
        for block in ("m", None, bytearray(b"m")):
            with self.subTest(block=block), self.assertRaisesRegex(TypeError, "blocks are bytes"):
                _fast.part_ends(iter([b"n", block]), 7, 2, False)
        for size, parts in ((-1, 2), (1, 0), (1, -1)):
            with self.subTest(size=size, parts=parts), self.assertRaises(TypeError):
                _fast.part_ends(iter([]), size, parts, False)
        with self.assertRaises(MemoryError):
            _fast.part_ends(iter([]), 1, sys.maxsize, False)
        with self.assertRaisesRegex(RuntimeError, "lost"):
            _fast.part_ends(lost(), 7, 5, False)


class Files(Folder):
    def test_a_file(self):
        data = b'm s="a\nb"\nn c=1i'
        path = self.file(data)
        self.assertEqual(part_ends(path, 2), [10, 16])
        self.assertEqual(part_ends(str(path), 1), [16])
        self.assertEqual(part_ends(path, 0), [16])
        self.assertEqual(part_ends(self.file(b"a\n"), 5), [2, 2, 2, 2, 2])
        self.assertEqual(part_ends(self.file(b""), 3), [0, 0, 0])
        self.assertEqual(part_ends(self.file(b"m f=1"), 3), [0, 0, 5])
        self.assertEqual(part_ends(self.file(b'# a="\nm b=1i\nn c=2i'), 2), [0, 19])
        self.assertEqual(part_ends(self.file(b'# a="\nm b=1i\nn c=2i'), 2, strict=True), [13, 19])

    def test_lines_longer_than_blocks(self):
        """Of a text of long strings and comments, the last of which nothing closes, and which is no UTF-8 in the end."""
        self.assertGreater(len(LONG), 5 * BLOCK)
        path = self.file(LONG)
        for dialect in DIALECTS:
            cuts = cuts_of(LONG, dialect)
            for parts in (1, 2, 3, 7, 100, 10_000):
                self.assertEqual(part_ends(path, parts, dialect=dialect), wanted_ends(LONG, cuts, parts))

    def test_corpora(self):
        for path in corpora(self.folder, 150_000):
            data = path.read_bytes()
            for dialect in DIALECTS:
                cuts = cuts_of(data, dialect)
                for parts in (2, 9, 300):
                    self.assertEqual(part_ends(path, parts, dialect=dialect), wanted_ends(data, cuts, parts))

    def test_a_file_that_is_not_there(self):
        with self.assertRaises(FileNotFoundError):
            part_ends(self.folder / "nothing", 2)
        with self.assertRaises(IsADirectoryError):
            part_ends(self.folder, 2)
        read, write = os.pipe()
        self.addCleanup(os.close, read)
        self.addCleanup(os.close, write)
        with self.assertRaises(OSError):
            part_ends(f"/dev/fd/{read}", 2)

    def test_a_file_that_becomes_shorter(self):
        path = self.file(b"m f=1i\n" * 100)
        [first, second] = cut([str(path)], 2, False)
        path.write_bytes(b"m f=1i\n" * 60)
        self.assertEqual(len(columns_of([read_part(first, False, None)], START, False).tables["m"]), 50)
        with self.assertRaisesRegex(EOFError, "has become shorter: it ends at 420, and not at 700"):
            read_part(second, False, None)

    def test_memory_stays_small(self):
        path = self.file(b'm s="' + b"a\n" * 8_000_000 + b'"\nn f=1i\n' + b"m f=1i\n" * 1_000_000)
        part_ends(path, 2)
        trace(self)
        self.assertEqual(part_ends(path, 2), [16_000_007, path.stat().st_size])
        self.assertLess(tracemalloc.get_traced_memory()[1], 4 * BLOCK)

    def test_files_are_closed(self):
        blocks = blocks_of([(str(self.file(b"m f=1i\n" * 100_000)), 0, 700_000)])
        before = open_files()
        next(blocks)
        del blocks
        gc.collect()
        self.assertEqual(open_files(), before)


@unittest.skipUnless(os.access(RELAY, os.X_OK), "LP_RELAY names no program")
class BesideTheProgram(Folder):
    def compare(self, path, all_parts=(1, 2, 3, 8, 64, 1001)):
        for dialect, words in OPTIONS.items():
            for parts in all_parts:
                said = subprocess.run([RELAY, *words, "--cut", str(parts), path], check=True, stdout=subprocess.PIPE).stdout
                if part_ends(path, parts, dialect=dialect) != [*map(int, said.split())]:
                    self.fail(f"{path} is cut into {parts} parts {dialect} in another way")

    def test_corpora(self):
        for path in corpora(self.folder, 700_000):
            self.compare(path)

    def test_long_strings(self):
        self.compare(self.file(LONG))
        self.compare(self.file(b'm s="' + b"\n" * 3_000_000))
        self.compare(self.file(b'm s="' + b"\n" * 3_000_000 + b'"\nn f=1i\n' * 70_000))

    def test_short_texts(self):
        chosen = random.Random(5)
        for _ in range(40):
            self.compare(self.file(b"".join(chosen.choice(ALPHABET + [b"\xff", b"\n"]) for _ in range(chosen.randrange(60)))), (2, 5, 30))


def whole_of(files):
    """What `lp_relay` reads of files one after another."""
    data = b""
    for one in files:
        data += b"\n" if data[-1:] not in (b"", b"\n") else b""
        data += one
    return data


def text_at_random(chosen):
    """A text of lines that can be read, with columns of all kinds, and of lines that cannot."""
    values = ["1i", "-5i", "2u", "0.25", "1e999", "t", "F", '"x"', '"a\n\\"b"', '""']
    lines = []
    for _ in range(chosen.randrange(30)):
        tags = "".join(f",{chosen.choice('abé')}={chosen.choice('xy')}" for _ in range(chosen.randrange(3)))
        fields = ",".join(f"{chosen.choice('abé')}={chosen.choice(values)}" for _ in range(chosen.randrange(4)))
        lines.append(f"{chosen.choice(['m', 'n', 'ö', '# c', ''])}{tags} {fields} {chosen.choice(['', '5', '-7'])}".encode())
    lines += [b"m \xff f=1i", b"\xc3", b"wrong", b'open f="', b""][: chosen.randrange(6)]
    return b"\n".join(chosen.sample(lines, len(lines))) + chosen.choice([b"", b"\n"])


class Parts(Folder):
    def told(self, read):
        """Columns with all that their faults say, and the types of what they hold."""
        return [located(read.faults), repr(read.tables)]

    def compare(self, texts, parts, **options):
        """Reads files in parts, which go from process to process as pickles, and compares them with the whole."""
        paths = [self.file(text, str(number)) for number, text in enumerate(texts)]
        number, max_line = DIALECTS.index(options.get("dialect", "crate")), options.get("max_line")
        all_parts = pickle.loads(pickle.dumps(cut(as_paths(paths), parts, number)))
        self.assertEqual(len(all_parts), parts)
        reads = [pickle.loads(pickle.dumps(read_part(part, number, max_line))) for part in all_parts]
        for use_numpy in (False, None):
            wanted = columns(iter([whole_of(texts)]), use_numpy=use_numpy, **options)
            self.assertEqual(self.told(columns_of(reads, START, use_numpy)), self.told(wanted))
        places = list(itertools.accumulate(reads, after, initial=START))
        each = [columns_of([read], place, use_numpy) for read, place in zip(reads, places)]
        self.assertEqual(located(fault for part in each for fault in part.faults), located(wanted.faults))
        return each

    def test_files_one_after_another(self):
        texts = [b"m f=1i\nx", b"", b'm s="a\nb",f=2.5\n', b"n f", b"m f=3u 5", b"# c\n"]
        for parts in (1, 2, 3, 5, 9, 30):
            self.compare(texts, parts)
        self.compare([], 3)
        self.compare([b"", b""], 2)
        self.compare([b'open f="', b'closed"\nm f=1i'], 2)
        self.assertEqual(len(self.compare([b"m f=1i\n" * 5], 5)[3].tables["m"]), 1)

    def test_at_random(self):
        chosen = random.Random(13)
        for _ in range(400):
            texts = [text_at_random(chosen) for _ in range(chosen.randrange(1, 4))]
            options = {"dialect": chosen.choice(DIALECTS), "max_line": chosen.choice([None, None, 8, 20])}
            with self.subTest(texts=texts, options=options):
                self.compare(texts, chosen.choice([1, 2, 3, 7, 40]), **options)

    def test_many_blocks(self):
        text = b"".join(b'm,t=a%d f=%di,s="\n%d" %d\nwrong\n%s' % (i % 7, i, i, i, b"" if i % 90 else b"x \xff\n") for i in range(30_000))
        self.assertGreater(len(text), 8 * BLOCK)
        for part in self.compare([text, text[:-3]], 6):
            self.assertGreater(len(part.tables["m"]), 9_000)

    def test_columns_of_several_kinds(self):
        """Each part has one kind, which the whole has not; where a kind is numbers, a cell that is missing is none of these."""
        for first, second in itertools.permutations(["1i", "2u", "0.5", "t", '"x"'], 2):
            [one, two] = self.compare([f"m f={first}\nm g=1i\nm f={second}".encode()], 2)
            self.assertEqual((list(one.tables["m"].fields), list(two.tables["m"].fields)), (["f", "g"], ["f"]))
        self.compare([b"m f=1i,f=t\nm f=f\nm,f=x g=1i\nm f=t"], 3)


class Arguments(unittest.TestCase):
    def test_paths(self):
        with mock.patch("os.getcwd", return_value="/some"):
            self.assertEqual(as_paths(["a", Path("b"), "/c/d"]), ["/some/a", "/some/b", "/c/d"])
            self.assertEqual(as_paths("a"), ["/some/a"])
            self.assertEqual(as_paths(()), [])
