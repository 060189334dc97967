"""Texts, sets and inputs from small to large. What is wanted is composed here, by the rules of docs/FORMAT.md."""

import os
import random
import unittest

from line_protocol import (
    DuplicateTag, Fault, FaultKind, Line, Rebuilt, Side, Unsigned, base, is_admitted, key, parse, rebuild, show, split, write)

from shared import build, typed

# Under a sanitizer the largest take too long.
SIZES = (1, 65, 1025, 65_537, 1_048_577)[:3 if "WATCHED" in os.environ else 5]
COUNTS = (1, 9, 17, 1001, 100_001)[:4 if "WATCHED" in os.environ else 5]

# Eight bytes for each kind of text. A text of a size ends in the last byte given, which is no backslash.
PLAIN, ESCAPED, BEYOND_ASCII, STRING = ("abcdefgh", "z"), (",\\= x,\\y", ","), ("é,€\\=", ","), ('a"\\ ,=\n\\', '"')

# What a backslash is put before where a text is written, and where it is shown.
WRITTEN = {"measurement": "\\, ", "tag key": "\\,= ", "tag value": "\\,= ", "field key": "\\,= ", "string": '\\"'}
SHOWN = {"measurement": ", ", "tag key": ",= ", "tag value": ",= ", "field key": ",= ", "string": '"'}


def text_of(size, kind):
    """A text of so many bytes, which is 1 more than a multiple of 8."""
    part, end = kind
    return part * (size // 8) + end


def marked(texts, marks):
    """Texts, each with a backslash before each of the characters that its place has there."""
    return [text.translate({ord(mark): "\\" + mark for mark in marks[place]}) for place, text in texts.items()]


def line_of(texts):
    """A line with these texts, and its text as it is written and as it is shown."""
    name, key, value, field_key, string = texts.values()
    written = '{},{}={} {}="{}" 5\n'.format(*marked(texts, WRITTEN))
    return Line(name, [(key, value)], [(field_key, string)], 5), written, "{},{}={} {}={} 5".format(*marked(texts, SHOWN))


class Calls(unittest.TestCase):
    def same(self, given, wanted):
        """Compares what may be too large to be printed."""
        if given != wanted:
            sized = [f"{type(one).__name__} of {len(one)}" if hasattr(one, "__len__") else repr(one)[:80] for one in (given, wanted)]
            self.fail(f"it is {sized[0]}, and should be another {sized[1]}")

    def each_call(self, line, written, shown):
        """Hands a line to each call that takes one, and reads it."""
        self.same(write(line), written)
        self.same(show(line), shown)
        self.assertIs(is_admitted(line), True)
        self.same(build(line), written)
        self.same([typed(item) for item in parse(written)], [typed(line)])
        self.same(list(split(written)), [written[:-1], ""])
        self.same(rebuild(written), Rebuilt(written, "", 1, 0))


class Sizes(Calls):
    def test_texts(self):
        for place in WRITTEN:
            for kind in (PLAIN, ESCAPED, BEYOND_ASCII, STRING)[: 4 if place == "string" else 3]:
                for size in SIZES:
                    with self.subTest(place=place, kind=kind, size=size):
                        texts = dict(zip(WRITTEN, ("m", "t", "v", "f", "s")))
                        texts[place] = text_of(size, kind)
                        self.each_call(*line_of(texts))
                        name, tag, value, *_ = texts.values()
                        self.same(base(Line(name, [(tag, value)])), f"{name},{tag}={value}")
                        self.same(key(Line(name, [(tag, value)])), "{},{}={}".format(*marked(texts, WRITTEN)))

    def test_a_repeated_key(self):
        for kind in (PLAIN, ESCAPED, BEYOND_ASCII):
            for size in SIZES:
                key = text_of(size, kind)
                with self.subTest(kind=kind, size=size), self.assertRaises(DuplicateTag) as raised:
                    base(Line("m", [("a", "1"), (key, "2"), (key, "3")]))
                self.same(raised.exception.args, (key,))

    def test_texts_of_faults(self):
        for size in SIZES:
            digits, rest = "9" * max(size, 20), " é" * size
            for text, fault in [
                (f"m f={digits}i", Fault(FaultKind.INTEGER_VALUE_INVALID, digits, Side.ABOVE)),
                (f"m f=-{digits}i", Fault(FaultKind.INTEGER_VALUE_INVALID, "-" + digits, Side.BELOW)),
                (f"m f={digits}u", Fault(FaultKind.UINTEGER_VALUE_INVALID, digits, Side.ABOVE)),
                (f"m f=1i {digits}", Fault(FaultKind.TIMESTAMP_VALUE_INVALID, digits, Side.ABOVE)),
                (f"m f=1i{rest}", Fault(FaultKind.CANNOT_PARSE_ENTIRE_LINE, rest)),
            ]:
                with self.subTest(size=size, text=text[:10]):
                    self.same(list(parse(f"{text}\nm f=1i")), [fault, Line("m", [], [("f", 1)])])

    def test_long_numbers(self):
        for size in SIZES:
            with self.subTest(size=size):
                self.same(list(parse(f"m f={'0' * size}7i -{'0' * size}5")), [Line("m", [], [("f", 7)], -5)])
                text = f"m f={'1' * (size + 400)}e-1\n"
                self.same([write(line) for line in parse(text)], [text])


def values_of(count):
    """So many values of all kinds, each with its text as it is written and as it is shown."""
    kinds = (
        lambda i: (-i, f"{-i}i", f"{-i}i"), lambda i: (Unsigned(i), f"{i}u", f"{i}u"), lambda i: (i + 0.5, f"{i}.5", f"{i}.5"),
        lambda i: (f'"{i}', f'"\\"{i}"', f'\\"{i}'), lambda i: (i % 2 == 0, *["false" if i % 2 else "true"] * 2))
    return [kinds[i % 5](i) for i in range(count)]


def in_orders(count):
    """So many keys, which rise, fall, or do neither."""
    rising = [f"k{i:06}" for i in range(count)]
    shuffled = random.Random(count).sample(rising, count)
    return {"rising": rising, "falling": rising[::-1], "shuffled": shuffled}.items()


class Counts(Calls):
    def test_tags_and_fields(self):
        for count in COUNTS:
            with self.subTest(count=count):
                values, keys = values_of(count), dict(in_orders(count))["shuffled"]
                series = "m," + ",".join(f"{key}=v\\ {i}" for i, key in enumerate(keys))
                self.each_call(
                    Line("m", [(key, f"v {i}") for i, key in enumerate(keys)], list(zip(keys, (value for value, _, _ in values))), 5),
                    f"{series} " + ",".join(f"{key}={text}" for key, (_, text, _) in zip(keys, values)) + " 5\n",
                    f"{series} " + ",".join(f"{key}={text}" for key, (_, _, text) in zip(keys, values)) + " 5")

    def test_bases_and_keys(self):
        for count in COUNTS:
            for order, keys in in_orders(count):
                with self.subTest(count=count, order=order):
                    tags = [(name, f"v {i}") for i, name in enumerate(keys)]
                    text = "m," + ",".join(f"{name}={value}" for name, value in sorted(tags))
                    self.same(base(Line("m", tags)), text)
                    self.same(key(Line("m", tags)), text.replace(" ", "\\ "))

    def test_a_repeated_key(self):
        for count in COUNTS:
            for order, keys in in_orders(count):
                for more in ([keys[count // 2]], [keys[-1], keys[0]]):
                    with self.subTest(count=count, order=order, more=more), self.assertRaises(DuplicateTag) as raised:
                        base(Line("m", [(key, "v") for key in keys + more]))
                    self.same(raised.exception.args, (more[0],))


class LongTexts(Calls):
    REFUSED = [
        ("x", "A generic parsing error occurred: TakeWhile1", Fault(FaultKind.GENERIC_PARSING_ERROR)),
        ("m f", "No fields were provided", Fault(FaultKind.FIELD_SET_MISSING)),
        ("m f=1i é", "Could not parse entire line. Found trailing content: ' é'", Fault(FaultKind.CANNOT_PARSE_ENTIRE_LINE, " é")),
        ("m f=9223372036854775808i", "Unable to parse integer value '9223372036854775808'",
         Fault(FaultKind.INTEGER_VALUE_INVALID, "9223372036854775808", Side.ABOVE)),
        ("m,t= f=1i", "Tag Set Malformed", Fault(FaultKind.TAG_SET_MALFORMED)),
        ("a\\\tb f=1i", "a name cannot be written again", Line("a\\\tb", [], [("f", 1)])),
    ]
    """Lines that are not rebuilt, why, and what is read of each."""

    @classmethod
    def setUpClass(cls):
        """As many lines as faults, in turn: a text of more than 4 MB."""
        count = 200_000
        cls.lines = [f"m,host=a{i} usage={i}i {i}\n" for i in range(count)]
        cls.refused = [cls.REFUSED[i % len(cls.REFUSED)] for i in range(count)]
        cls.text = "".join(line + text + "\n" for line, (text, _, _) in zip(cls.lines, cls.refused))

    def test_rebuild(self):
        self.assertGreater(len(self.text), 4 << 20)
        batch = "".join(self.lines)
        faults = "".join(f"item {2 * i + 2}: {why}\n" for i, (_, why, _) in enumerate(self.refused))
        self.same(rebuild(self.text), Rebuilt(batch, faults, len(self.lines), len(self.refused)))
        self.same(
            rebuild(self.text.encode(), strict=True),
            Rebuilt(batch.encode(), faults.encode(), len(self.lines), len(self.refused)))

    def test_split(self):
        self.same(list(split(self.text)), self.text.split("\n"))

    def test_parse(self):
        items = list(parse(self.text))
        self.same(items[0::2], [Line("m", [("host", f"a{i}")], [("usage", i)], i) for i in range(len(self.lines))])
        self.same(items[1::2], [item for _, _, item in self.refused])
