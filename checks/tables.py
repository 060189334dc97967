#!/usr/bin/env python3
"""Compares each row of checks/tables with what the library gives. It prints each row that differs, and how many rows of each kind there are.
Each table says at its head how a row is spelled.

    checks/tables.py LIBRARY

LIBRARY: the calls of crates/lp_checks and rows.c as a shared library; checks/tables.sh makes it. Status 1: a row differs, or checks/tables/counts.txt has
other counts of rows.
"""

import collections
import ctypes
import itertools
import multiprocessing
import pathlib
import random
import re
import struct
import sys
from concurrent.futures import ProcessPoolExecutor
from dataclasses import dataclass, field

from library import (ALL, CARRIED, FAULTS_AT, FINISH, FINISH_TEXT, LINES_AT, NEXT, NEXT_TEXT, NO_LIMIT, REFUSED, STATUS, Library, numbers,
                     sized)
from random_texts import random_parts, random_text

FOLDER = pathlib.Path(__file__).resolve().parent / "tables"
LIBRARY = Library(sys.argv[1])
DIALECTS = {b"crate": [0], b"strict": [1], b"newline_delimited": [2], b"both": [0, 1], b"all": [0, 1, 2]}
DIALECT_LETTERS = [b"", b"s", b"n"]
SHORT, MOST_CUT, MOST_BY_BYTES, MOST_PARTS = 6, 64, 4096, 12
MOST_SHOWN = 2000


class Differs(Exception):
    """A row is not as it says."""


def same(what, given, wanted):
    if given == wanted:
        return
    if max(len(given), len(wanted)) > MOST_SHOWN:
        raise Differs(f"{what}: {len(given)} bytes, where {len(wanted)} others are wanted")
    raise Differs(f"{what}: {given!r}, where {wanted!r} is wanted")


def must(holds):
    if not holds:
        raise Differs("the row has other cells than its kind, or what it needs did not come")


def utf8(text):
    """The text, which must be UTF-8."""
    try:
        text.decode()
    except UnicodeDecodeError:
        must(False)
    return text


# ---- rows ----

ESCAPE = re.compile(rb"\\(?:\{(?P<times>\d+):(?P<part>(?:[^\\}]|\\.)*)\}|x(?P<byte>[0-9a-f]{2})|(?P<letter>[ntr0\\}]))|(?P<wrong>\\)", re.DOTALL)
MEANT = {b"n": b"\n", b"t": b"\t", b"r": b"\r", b"0": b"\0", b"\\": b"\\", b"}": b"}"}


def meant(found, is_part):
    must(not found["wrong"] and (is_part or found["letter"] != b"}"))
    if found["times"]:
        return cell(found["part"], True) * int(found["times"])
    return bytes.fromhex(found["byte"].decode()) if found["byte"] else MEANT[found["letter"]]


def cell(spelled, is_part=False):
    """A cell, or a part of it that comes some times, without its escapes."""
    return ESCAPE.sub(lambda found: meant(found, is_part), spelled)


# ---- items, as the tables spell them ----

PART = re.compile(rb"(?P<letter>[SCf])(?P<size>\d+):|s|(?P<kind>[iu])(?P<number>-?\d+)|(?P<word>true|false| at -?\d+|[,= ])")


# Each fault as the rows name it, and what is written before and after the text that it carries, if it carries one.
FAULTS = {
    b"MeasurementValueInvalid": (b"Invalid measurement was provided", None),
    b"FieldSetMissing": (b"No fields were provided", None),
    b"IntegerValueInvalid": (b"Unable to parse integer value '", b"'"),
    b"UIntegerValueInvalid": (b"Unable to parse unsigned integer value '", b"'"),
    b"TimestampValueInvalid": (b"Unable to parse timestamp value '", b"'"),
    b"EndsWithBackslash": (b"Measurements, tag keys and values, and field keys may not end with a backslash", None),
    b"rest": (b"Could not parse entire line. Found trailing content: '", b"'"),
    b"TagSetMalformed": (b"Tag Set Malformed", None),
    b"TakeWhile1": (b"A generic parsing error occurred: TakeWhile1", None),
}


def spelled_fault(entry):
    side = entry[:6] if entry.startswith((b"Above ", b"Below ")) else b""
    for name, (front, back) in FAULTS.items():
        if back is None and entry == front:
            return name
        if back is not None and entry.startswith(side + front) and entry.endswith(back):
            return name + b" " + side + b"<" + entry[len(side + front):len(entry) - len(back)] + b">"
    return entry


def spelled_item(entry):
    if not entry.startswith(b"line "):
        return spelled_fault(entry)
    size = entry[5:entry.index(b":")]
    at, made = 5 + len(size) + 1 + int(size) + 1, []
    while at < len(entry):
        found = PART.match(entry, at)
        at = found.end()
        if found["letter"]:
            made.append(found["letter"] + b"<" + entry[at:at + int(found["size"])] + b">")
            at += int(found["size"])
        else:
            made.append(found["number"] + found["kind"] if found["kind"] else found["word"] or b"")
    return b"".join(made)


def items_are(dialect, text, wanted):
    """The items of a text, read in each way."""
    utf8(text)
    for name in "items", "reused", "events", "pulled":
        same(f"{name} in dialect {dialect}", b"|".join(map(spelled_item, LIBRARY.reported(name, dialect, text))), wanted)


def spelled_base(entry):
    word, _, rest = entry.partition(b" ")
    return {b"borrowed": b"B<", b"owned": b"O<"}[word] + sized(rest)[0] + b">" if word in (b"borrowed", b"owned") else entry


def base_of(text):
    return spelled_base(LIBRARY.reported("bases", 0, utf8(text))[0])


def in_angles(pieces):
    return b"".join(b"<" + piece + b">" for piece in pieces)


# ---- answers.tsv ----

def series_of(dialect, text):
    return b"|".join(sized(item[5:])[0] if item.startswith(b"line ") else b"" for item in LIBRARY.reported("items", dialect, text))


def counted(counts):
    """How many items were written again, and how many not."""
    return [int(count) for count in re.fullmatch(rb"(\d+) carried, (\d+) refused", counts).groups()]


def rebuilt_of(dialect, text):
    batch, _, counts = LIBRARY.reported("rows_rebuilt", dialect, text)
    carried, refused = counted(counts)
    return b"%d of %d <%s>" % (carried, carried + refused, batch)


def run_of(dialect, text):
    must(LIBRARY.relay(DIALECT_LETTERS[dialect], text, way="run") == 0)
    return b"%d <%s> <%s>" % (LIBRARY.told[STATUS], *LIBRARY.outputs()[:2])


def carried_and_refused():
    return LIBRARY.told[CARRIED], LIBRARY.told[REFUSED]


def as_written(dialect, text):
    """Whether a canonical relay takes the text as one line."""
    is_taken = LIBRARY.relay(b"c" + DIALECT_LETTERS[dialect], text) == 0 and carried_and_refused() == (1, 0)
    return b"true" if is_taken and LIBRARY.outputs()[0] == text + b"\n" else b"false"


# What a question is answered, by dialects; and where there is no other dialect than that of the Rust crate.
BY_DIALECT = {b"pieces": lambda dialect, text: in_angles(LIBRARY.reported("rows_pieces", dialect, text)), b"series": series_of, b"rebuilt": rebuilt_of,
              b"run": run_of, b"as_written": as_written}
BY_CRATE = {b"columns": lambda text: LIBRARY.reported("keys", 0, text)[4], b"fault": lambda text: LIBRARY.reported("shown", 0, text)[0],
            b"base": base_of, b"key": lambda text: LIBRARY.reported("keys", 0, text)[0].partition(b":")[2],
            b"shown": lambda text: LIBRARY.reported("shown", 0, text)[0]}


def compare_answers(kind, text, *answers):
    must(0 < len(answers) <= 3)
    utf8(text)
    if kind in BY_CRATE:
        same("in the dialect of the crate", BY_CRATE[kind](text), answers[0])
        return
    for dialect, wanted in enumerate(answers):
        if kind == b"items":
            items_are(dialect, text, wanted)
        else:
            same(f"in dialect {dialect}", BY_DIALECT[kind](dialect, text), wanted)


# ---- streams.tsv ----

@dataclass
class Stream:
    """A stream of a dialect, with the greatest length of a piece, or `None`."""

    dialect: int
    limit: int | None

    def joined(self, text, steps):
        """The answers to the calls that steps spell."""
        return LIBRARY.joined("calls", self.dialect, self.limit is not None, self.limit or 0, text, steps)[0]

    def gives(self, what, text, parts, wanted):
        """The answers for a text in these parts; if there is no limit, they are the same with a limit that is none."""
        steps = numbers([*itertools.chain.from_iterable((part, ALL) for part in parts), FINISH])
        same(what, self.joined(text, steps), wanted)
        if self.limit is None:
            same(f"{what}, with a limit that is none", Stream(self.dialect, NO_LIMIT).joined(text, steps), wanted)

    def wanted(self, text):
        """The answers that the pieces of a text must have."""
        made = []
        for piece in LIBRARY.reported("rows_pieces", self.dialect, text):
            is_long = self.limit is not None and len(piece) > self.limit
            made.append((b"TooLong %d %d " % (piece.count(b"\n"), len(piece)) if is_long else b"") + b"<" + piece[:self.limit] + b">")
        return b"".join(made)

    def cut_text_gives(self, text, ways, steps):
        """A text that is cut in some ways, one after another, has the answers of its pieces."""
        if self.joined(text * ways, steps) != self.wanted(text) * ways:
            raise Differs(f"other pieces come of {text!r}, cut in {ways} ways, in dialect {self.dialect}")


def pieces_are(stream, text, wanted):
    if stream.limit is None:
        try:
            text.decode()
            same("the pieces of the whole text", in_angles(LIBRARY.reported("rows_pieces", stream.dialect, text)), wanted)
        except UnicodeDecodeError:
            pass
    stream.gives("byte by byte", text, [1] * len(text), wanted)
    for at in range(len(text) + 1 if len(text) <= MOST_CUT else 1):
        stream.gives(f"cut at {at}", text, [at] * (at > 0) + [len(text) - at], wanted)


def calls_give(stream, *cells):
    """The calls of one stream, each in two cells: its name, and the part that it is passed or the answer."""
    calls = {b"next": NEXT, b"finish": FINISH, b"next_text": NEXT_TEXT, b"finish_text": FINISH_TEXT}
    names, texts = cells[::2], cells[1::2]
    must(len(names) == len(texts))
    pushed = b"".join(text for name, text in zip(names, texts) if name == b"push")
    steps = numbers([len(text) if name == b"push" else calls[name] for name, text in zip(names, texts)])
    given = LIBRARY.reported("calls", stream.dialect, stream.limit is not None, stream.limit or 0, pushed, steps)
    same("the answers", given, [text for name, text in zip(names, texts) if name != b"push"])


def long_gives(stream, front, count, part, end, wanted):
    stream.gives("in parts", front + part * int(count) + end, [len(front), *[len(part)] * int(count), len(end)], wanted)


def ways_of(length):
    """Each way to cut a text of this length: the lengths of its parts. The last way is byte by byte."""
    for cuts in range(1 << max(length - 1, 0)):
        places = [0, *(at + 1 for at in range(length - 1) if cuts >> at & 1), length]
        yield [end - start for start, end in itertools.pairwise(places)] if length else []


def short_texts(letters, length):
    return (bytes(text) for text in itertools.product(letters, repeat=length))


def steps_of(ways):
    """The steps that push a text in some ways, one after another."""
    return numbers([step for parts in ways for step in [*itertools.chain.from_iterable((part, ALL) for part in parts), FINISH]])


def short_texts_give(stream, letters, cuts, count):
    tried = 0
    must(len(letters) == 7 and cuts in (b"all", b"bytes"))
    for length in range(SHORT + 1):
        ways = list(ways_of(length))
        ways = ways if cuts == b"all" else ways[-1:]
        steps = steps_of(ways)
        for text in short_texts(letters, length):
            stream.cut_text_gives(text, len(ways), steps)
        tried += len(ways) * 7**length
    must(tried == int(count))


def random_texts_give(stream, seed, texts, ways):
    rng, most = random.Random(int(seed)), stream.limit
    for _ in range(int(texts)):
        text = random_text(rng)
        if most is not None:
            stream.limit = rng.randrange(most)
        stream.cut_text_gives(text, int(ways), steps_of([random_parts(rng, len(text)) for _ in range(int(ways))]))


STREAMS = {b"pieces": pieces_are, b"calls": calls_give, b"long": long_gives, b"short_texts": short_texts_give, b"random": random_texts_give,
           b"items": lambda stream, text, wanted: items_are(stream.dialect, text, wanted)}


def compare_streams(kind, dialects, limit, *cells):
    for dialect in DIALECTS[dialects]:
        STREAMS[kind](Stream(dialect, None if limit == b"-" else int(limit)), *cells)


# ---- written.tsv ----

def spelled_call(letter, *texts):
    """A call of a builder, as `calls` of crates/lp_checks spells it: a letter and two texts."""
    return letter + b"".join(struct.pack("<I", len(text)) + text for text in (*texts, b"", b"")[:2])


def spelled_pair(key, typed):
    letter, value = typed[:1], typed[2:]
    must(typed[1:2] == b":" and letter in b"tiufsb" and (letter != b"b" or value in (b"true", b"false")))
    return spelled_call(letter, key, value)


def spelled_line(cells):
    """The calls of a builder for a line, and whether it has a tag set, though no tag."""
    has_tag_set = len(cells) % 2 == 0 and cells[-1] == b","
    pairs = itertools.starmap(spelled_pair, zip(cells[1::2], cells[2::2]))
    time = b"" if len(cells) % 2 or has_tag_set else spelled_call(b"@", b"", cells[-1])
    return spelled_call(b"m", cells[0]) + b"".join(pairs) + time, has_tag_set


Point = collections.namedtuple("Point", "by_line is_admitted if_admitted if_strict line_shown series_shown values_shown")


def point_of(raw, cells):
    """The entries of a line as if it was read from a text and then changed; the last one is its base."""
    program, has_tag_set = spelled_line(cells)
    entries = LIBRARY.reported("point", utf8(raw), has_tag_set, program)
    return Point(*entries[:6], entries[6:-1]), entries[-1]


def built(program):
    return LIBRARY.reported("build", program, 0, False, ctypes.byref(LIBRARY.place))[0]


def line_is(*cells):
    *line, wanted, items = cells
    same("written", point_of(b"", line)[0].by_line, wanted)
    same("built", built(spelled_line(line)[0]), wanted)
    items_are(0, wanted, items)


def lines_are(times, *cells):
    same("built", built((spelled_line(cells[:-1])[0] + spelled_call(b".")) * int(times)), cells[-1])


def admitted_is(*cells):
    *line, wanted = cells
    point, _ = point_of(b"", line)
    same("whether it is admitted", point.is_admitted, b"true" if wanted else b"false")
    same("if admitted", point.if_admitted, wanted + b"m a=1i\n")
    same("if admitted, strictly", point.if_strict, wanted + b"m a=1i\n")


def read_is(text, item, shown, written):
    for dialect in 0, 1:
        items_are(dialect, text, item)
    same("shown", LIBRARY.reported("shown", 0, text)[0], shown)
    same("written", built(spelled_call(b"l", text)), written)
    same("written, as it is admitted", LIBRARY.reported("rows_rebuilt", 0, text)[0], written)


def series_is(raw, *cells):
    *line, shown, base = cells
    point, entry = point_of(raw, line)
    same("shown", point.series_shown, shown)
    same("base", spelled_base(entry), base)


def tagged(tags, first, step):
    """A series of so many tags, numbered from the first on by a step, and then on from 0."""
    return b"m" + b"".join(b",%d=v%d" % (1000000 + number % tags, number % tags) for number in itertools.islice(itertools.count(first, step), tags))


def series_base_is(series, wanted):
    same("base", base_of(series + b" f=1i"), wanted)


def tags_have_base(*cells):
    tags, first, step = map(int, cells)
    text, rising, again = tagged(tags, first, step), tagged(tags, 0, 1), tags // 2 + 1000000
    series_base_is(text, (b"B<" if text == rising else b"O<") + rising + b">")
    series_base_is(text + b",%d=w,1000000=w" % again, b'Must not contain duplicate tags, but "%d" was repeated' % again)


def copies_are(text, spelled):
    """Copies of a name and of a string are this text: by `clone`, by `to_string` and by `into_string`."""
    name = (b"S" if len(text) == len(spelled) else b"C") + b"%d:" % len(text) + text
    bare = b"%d:" % len(text) + text
    same("the copies", LIBRARY.reported("copies", 0, utf8(spelled + b' s="' + spelled + b'"')), [name, bare, bare, name, b"s" + name, b"s" + name])


WRITTEN = {
    b"line": line_is, b"lines": lines_are, b"admitted": admitted_is, b"read": read_is, b"series": series_is, b"base": series_base_is,
    b"tags": tags_have_base, b"copied": copies_are,
    b"value": lambda value, wanted: same("shown", point_of(b"", [b"m", b"f", value])[0].values_shown[0], wanted),
    b"shown": lambda raw, *cells: same("shown", point_of(raw, cells[:-1])[0].line_shown, cells[-1]),
}


def compare_written(kind, *cells):
    WRITTEN[kind](*cells)


# ---- relays.tsv ----

LETTERS = {b"lines": b"l", b"crlf": b"h", b"verbatim": b"v", b"canonical": b"c", b"keyed": b"y", b"one_line": b"o", b"refused": b"r", b"kinds": b"k"}
NUMBERED = {b"first": b"f", b"max_faults": b"m", b"json": b"j", b"json_text": b"p", b"editor": b"g", b"types": b"t", b"shards": b"d", b"shard": b"e"}
ENDED = [b"", b"cannot read the input", b"the input is not UTF-8", b"out of memory", b"cannot write the output"]
NUMBER = re.compile(rb"\{(\d+)\+(\d+)\}")


@dataclass
class Asked:
    """The settings of a row, and how its text comes."""

    dialects: list = field(default_factory=lambda: [0])
    letters: bytes = b""
    reads: int = 0
    times: int = 1
    now: int | None = None
    dialect: int = 0

    def take(self, word):
        name, equals, number = word.partition(b"=")
        must(not equals or number.isdigit())
        if name == b"limit":
            self.letters += b"b" + number
        elif name in (b"reads", b"times", b"now"):
            setattr(self, name.decode(), int(number))
        elif not equals and name in DIALECTS:
            self.dialects = DIALECTS[name]
        else:
            self.letters += NUMBERED[name] + number if equals else LETTERS[name]


def with_numbers(cell, times):
    """A cell; or as often as is asked if it has a number that grows."""
    if not NUMBER.search(cell):
        return cell
    return b"".join(NUMBER.sub(lambda found: b"%d" % (int(found[1]) + int(found[2]) * at), cell) for at in range(times))


def gives(by, ended, given, cells):
    """Compares outputs with cells; a cell that is `-`, or is not there, asks for nothing. If the answer is not asked for, it is no fault."""
    must(cells)
    if ended and (len(cells) < 3 or cells[2] == b"-"):
        raise Differs(f"{by}: it ended with {ended}")
    for what, text, wanted in zip(("lines", "faults", "answer", "refused pieces, or status"), given, cells):
        if wanted != b"-" and text is not None:
            same(f"{by}: {what}", text, wanted)


def answer(ended, kinds):
    """The answer of a run or a relay, as a row spells it."""
    if ended:
        return ENDED[ended]
    return b"%d carried, %d refused" % carried_and_refused() + (b": " + b" ".join(b"%d" % kind for kind in kinds) if kinds else b"")


def relay_gives(asked, text, part, cells, other=None):
    letters, steps = DIALECT_LETTERS[asked.dialect] + asked.letters, numbers([part] if part else [])
    if other is not None:
        ended = LIBRARY.relay(letters, b"", way="inputs", number=len(text), inputs=text + other)
    else:
        ended = LIBRARY.relay(letters, text, steps, "relay" if asked.now is None else "now", asked.now or 0)
    lines, faults, refused = LIBRARY.outputs()
    kinds = LIBRARY.kinds[:] if b"k" in asked.letters else []
    gives(f"relayed by {part or 'all'} bytes in dialect {asked.dialect}", ended, [lines, faults, answer(ended, kinds), refused], cells)


def relays_give(asked, text, *cells):
    """A relay of a text: by the reads of the row, or else at once, byte by byte if it is not long, and by each number of bytes if it is short."""
    most = 0 if asked.reads else len(text) if len(text) <= MOST_CUT else 2 if len(text) <= MOST_BY_BYTES else 0
    for part in [asked.reads, *range(1, most)]:
        relay_gives(asked, text, part, cells)


def relayed(way, letters, text, steps):
    """The answer, the lines and the faults of a run or a relay whose reads give so many bytes in turn."""
    ended, told = LIBRARY.relay(letters, text, steps, way), LIBRARY.told
    return ended, ctypes.string_at(LIBRARY.out, told[LINES_AT]), ctypes.string_at(LIBRARY.err, told[FAULTS_AT])


def run_gives(asked, text, *cells):
    """A run at once, and by reads too if the row says of how many bytes."""
    for part in {0, asked.reads}:
        ended, lines, faults = relayed("run", DIALECT_LETTERS[asked.dialect], text, numbers([part] if part else []))
        gives(f"run by {part or 'all'} bytes", ended, [lines, faults, answer(ended, []), b"%d" % LIBRARY.told[STATUS]], cells)


def rebuilt_gives(asked, text, *cells):
    lines, faults, counts = LIBRARY.reported("rows_rebuilt", asked.dialect, utf8(text))
    gives("rebuilt", 0, [lines, faults, counts], cells)
    run_gives(asked, text, *cells)
    relays_give(asked, text, *cells)


def relay_agrees(dialect, text, steps, wanted):
    """A text that comes by these reads is relayed as it was rebuilt."""
    if relayed("relay", DIALECT_LETTERS[dialect], text, steps) != wanted:
        raise Differs(f"{text!r} is relayed otherwise than it is rebuilt in dialect {dialect}, by {len(steps)} reads")


def rebuilt(dialect, text):
    """The answer, the lines and the faults of a rebuild, as `relayed` gives them."""
    lines, faults, counts = LIBRARY.reported("rows_rebuilt", dialect, text)
    counted(counts)
    return 0, lines, faults


def ends_of(dialect, text, count):
    places = numbers([0] * 8192)
    return places[:LIBRARY.call("part_ends", dialect, text, count, places)]


def parts_agree(dialect, text, parts):
    """So many parts of a text, rebuilt one after another, give the lines and the counts of the whole."""
    ends = ends_of(dialect, text, parts)
    made = [LIBRARY.reported("rows_rebuilt", dialect, text[start:end]) for start, end in zip([0, *ends], ends)]
    lines, _, counts = LIBRARY.reported("rows_rebuilt", dialect, text)
    same("the lines of the parts", b"".join(part[0] for part in made), lines)
    must((ends[-1] if ends else 0) == len(text) and [sum(count) for count in zip([0, 0], *(counted(part[2]) for part in made))] == counted(counts))


def text_agrees(asked, text):
    """A text is relayed as it is rebuilt, at once, byte by byte, and cut at each place; and its parts give what the whole gives."""
    must(len(text) <= MOST_CUT)
    wanted = rebuilt(asked.dialect, text)
    for steps in [[1], [], *([at, NO_LIMIT - 1] for at in range(1, len(text)))]:
        relay_agrees(asked.dialect, text, numbers(steps), wanted)
    for parts in range(MOST_PARTS):
        parts_agree(asked.dialect, text, parts)


def ends_are(asked, text, count, ends):
    same("the ends", b" ".join(b"%d" % end for end in ends_of(asked.dialect, text, int(count))), ends.removeprefix(b" "))


def short_texts_agree(asked, letters, count):
    """All short texts over these are relayed as they are rebuilt: the longest cut at each single place or nowhere, the others in every way."""
    tried = 0
    must(len(letters) == 7)
    for length in range(SHORT + 1):
        ways = [numbers(parts) for parts in ways_of(length) if length < SHORT or len(parts) <= 2]
        for text in short_texts(letters, length):
            wanted = rebuilt(asked.dialect, text)
            for steps in ways:
                relay_agrees(asked.dialect, text, steps, wanted)
        tried += len(ways) * 7**length
    must(tried == int(count))


def random_texts_agree(asked, seed, texts):
    rng = random.Random(int(seed))
    for _ in range(int(texts)):
        text = random_text(rng)
        relay_agrees(asked.dialect, text, numbers(random_parts(rng, len(text))), rebuilt(asked.dialect, text))


RELAYS = {b"relay": relays_give, b"run": run_gives, b"rebuilt": rebuilt_gives, b"as_rebuilt": text_agrees, b"parts": ends_are,
          b"short_texts": short_texts_agree, b"random": random_texts_agree,
          b"inputs": lambda asked, text, other, *cells: relay_gives(asked, text, 0, cells, other)}


def compare_relays(kind, settings, *cells):
    asked = Asked()
    for word in settings.split():
        asked.take(word)
    for asked.dialect in asked.dialects:
        RELAYS[kind](asked, *(with_numbers(cell, asked.times) for cell in cells))


# ---- tables ----

# The tables, each with the kinds of its rows, and those that the tests of bindings/ compare alone.
TABLES = {
    "answers": (compare_answers, [b"items", b"pieces", b"series", b"columns", b"fault", b"base", b"key", b"shown", b"rebuilt", b"run", b"as_written"],
                [b"rests_of_pieces", b"rests_of_items", b"float"]),
    "streams": (compare_streams, list(STREAMS), []),
    "written": (compare_written, [b"line", b"lines", b"admitted", b"read", b"value", b"shown", b"series", b"base", b"tags", b"copied"], []),
    "relays": (compare_relays, [b"relay", b"inputs", b"rebuilt", b"run", b"as_rebuilt", b"parts", b"short_texts", b"random"], []),
}


def compare_row(row):
    """The table, the kind, and how the row differs, or an empty text."""
    name, number, line = row
    compare, kinds, passed_over = TABLES[name]
    kind, *cells = line.split(b"\t")
    where = f"{name}.tsv: line {number}"
    try:
        cells = list(map(cell, cells))
        if kind not in passed_over:
            must(kind in kinds)
            compare(kind, *cells)
    except Differs as difference:
        return name, kind, f"{where}: {difference}"
    except (AttributeError, IndexError, KeyError, TypeError, ValueError, MemoryError) as error:
        return name, kind, f"{where}: the row has other cells than its kind, or what it needs did not come: {error!r}"
    return name, kind, ""


def rows():
    for name in TABLES:
        for number, line in enumerate((FOLDER / f"{name}.tsv").read_bytes().split(b"\n"), 1):
            if line and not line.startswith(b"#"):
                yield name, number, line


def counts(answers):
    """The lines of counts.txt for these rows, if all are as they say."""
    rows = collections.Counter(answer[:2] for answer in answers)
    for name, (_, kinds, passed_over) in TABLES.items():
        for kind in kinds + passed_over:
            yield f"{name}.tsv: {rows[name, kind]} rows of {kind.decode()}, {'all as they say' if kind in kinds else 'passed over'}"


def main():
    # The longest rows come last in their tables.
    with ProcessPoolExecutor(mp_context=multiprocessing.get_context("fork")) as pool:
        answers = list(pool.map(compare_row, list(rows())[::-1]))[::-1]
    said, wanted = list(counts(answers)), (FOLDER / "counts.txt").read_text(encoding="utf-8").splitlines()
    differences = [difference for *_, difference in answers if difference]
    lost = [line for line in said if line not in wanted or ": 0 rows" in line]
    if differences or lost or said != wanted:
        sys.exit("\n".join([*differences, *(f"counts.txt has not: {line}" for line in lost), "tables: a row is not as it says, or is lost"]))
    for name in TABLES:
        found = re.findall(rf"^{name}.tsv: (\d+) rows of (\w+), all", "\n".join(said), re.MULTILINE)
        print(f"tables: {name}.tsv: {', '.join(' '.join(pair) for pair in found)}: all as they say")


main()
