#!/usr/bin/env python3
"""Which lines InfluxDB 1.x and VictoriaMetrics read as the strict reader does: an oracle that knows docs/FORMAT.md and its own table, and no
code of this library. Its rows are in portable_rows.txt, with what each server does of them.

    checks/portable.py                        of each text of standard input, a line of hexadecimal digits: the clauses that it breaks
    checks/portable.py --random SEED COUNT    COUNT hostile texts, the same for the same SEED, to be put to this and to another program
    checks/portable.py --rows                 the texts of portable_rows.txt
    checks/portable.py --check                compares portable_rows.txt with what is told here, and each clause with its servers
    checks/portable.py --names                each clause: its number, its name and its servers

Texts come out as lines of hexadecimal digits too. The clauses that a text breaks are told as one number on a line: of each clause the bit of
its number. A server reads a text as the strict reader does if the text breaks none of that server's clauses.
"""

import pathlib
import random
import re
import sys
from dataclasses import dataclass

TOP = pathlib.Path(__file__).resolve().parent.parent
sys.path.insert(0, str(TOP / "tables"))
import clause_table

# The clauses in the order of their bits, each with its servers: i is InfluxDB 1.x, v is VictoriaMetrics.
CLAUSES = [(clause.name, "".join(server[0] for server in clause.servers)) for clause in clause_table.ALL]
NAMES = [name for name, _ in CLAUSES]
BIT = {name: 1 << place for place, name in enumerate(NAMES)}
MASK = {server: sum(BIT[name] for name, servers in CLAUSES if server in servers) for server in "iv"}
# The clauses that a server's parser shows; the others show what the server stores.
PARSED = sum(BIT[name] for name in NAMES[:20])

SYSTEM_MEASUREMENTS = {b"_fieldKeys", b"_measurements", b"_name", b"_series", b"_tagKey", b"_tagKeys", b"_tags"}
SYSTEM_FIELDS = {b"_name", b"_tagKey", b"_tagValue", b"_fieldKey", b"_seriesKey"}
# InfluxDB keeps a series, `#!~#` and a field key as one text, and ends the series at the first `#!~#` of that when it starts again. It writes
# the tags in the order of their keys, so what follows a `#!~` may be another byte there.
KEY_SEPARATOR = b"#!~"
# So many tags make InfluxDB panic. A series with more is too long.
PANICS = {100 << power for power in range(8)}
# What VictoriaMetrics keeps: bytes of a tag value or of a metric name, and bytes of a metric name with all its tags, of which bytes 0, 1 and 2
# count twice. Of the latter it keeps 65,535, but a name of a database is among them.
MOST_VALUE, MOST_LABELS = 16384, 32000
# A clause that is never broken alone, with the one that is broken with it.
WITHIN = {"LeadingNul": "ControlByte"}


@dataclass(frozen=True)
class Limits:
    """What options of VictoriaMetrics change: tags of a line, bytes of a line, and times."""

    tags: int = 29
    line: int = 262144
    earliest: int = 1000000
    latest: int = 2**63 - 1


DEFAULT = Limits()


# The strict reader.

ANY = rb"\\[\s\S]"
MEASUREMENT = re.compile(rb"(?:[^ \t\n\0,\\]|" + ANY + rb")+")
KEY = re.compile(rb"(?:[^ \t\n=\\]|" + ANY + rb")+")
TAG_VALUE = re.compile(rb"(?:[^ \t\n,\\]|" + ANY + rb")+")
VALUE = re.compile(
    rb"(?P<i>-?[0-9]+)i|(?P<u>[0-9]+)u|(?P<f>-?[0-9]+(?:\.[0-9]+)?(?:[eE][+-]?[0-9]+)?)"
    rb"|\"(?P<s>(?:[^\"\\]|" + ANY + rb")*)\"|(?P<b>true|True|TRUE|t|T|false|False|FALSE|f|F)"
)
TIME = re.compile(rb" +(-?[0-9]+) *")
HEAD = re.compile(rb"(?:[^ \n\\]|" + ANY + rb")*\\?")
PLAIN = re.compile(rb"(?:[^=,\"\n\\]|" + ANY + rb")*\\?")
QUOTED = re.compile(rb"\"(?:[^\"\\]|" + ANY + rb")*\\?\"?")
RANGES = {"i": (-2**63, 2**63 - 1), "u": (0, 2**64 - 1)}


class Miss(Exception):
    """The text is not a line."""


@dataclass
class Line:
    """A line: its names as they are spelled, its series, and of each field the key, the kind and the text of its value."""

    series: bytes
    measurement: bytes
    tags: list
    fields: list
    time: int | None


def logical(spelled, known):
    """The text that a spelled text stands for."""
    return re.sub(rb"\\([" + re.escape(known) + rb"])", rb"\1", spelled) if b"\\" in spelled else spelled


def key_of(spelled):
    return logical(spelled, b",= \\")


def end_of_piece(text):
    """The place of the newline that ends the first piece of a text, which begins with no comment; or the end of the text."""
    at, equals, commas = HEAD.match(text).end(), 0, 0
    while at < len(text) and text[at] != 10:
        equals, commas = equals + (text[at] == 61), commas + (text[at] == 44)
        quoted = text[at] == 34 and equals > commas
        at = QUOTED.match(text, at).end() if quoted else PLAIN.match(text, at + (text[at] in b"=,\"")).end()
    return at


def taken(pattern, text, at):
    """What a pattern takes, which must be something, and where it ends."""
    found = pattern.match(text, at)
    if not found:
        raise Miss
    return found, found.end()


def name(pattern, text, at):
    """A spelled name, and where it ends."""
    found, end = taken(pattern, text, at)
    if found[0].endswith(b"\\"):
        raise Miss
    return found[0], end


def byte(wanted, text, at):
    """The place after a byte, which must be there."""
    if text[at:at + 1] != wanted:
        raise Miss
    return at + 1


def number(kind, spelled):
    """A number, which must be in its range."""
    least, greatest = RANGES[kind]
    digits = spelled.lstrip(b"-").lstrip(b"0") or b"0"
    if len(digits) > 20:
        raise Miss
    value = -int(digits) if spelled.startswith(b"-") else int(digits)
    if not least <= value <= greatest:
        raise Miss
    return value


def tags_at(text, at):
    """The tags from a place on, as they are spelled, and where they end."""
    tags = []
    while text[at:at + 1] == b",":
        key, at = name(KEY, text, at + 1)
        value, at = name(TAG_VALUE, text, byte(b"=", text, at))
        tags.append((key, value))
    return tags, at


def field_at(text, at):
    """The field at a place: its key as it is spelled, the kind of its value, and the text of that; and where it ends."""
    key, at = name(KEY, text, at)
    found, end = taken(VALUE, text, byte(b"=", text, at))
    kind = found.lastgroup
    if kind in RANGES:
        number(kind, found[kind])
    return (key, kind, found[kind]), end


def fields_at(text, at):
    """The fields from a place on, and where they end."""
    field, at = field_at(text, at)
    fields = [field]
    while text[at:at + 1] == b",":
        field, at = field_at(text, at + 1)
        fields.append(field)
    return fields, at


def time_at(text, at):
    """The time at a place, if there is one; nothing may come after it."""
    if at == len(text):
        return None
    found, end = taken(TIME, text, at)
    if end != len(text):
        raise Miss
    return number("i", found[1])


def line_of(text):
    """The line that a text is, for the strict reader, if a newline comes after it."""
    start = len(text) - len(text.lstrip(b" \t"))
    if text[start:start + 1] == b"#" or end_of_piece(text + b"\n") != len(text):
        raise Miss
    measurement, at = name(MEASUREMENT, text, start)
    tags, end = tags_at(text, at)
    at = byte(b" ", text, end)
    at += len(text) - at - len(text[at:].lstrip(b" "))
    fields, at = fields_at(text, at)
    return Line(text[start:end], measurement, tags, fields, time_at(text, at))


def is_utf8(text):
    try:
        text.decode()
    except UnicodeDecodeError:
        return False
    return True


# The clauses.


def paired(spelled, others):
    """Whether a backslash of a spelled text pairs with one of some bytes. Backslashes pair from the left, each with the byte after it."""
    return b"\\" in spelled and any(pair[1] in others for pair in re.findall(ANY, spelled))


def bare(spelled, other):
    """Whether such a byte of a spelled text is in no pair."""
    return other in spelled and other in re.sub(ANY, b"", spelled)


def repeats(texts):
    return len(set(texts)) != len(texts)


def holds_control(text):
    """Whether a text holds a byte 0 or a carriage return."""
    return b"\0" in text or b"\r" in text


def is_infinite(literal):
    """Whether the double that is nearest to a literal of a float is infinite."""
    return float(literal) in (float("inf"), float("-inf"))


def of_text(text):
    """The clauses that a text breaks by its bytes alone."""
    yield "LeadingBlank", text[0] in b" \t"
    yield "TrailingSpace", text[-1:] == b" "
    yield "Newline", b"\n" in text


def of_measurement(line):
    """The clauses that a measurement breaks."""
    spelled = line.measurement
    measured = logical(spelled, b", \\")
    yield "MeasurementEquals", paired(spelled, b"=")
    yield "MeasurementEscape", paired(spelled, b"\\\"")
    yield "SystemName", measured in SYSTEM_MEASUREMENTS
    yield "ControlByte", holds_control(measured)


def of_tags(line, limits):
    """The clauses that tags break."""
    spelled_keys, spelled_values = [key for key, _ in line.tags], [value for _, value in line.tags]
    keys, values = [key_of(key) for key in spelled_keys], [key_of(value) for value in spelled_values]
    yield "TagEscape", any(paired(spelled, b"\\") for spelled in spelled_keys + spelled_values)
    yield "TagKeyComma", any(bare(key, b",") for key in spelled_keys)
    yield "TagValueEquals", any(bare(value, b"=") for value in spelled_values)
    yield "RepeatedTag", repeats(keys)
    yield "TagCount", len(keys) in PANICS
    yield "TimeName", b"time" in keys
    yield "NameLabel", b"__name__" in keys
    yield "LongTagKey", any(len(key) > 256 for key in keys)
    yield "LongTagValue", any(len(value) > MOST_VALUE for value in values)
    yield "TooManyTags", len(keys) > limits.tags


def of_field_keys(line):
    """The clauses that field keys break, alone or with the series."""
    spelled = [key for key, _, _ in line.fields]
    keys, measurement = [key_of(key) for key in spelled], logical(line.measurement, b", \\")
    yield "FieldKeyEscape", any(paired(key, b"\\\"") for key in spelled)
    yield "FieldKeyComma", any(bare(key, b",") for key in spelled)
    yield "FieldKeyQuote", any(b"\"" in key for key in spelled)
    yield "LongSeries", any(len(line.series) + 4 + len(key) > 65535 for key in spelled)
    yield "LeadingNul", spelled[0].startswith(b"\0")
    yield "TimeName", b"time" in keys
    yield "SystemName", not SYSTEM_FIELDS.isdisjoint(keys)
    yield "ControlByte", any(map(holds_control, keys))
    yield "RepeatedField", repeats(keys)
    yield "LongMetricName", any(len(measurement) + 1 + len(key) > MOST_VALUE for key in keys)
    yield "LongLabels", any(len(line.series) + 1 + len(key) > MOST_LABELS for key in keys)


def of_values(line, limits):
    """The clauses that values and the time break."""
    literals = [value for _, kind, value in line.fields if kind == "f"]
    yield "Unsigned", any(kind == "u" for _, kind, _ in line.fields)
    yield "InfiniteFloat", any(map(is_infinite, literals))
    yield "RoundedFloat", any(b"e" in value.lower() or len(value) > 310 for value in literals)
    if line.time is not None:
        yield "TimeOutOfRange", not -2**63 + 2 <= line.time <= 2**63 - 2
        yield "TimeNotKept", not limits.earliest <= line.time <= limits.latest


def broken(text, line, limits):
    """Each clause with whether the text breaks it. A clause may come more than once."""
    yield from of_text(text)
    yield from of_measurement(line)
    yield from of_tags(line, limits)
    yield from of_field_keys(line)
    yield from of_values(line, limits)
    yield "KeySeparator", KEY_SEPARATOR in line.series
    yield "LongLine", len(text) > limits.line


def read(text):
    """The line that a text is without the newline at its end, and that text; or `None` if it is not a line."""
    text = text.removesuffix(b"\n")
    try:
        return (text, line_of(text)) if is_utf8(text) else None
    except Miss:
        return None


def clauses(text, limits=DEFAULT):
    """The clauses that a text breaks, as bits. Of a text that is not a line no other clause is told."""
    found = read(text)
    if not found:
        return BIT["NotALine"]
    bits = 0
    for clause, is_broken in broken(*found, limits):
        bits |= BIT[clause] if is_broken else 0
    return bits


# Hostile texts.

# Bytes that mean something to some reader, pairs, and words that lie near a clause.
BYTES = [b"m", b",", b"=", b" ", b"\"", b"\\", b"#", b"1", b"0", b"-", b".", b"e", b"i", b"u", b"t", b"\t", b"\0", b"\r", b"\n", "é".encode()]
INNER = [b"m", b"x", b"\"", b"\0", b"\r", b"#", b"1", b"e", b"~", b"!", "é".encode(), b"\x7f", b"\x01", b"\x02"]
PAIRS = [b"\\,", b"\\=", b"\\ ", b"\\\\", b"\\\"", b"\\n", b"\\\t", b"\\\n", b"\\\0", b"\\#", b"\\\r"]
WORDS = [
    b"m", b"a", b"b", b"time", b"_series", b"_fieldKeys", b"_tagKeys", b"_measurements", b"_name", b"_tagKey", b"_tagValue", b"_fieldKey",
    b"_seriesKey", b"__name__", b"_name_", b"db", b"#!~#", b"#!~", b"!~#", b"a#!~#b", b"a\rb", b"a\"b", b"a\\b", b"==", b"=", b",", b"\\=", b"\\ ",
]
NUMBERS = [
    b"1", b"1i", b"0i", b"-0i", b"-0", b"7u", b"0u", b"1.5", b"-1.5", b"0.1", b"1e5", b"1E-5", b"1e400", b"-1e400", b"1e-400", b"15e-94", b"00.50",
    b"1.7976931348623157e308", b"1.7976931348623159e308", b"9223372036854775807i", b"-9223372036854775808i", b"9007199254740993", b"1.",
    b".5", b"9223372036854775808i", b"18446744073709551615u", b"0.30000000000000004", b"123456789012345678.5", b"1234567890123456789.25",
    b"9" * 308, b"9" * 309, b"-" + b"9" * 309, b"0" * 400 + b"1", b"9" * 309 + b".5", b"0." + b"0" * 400 + b"1", b"1" + b"0" * 308,
    b"1234567890.12345", b"12345678901.12345", b"0.1234567890123456", b"0.12345678901234567", b"1" + b"0" * 309 + b"e-10",
]
TRUTHS = [b"t", b"T", b"true", b"True", b"TRUE", b"f", b"F", b"false", b"False", b"FALSE", b"tru", b"inf", b"nan", b"NaN"]
TIMES = [
    b"5", b"0", b"-0", b"-1", b"007", b"1590488773254420000", b"999999", b"1000000", b"9223372036854775806", b"9223372036854775807",
    b"-9223372036854775806", b"-9223372036854775807", b"-9223372036854775808", b"9223372036854775808", b"0009223372036854775806",
    b"2900000000000000000", b"1000000000000000000000", b"5\r", b"5i", b"+5",
]
SIZES = [255, 256, 257, 15994, 15998, 16381, 16382, 16383, 16384, 16385, 31992, 31996, 65524, 65525, 65526, 65527, 262130, 262140]
COUNTS = [28, 29, 30, 31, 99, 100, 101, 199, 200, 201, 300, 400, 500, 600, 800, 1600, 3200, 6400, 12800]


def word(rng):
    """A spelled name, mostly a sound one."""
    chosen = rng.random()
    if chosen < 0.3:
        return rng.choice([b"a", b"b", b"c"])
    if chosen < 0.5:
        return rng.choice(WORDS)
    kinds = [BYTES, PAIRS, WORDS] if chosen < 0.6 else [PAIRS, INNER, INNER]
    return b"".join(rng.choice(rng.choice(kinds)) for _ in range(rng.randrange(1, 5)))


def digits(rng):
    """A literal of a float without an exponent, of any length."""
    front = bytes(rng.choices(b"0123456789", k=rng.choice([1, 2, 5, 15, 16, 17, 18, 19, 20, 25, 30])))
    back = bytes(rng.choices(b"0123456789", k=rng.choice([0, 1, 5, 14, 15, 16, 17, 30])))
    return rng.choice([b"", b"-"]) + front + (b"." + back if back else b"")


def value(rng):
    chosen = rng.random()
    if chosen < 0.2:
        return rng.choice(NUMBERS)
    if chosen < 0.3:
        return digits(rng)
    if chosen < 0.4:
        return rng.choice(TRUTHS)
    if chosen < 0.75:
        return rng.choice([b"1", b"2i", b"1.5"])
    inside = b"".join(rng.choice(rng.choice([BYTES, PAIRS, INNER, [b",", b" ", b"=1", b"\\\"", b"a b,c=d"]])) for _ in range(rng.randrange(6)))
    return b"\"" + (inside.replace(b"\"", b"\\\"") if rng.random() < 0.8 else inside) + b"\""


def joined(rng, least, most):
    """Names and values as tags or fields are."""
    return [word(rng) for _ in range(rng.randrange(least, most))]


def made(rng):
    """A line of such parts."""
    tags = b"".join(b"," + key + b"=" + word(rng) for key in joined(rng, 0, rng.choice([1, 2, 3, 4])))
    fields = b",".join(key + b"=" + value(rng) for key in joined(rng, 1, rng.choice([2, 2, 3, 4])))
    front, spaces, end = b"", b" ", rng.choice([b"", b" " + rng.choice(TIMES)])
    odd = rng.randrange(16)
    if odd == 0:
        front = rng.choice([b" ", b"\t", b"\0", b"#", b"\n", b"\r", b" \t"])
    if odd == 1:
        spaces = rng.choice([b"  ", b" \0", b" \t", b"\t", b"   "])
    if odd == 2:
        end = rng.choice([b" ", b"  5", b" 5 ", b" 5  ", b",", b"\r"])
    return front + word(rng) + tags + spaces + fields + end


def plain(rng):
    """A line that breaks no clause."""
    tags = b"".join(b",t%d=%d" % (place, rng.randrange(9)) for place in range(rng.randrange(4)))
    return b"m" + tags + b" f=1,g=2i" + rng.choice([b"", b" 1590488773254420000"])


def mutated(rng, text):
    """A text of which some bytes are others."""
    for _ in range(rng.randrange(1, 4)):
        at = rng.randrange(len(text) + 1)
        text = text[:at] + rng.choice(rng.choice([BYTES, PAIRS, WORDS, [b""]])) + text[at + rng.randrange(3):]
    return text


def large(rng):
    """A line near a border of a length or of a count."""
    size, count = rng.choice(SIZES) + rng.randrange(-1, 2), rng.choice(COUNTS)
    many = b"".join(b",t%04d=v" % place for place in range(count))
    # A field key with escapes is shorter than it is spelled: some clauses count the former, and some the latter.
    key = b" " + rng.choice([b"f", b"\\ f", b"\\,\\=f"])
    labels = b",a=" + b"v" * 16384 + b",b=" + b"v" * (15607 + rng.randrange(-6, 3))
    return rng.choice([
        b"m" * size + b" f=1", b"m,t=" + b"v" * size + key + b"=1", b"m," + b"k" * size + b"=v f=1", b"m " + b"f" * size + b"=1",
        b"m s=\"" + b"x" * size + b"\"", b"m," + b"k\\=" * (size // 3) + b"=v f=1", b"m,t=" + b"\\ " * (size // 2) + b" f=1",
        b"m" + many + b" f=1", b"m" + many + b" f=1,g=2", b"m,a=1" + many + b" f=1", b"m" + labels + key + b"=1", b"m" + labels + b" f\1=1,g=2",
    ])


def hostile(rng):
    """A text of one of these kinds."""
    chosen = rng.random()
    if chosen < 0.004:
        return large(rng)
    if chosen < 0.45:
        text = made(rng)
    elif chosen < 0.9:
        text = mutated(rng, plain(rng) if rng.random() < 0.7 else made(rng))
    else:
        text = b"m f=" + b"".join(rng.choices(BYTES, k=rng.randrange(9)))
    return text + rng.choice([b"", b"", b"", b"\n", b"\n\n", b"\n "] if rng.random() < 0.2 else [b""])


def random_texts(seed, count):
    rng = random.Random(seed)
    for _ in range(count):
        yield hostile(rng)


# The rows, and what is asked of this program.

ROWS = pathlib.Path(__file__).with_name("portable_rows.txt")
COLUMNS = ["i parser", "i server", "v parser", "v server"]
# The rows were measured at such a time, and VictoriaMetrics keeps none that comes two days later.
AS_MEASURED = Limits(latest=1796100000000000000)
ESCAPES = {"n": "\n", "t": "\t", "r": "\r", "0": "\0", "\\": "\\"}


def unescaped(text):
    """The bytes of a text in which \\n, \\t, \\r, \\0, \\\\ and \\xFF are escapes."""
    def char(found):
        return chr(0xDC00 + int(found[1], 16)) if found[1] else ESCAPES[found[2]]

    chars = re.sub(r"\\(?:x([0-9a-f]{2})|(.))", char, text)
    return b"".join(bytes([ord(one) - 0xDC00]) if 0xDC00 <= ord(one) <= 0xDCFF else one.encode() for one in chars)


def repeated(found):
    """The text `{TEXT*COUNT}` as it is meant: TEXT so many times, with the number of each in the place of an @, from 0 on, all as wide."""
    text, count = found[1], int(found[2])
    width = len(str(count - 1))
    return "".join(text.replace("@", f"{place:0{width}}") for place in range(count))


def text_of(cell):
    """The text that a cell of portable_rows.txt stands for."""
    return unescaped(re.sub(r"\{([^{}]*)\*(\d+)\}", repeated, cell))


@dataclass
class Row:
    """A row of portable_rows.txt."""

    clause: str
    cell: str
    bits: int
    told: dict

    def text(self):
        return text_of(self.cell)

    def is_only(self, server, *words):
        """Whether what a server, and its parser alone, make of the text is told by such words."""
        return all(word in words for name, word in self.told.items() if name.startswith(server))


def rows():
    for line in ROWS.read_text(encoding="utf-8").split("\n"):
        if line and not line.startswith("#"):
            clause, cell, bits, *words = line.split("\t")
            yield Row(clause, cell, int(bits), dict(zip(COLUMNS, words, strict=True)))


def faults_of(row):
    """What is wrong with a row, in words."""
    text = row.text()
    if clauses(text) != row.bits:
        yield f"breaks {clauses(text)}, and not {row.bits}"
    bits = clauses(text, AS_MEASURED)
    for server in "iv":
        if not bits & MASK[server] and not row.is_only(server, "same"):
            yield f"breaks no clause of {server}, and is not the same there"


def faults_of_clause(clause, servers, its):
    """What is wrong with the rows of a clause, in words."""
    if all(row.bits & BIT[clause] for row in its):
        yield "has no row inside"
    alone = BIT[clause] | BIT.get(WITHIN.get(clause), 0)
    for server in servers:
        if not any(row.bits & MASK[server] == alone and not row.is_only(server, "same") for row in its):
            yield f"has no row outside that {server} reads otherwise"


def check():
    """Refuses rows that are not as is told here."""
    told = list(rows())
    found = [f"{row.clause}: {row.cell[:80]}: {fault}" for row in told for fault in faults_of(row)]
    for clause, servers in CLAUSES:
        its = [row for row in told if row.clause == clause]
        found += [f"{clause}: {fault}" for fault in faults_of_clause(clause, servers, its)]
    if found:
        sys.exit("portable: " + "\n".join(found))
    print(f"portable: {len(told)} rows break the clauses that they are told to, and each of {len(CLAUSES)} clauses has rows on both sides")


def print_hex(texts):
    for text in texts:
        print(text.hex())


def main(words):
    match words:
        case []:
            for line in sys.stdin:
                print(clauses(bytes.fromhex(line)))
        case ["--random", seed, count]:
            print_hex(random_texts(int(seed), int(count)))
        case ["--rows"]:
            print_hex(row.text() for row in rows())
        case ["--check"]:
            check()
        case ["--names"]:
            for place, (clause, servers) in enumerate(CLAUSES):
                print(place, clause, servers)
        case _:
            print(__doc__, file=sys.stderr)
            return 2
    return 0


if __name__ == "__main__":
    sys.exit(main(sys.argv[1:]))
