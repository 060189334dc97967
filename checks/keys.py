#!/usr/bin/env python3
"""Whether keys tell series: of pairs of hostile series, the keys must be the same exactly if the series are, by Python's own count of them:
one measurement, and for each tag key the same values in the same order. Each key must be what Python writes of the names that the
library reads, and its hash what Python reckons from that; and it must stand in the text of its series exactly if it is that text.

    checks/keys.py LIBRARY [PAIRS [SEED]]

LIBRARY: the calls of crates/lp_checks and rows.c as a shared library; checks/events.sh makes it. So many pairs are compared, 500,000 if their number is
not given, of series that are made from SEED, 1 if it is not given. Those of a group differ in little: in the order of their tags, in how a
name is spelled, in a byte, or in where one name ends and the next begins.
"""

import functools
import itertools
import random
import re
import sys

from library import Library, sized

# What a name may hold: bytes that a backslash escapes somewhere, others, and pairs that are no escape.
PARTS = [b"a", b"b", b"A", b"0", b"\\,", b"\\=", b"\\ ", b"=", b",", b"\\\\", b"\\n", b"\"", b"#", b"\t", b"\\\t", b"\\\n", "é".encode()]
ESCAPED = {"measurement": b", \\", "tag": b",= \\"}
OF_A_GROUP = 12

LIBRARY = Library(sys.argv[1], 1 << 22, 1 << 14)


def read(entry):
    """The text of the series, the measurement and the tags of a line that is reported, or `None` of a fault."""
    if not entry.startswith(b"line "):
        return None
    text, rest = sized(entry[5:])
    measurement, rest = sized(rest[2:])
    tags = []
    while rest.startswith(b","):
        key, rest = sized(rest[2:])
        value, rest = sized(rest[2:])
        tags.append((key, value))
    return text, measurement, tags


def written(measurement, tags):
    """The key of a series, by its definition."""
    def escaped(name, kind):
        return re.sub(b"([" + re.escape(ESCAPED[kind]) + b"])", rb"\\\1", name)

    tags = sorted(tags, key=lambda tag: tag[0])
    return escaped(measurement, "measurement") + b"".join(b"," + escaped(key, "tag") + b"=" + escaped(value, "tag") for key, value in tags)


def as_told(measurement, tags):
    """A value that two series share exactly if they are the same."""
    values = {}
    for key, value in tags:
        values.setdefault(key, []).append(value)
    return measurement, frozenset((key, tuple(told)) for key, told in values.items())


def hash_of(text):
    """FNV-1a of 64 bits."""
    return functools.reduce(lambda so_far, byte: (so_far ^ byte) * 1099511628211 % 2**64, text, 14695981039346656037)


def name(rng):
    return b"".join(rng.choices(PARTS, k=rng.randrange(1, 4)))


def spelled(measurement, tags):
    return measurement + b"".join(b"," + key + b"=" + value for key, value in tags)


def group(rng):
    """Series that differ in little, as they are spelled."""
    names = [name(rng) for _ in range(4)]
    measurement, tags = rng.choice(names), [(rng.choice(names), rng.choice(names)) for _ in range(rng.randrange(rng.choice([5, 5, 5, 26])))]
    yield spelled(measurement, tags)
    for _ in range(OF_A_GROUP - 1):
        others = rng.sample(tags, len(tags)) if rng.random() < 0.6 else list(tags)
        text = spelled(measurement, others)
        if rng.random() < 0.5:
            at = rng.randrange(len(text) + 1)
            text = text[:at] + rng.choice([b"", b"\\", b",", b"=", b"a"]) + text[at + rng.randrange(2):]
        yield text


def compare(texts):
    """Compares the keys of some series with each other, and gives how many pairs there are and how many have one key."""
    lines = [text + b" f=1i" for text in texts]
    items = [read(item[0]) if len(item) == 1 else None for item in (LIBRARY.reported("items", 0, line) for line in lines)]
    told = []
    for line, item in zip(lines, items):
        if item:
            key, *others = LIBRARY.reported("keys", 0, line)
            text, *names = item
            wanted = written(*names)
            stands = wanted if text == wanted else b"None"
            if sized(key)[0] != wanted or others != [b"%d" % hash_of(wanted), b"true", stands, b"%d" % (len(names[1]) + 2)]:
                sys.exit(f"keys: of {line!r} are told {key!r} and {others}, and not {wanted!r} with {hash_of(wanted)}, true, {stands!r}, and its columns")
            told.append((sized(key)[0], as_told(*names), line))
    pairs = same = 0
    for (key, series, line), (other_key, other_series, other) in itertools.combinations(told, 2):
        if (key == other_key) != (series == other_series):
            sys.exit(f"keys: {line!r} and {other!r} have the keys {key!r} and {other_key!r}")
        pairs, same = pairs + 1, same + (key == other_key)
    return pairs, same


def main():
    wanted = int(sys.argv[2]) if len(sys.argv) > 2 else 500000
    rng = random.Random(int(sys.argv[3]) if len(sys.argv) > 3 else 1)
    pairs = same = 0
    while pairs < wanted:
        more, more_same = compare(list(group(rng)))
        pairs, same = pairs + more, same + more_same
    print(f"keys: {pairs} pairs of series, of which {same} are the same: each has one key exactly if it is one series")


main()
