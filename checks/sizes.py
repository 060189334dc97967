#!/usr/bin/env python3
"""Relays short and large texts by many settings, and sees that the time of each call that reads grows as its text does. What must come of a relay
is said by settings.py, and of other calls it is composed here, from the format's rules (docs/FORMAT.md).

    checks/sizes.py LIBRARY

LIBRARY: the calls of crates/lp_checks and rows.c as a shared library; checks/sizes.sh makes it.
"""

import ctypes
import functools
import itertools
import sys
import time

import settings
from library import ALL, FINISH, NEXT, NO_LIMIT, Library, numbers
from relay_runs import Wrong, same
from settings import FAULTS, LINES, NUMBERS, PIECES, REFUSED, Fault, Piece, Settings, Wanted

LIBRARY = Library(sys.argv[1], 1 << 29)
LONG, MANY = 17 << 20, 100001
LETTERS = {"verbatim": "v", "canonical": "c", "strict": "s", "newline-delimited": "n", "json": "j", "json+text": "p"}


def settings_of(lines, dialect, faults, number, refused, limit=settings.LIMIT):
    """The settings of a relay that reads standard input and writes to standard output."""
    return Settings(lines, dialect, faults, number, False, refused, "standard output", "standard input", limit)


def relay(asked, pieces, part=None, counts_kinds=True):
    """Relays these pieces, in parts of so many bytes if that is given, and compares all that comes."""
    letters = "".join(LETTERS.get(word, "") for word in (asked.lines, asked.dialect, asked.faults))
    letters += "o" * (asked.faults == "line") + "l" * (asked.number == "line") + "r" * asked.refused + "k" * counts_kinds + f"b{asked.limit}"
    wanted = Wanted(asked, pieces)
    ended = LIBRARY.relay(letters.encode(), b"".join(piece.came + b"\n" for piece in pieces), numbers([part] if part else []))
    lines, faults, refused = LIBRARY.outputs()
    said = f"of a relay by the letters {letters!r}"
    same(f"the answer {said}", ended, 0)
    same(f"the lines {said}", lines, wanted.lines)
    same(f"the refused pieces {said}", refused, wanted.refused if asked.refused else b"")
    same(f"the counts of kinds {said}", [count for count in LIBRARY.kinds if count], [wanted.kinds[kind] for kind in sorted(wanted.kinds)] * counts_kinds)
    settings.compare_faults(asked, wanted, faults)


def relay_by_all_settings():
    """A short text by each of the settings, at once, and twice in small parts. Gives how many relays these are."""
    every = list(itertools.product(LINES, [dialect for dialect in PIECES if dialect != "whole lines"], FAULTS, NUMBERS, REFUSED))
    for words in every:
        for counts_kinds in False, True:
            relay(settings_of(*words), PIECES[words[1]], counts_kinds=counts_kinds)
            relay(settings_of(*words), PIECES[words[1]] * 2, 7, counts_kinds)
    return 4 * len(every)


def relay_many():
    """More than 65,535 faults of each kind; and as many items, where each fault is an object."""
    relay(settings_of("rebuilt", "crate", "raw", "item", False), PIECES["crate"] * 66000)
    relay(settings_of("canonical", "crate", "line", "item", True), PIECES["crate"] * 66000)
    relay(settings_of("verbatim", "crate", "json", "item", True), PIECES["crate"] * 3000)
    return 3


def relay_long():
    """Pieces of more than 16 MiB: a line; a line that is not as written; a line at fault; a line whose fault tells most of it; and a line at
    fault after so many newlines."""
    long = b"x" * LONG
    pieces = [
        Piece(b'm s="%s"' % long, 0, *3 * [b'm s="%s"' % long]),
        settings.differing(b'm  s="%s"' % long, b'm s="%s"' % long, "the spaces"),
        settings.refused(long, "generic_parsing_error", settings.GENERIC, LONG),
        settings.trailing(b"m a=1i" + long, long.decode(), 6),
        settings.trailing(b'm s="%s" x' % (b"\n" * LONG), " x", LONG + 6),
        Piece(b"m a=1i", 0, *3 * [b"m a=1i"]),
        settings.refused(b"x", "generic_parsing_error", settings.GENERIC, 1),
    ]
    # Each form of lines and of faults, by both numbers, with refused pieces and without.
    every = [("rebuilt", "crate", "raw", "item", False), ("verbatim", "crate", "json", "item", True), ("canonical", "crate", "line", "item", True),
             ("rebuilt", "crate", "line", "line", True), ("verbatim", "strict", "raw", "line", False), ("canonical", "strict", "json", "item", False),
             ("rebuilt", "crate", "json", "line", True)]
    for at, words in enumerate(every):
        relay(settings_of(*words, NO_LIMIT), pieces, counts_kinds=at < 3)
    return len(every)


# ---- growth ----

def series_in_parts(text):
    """What is counted of a text that comes in a hundred parts, if all series are kept."""
    parts = numbers([len(text) // 100 + len(text) % 100, *[len(text) // 100] * 99])
    return LIBRARY.joined("series", 0, NO_LIMIT, NO_LIMIT, text, parts)


def pieces_of_parts(text):
    """The pieces of a text that comes in parts of 64 bytes, as one text, and how many they are. One piece is taken after each part."""
    steps = numbers([*[64, NEXT] * (len(text) // 64), len(text) % 64, ALL, FINISH])
    pieces = [entry[1:-1] for entry in LIBRARY.reported("calls", 0, False, 0, text, steps) if entry != b"none"]
    return b"".join(pieces), len(pieces)


def joined(name, *dialect):
    """A call that reports entries of a text."""
    return lambda text: LIBRARY.joined(name, *dialect, text)


CALLS = {
    "pieces": joined("rows_pieces", 0), "pieces of parts": pieces_of_parts, "items": joined("items", 0), "events": joined("events", 0),
    "pulled events": joined("pulled", 0), "items by one line": joined("reused", 0), "bases": joined("bases", 0), "keys": joined("keys", 0),
    "shown lines": joined("shown", 0), "a rebuild": joined("rows_rebuilt", 0), "counts of series": series_in_parts,
    "what InfluxDB reads": joined("influx"), "a run": lambda text: LIBRARY.relay(b"", text, way="run"),
    "a relay": lambda text: LIBRARY.relay(b"cjrk", text, numbers([512])),
}
# Calls that must give what another one does.
SAME = {"pieces of parts": "pieces", "events": "items", "pulled events": "items", "items by one line": "items"}
# Texts of any length: a head, a part that is repeated, and a tail.
TEXTS = {
    "lines": (b"", b"m a=1i\n", b""), "lines that are not as written": (b"", b"m  a=1i\n", b""), "faults": (b"", b"x y\n", b""),
    "fields": (b"m f=1i", b",f=1i", b""), "tags": (b"m", b",k=v", b" f=1i"), "newlines in a string": (b'm s="', b"\n", b'"'),
    "escapes": (b'm s="', b'\\"', b'"'), "escapes in a name": (b"m", b"\\ ", b" f=1i"), "backslashes": (b"m", b"\\", b" f=1i"),
    "strings": (b'm s=""', b',s=""', b""), "newlines": (b"", b"\n", b"x"),
}


def seconds(call, text):
    """The seconds of a processor that a call takes: the least of three times."""
    def taken():
        start = time.process_time()
        call(text)
        return time.process_time() - start

    return min(taken() for _ in range(3))


def grow(name, head, part, tail):
    """A call over ten times as many parts takes at most thirty times as long; one that looks at all of a text for each of its parts takes a
    hundred times as long. A millisecond more is no sign of growth."""
    texts = [head + part * count + tail for count in (MANY // 100, MANY // 10, MANY - 1)]
    for what, call in CALLS.items():
        taken = [seconds(call, text) for text in texts]
        for before, after in itertools.pairwise(taken):
            if after > 30 * before + 0.001:
                raise Wrong(f"{what} of many {name}: for ten times as many it takes more than thirty times as long")
    for what, other in SAME.items():
        wanted = CALLS[other](head + part * MANY + tail)
        ctypes.memset(LIBRARY.out, 0, len(wanted[0]))
        same(f"{what} of many {name}", CALLS[what](head + part * MANY + tail), wanted)
        same(f"{what} of many {name}: there are some", wanted[1] > 0, True)


def counts_begin(text, max_series, wanted):
    """What is counted of a text that comes in one part begins with this."""
    entries = LIBRARY.reported("series", 0, NO_LIMIT, max_series, text, numbers([len(text)]))
    same("the counts of series", (len(entries), entries[0][:len(wanted)]), (2, wanted))


def read_large():
    """A line of many tags, which come in the other order, and as many fields: its key, the hash of that by FNV-1a of 64 bits, and what is counted
    of it; its columns are not told. Many lines, each of another measurement, and as many faults: if all series are kept, and if one is. And what
    InfluxDB 1.x reads of 3,001 tags, many fields and a long string."""
    tags = [b"t%06d=v" % at for at in range(1, MANY + 1)]
    key = b",".join([b"m", *tags])
    text = b",".join([b"m", *tags[::-1]]) + b" " + b",".join(b"f%06d=1i" % at for at in range(1, MANY + 1)) + b"\n"
    code = functools.reduce(lambda so_far, byte: (so_far ^ byte) * 1099511628211 % 2**64, key, 14695981039346656037)
    same("the key of many tags", LIBRARY.reported("keys", 0, text), [b"%d:" % len(key) + key, b"%d" % code, b"true", b"None", b""])
    counts_begin(text, NO_LIMIT, b"1 1 none none 0 0\nseries m,t000001=v,t000002=v,")
    text = b"".join(b"m%06d f=1i\nx\n" % at for at in range(MANY))
    counts_begin(text, NO_LIMIT, b"%d %d none none 0 %d\nseries m000000 1\nseries m000001 1\n" % (MANY, MANY, MANY))
    counts_begin(text, 1, b"%d %d none none %d %d\nseries m000000 1\npoints m000000 1\n" % (MANY, MANY, MANY - 1, MANY))
    tags = [b"t%04d" % at for at in range(3001)]
    string = b"x" * MANY
    text = b"m" + b"".join(b",%s=v" % tag for tag in tags) + b' s="' + string + b'"' + b",f=1i" * MANY
    point = b"m1:m" + b"".join(b"t5:%sv1:v" % tag for tag in tags) + b"k1:ss%d:" % MANY + string + b"k1:fi1:" * MANY
    same("what InfluxDB reads of many fields", LIBRARY.reported("influx", text), [point])


def main():
    for name, text in TEXTS.items():
        grow(name, *text)
    read_large()
    relays = relay_by_all_settings() + relay_many() + relay_long()
    print(f"sizes: {relays} relays, and {len(CALLS)} calls over {len(TEXTS)} texts that grow: each as stated")


try:
    main()
except Wrong as wrong:
    sys.exit(f"sizes: {wrong}")
