#!/usr/bin/env python3
"""Whether in the dialect NewlineDelimited each line of a text is read as if it were alone. The model splits a text by Python's
`bytes.split`, and asks the strict dialect for one line at a time. What the library gives for a whole text must be what it gives for
its lines: pieces, also of a text in parts; items, also by events and in blocks of C; what is rebuilt; what a relay writes, and what
it counts. And whatever bytes take the place of one line, the others are answered as before.

    checks/newline_delimited.py LIBRARY [COUNT [SEED]]

LIBRARY: the calls of crates/lp_checks and rows.c as a shared library; checks/events.sh makes it. The
texts are those of the table of answers, and COUNT hostile ones, made from SEED: 100,000 and 1 if they are not given.
"""

import functools
import json
import pathlib
import random
import re
import sys

from library import ALL, FINISH, KINDS, NEXT, Library, numbers

STRICT, NEWLINE_DELIMITED = 1, 2

# Bytes that mean something, and fronts of lines after which they do.
BYTES = [b"m", b",", b"=", b" ", b"\"", b"\\", b"\n", b"#", b"0", b"9", b"i", b"\t", b"\0", "é".encode()]
FRONTS = [
    b"", b"m", b"m,", b"m,i=", b"m,i=m\\", b"m i=9i", b"m i=9i,", b"m i=\"", b"m i=\"m\\", b"m i=\"m\",m=", b"m i=9i 9", b"\\", b"#",
    b" # i=\"", b"m i=" + b"9" * 20, b"\t ",
]
# What a line is replaced by has these too, of which no text is made.
OTHERS = BYTES + [b"\xff", b"\xed\xa0\x80", b"\xc3", b"\r"]

# The settings of relays, as letters of crates/lp_checks, and how long a line may be.
LETTERS = [b"lork", b"jr", b"lorkv", b"jrk", b"lorkc"]
LIMITS = [b"", b"", b"b12"]

LIBRARY = Library(sys.argv[1], 1 << 16, 1 << 10)


def relayed(letters, text, part):
    """What a relay writes to its three outputs, by lines, and how many items it refuses for each kind of fault."""
    ended = LIBRARY.relay(letters, text, numbers([part]))
    if ended != 0:
        sys.exit(f"newline_delimited: a relay of {text!r} ends with {ended}")
    written, faults, refused = (output.split(b"\n")[:-1] for output in LIBRARY.outputs())
    return [written, [json.loads(fault) for fault in faults] if b"j" in letters else faults, refused, LIBRARY.kinds[:]]


@functools.cache
def items_alone(line):
    return LIBRARY.reported("items", STRICT, line)


@functools.cache
def rebuilt_alone(line):
    return LIBRARY.reported("rows_rebuilt", STRICT, line)


@functools.cache
def relayed_alone(letters, line):
    return relayed(b"s" + letters, line, len(line) + 1)


def rebuilt_by_lines(lines):
    """What is rebuilt of lines, of which each is rebuilt alone."""
    batch, faults, carried, refused = b"", b"", 0, 0
    for written, fault, _ in map(rebuilt_alone, lines):
        carried, refused = carried + (written != b""), refused + (fault != b"")
        batch += written
        faults += fault.replace(b"item 1:", b"item %d:" % (carried + refused), 1)
    return [batch, faults, b"%d carried, %d refused" % (carried, refused)]


def moved(fault, item, line, offset):
    """The fault of a line alone, as that of such an item and line after so many bytes."""
    if isinstance(fault, bytes):
        return fault.replace(b"line 1:", b"line %d:" % line, 1)
    after = {"item": item - 1, "line": line - 1, "piece_line": line - 1, "stop_line": line - 1, "offset": offset, "piece_offset": offset}
    return {name: told + after[name] if name in after else told for name, told in fault.items()}


def relayed_by_lines(letters, lines):
    """What is relayed of lines, of which each is relayed alone."""
    written, faults, refused, counts, offset = [], [], [], [0] * KINDS, 0
    for number, line in enumerate(lines, 1):
        alone = relayed_alone(letters, line)
        item = len(written) + len(faults) + 1
        written += alone[0]
        faults += [moved(fault, item, number, offset) for fault in alone[1]]
        refused += alone[2]
        counts = [count + more for count, more in zip(counts, alone[3])]
        offset += len(line) + 1
    return [written, faults, refused, counts]


def same(what, text, given, wanted):
    if given != wanted:
        sys.exit(f"newline_delimited: {what} of {text!r}: {given}, and not {wanted}")


def compare(text, number):
    """Compares what is given for a text with what its lines give, and gives how many lines it has."""
    lines = text.split(b"\n")
    same("the pieces", text, LIBRARY.reported("rows_pieces", NEWLINE_DELIMITED, text), lines)
    part = number % 7 + 1
    steps = numbers([*[part, NEXT] * (len(text) // part), len(text) % part, ALL, FINISH])
    pieces = [piece[1:-1] for piece in LIBRARY.reported("calls", NEWLINE_DELIMITED, False, 0, text, steps) if piece != b"none"]
    same("the pieces in parts", text, pieces, lines)
    items = [item for line in lines for item in items_alone(line)]
    for name in "items", "events", "pulled", "rows_items":
        same(f"the {name}", text, LIBRARY.reported(name, NEWLINE_DELIMITED, text), items)
    same("what is rebuilt", text, LIBRARY.reported("rows_rebuilt", NEWLINE_DELIMITED, text), rebuilt_by_lines(lines))
    letters = LETTERS[number % len(LETTERS)] + LIMITS[number % len(LIMITS)]
    if number % 2 == 0:
        same(f"what is relayed by {letters}", text, relayed(b"n" + letters, text, part), relayed_by_lines(letters, lines))
    return len(lines)


def compare_replaced(lines, place, other):
    """Compares what is relayed of lines, one of them replaced by such bytes, with what is if it is empty: each output may have one entry
    more, after those of the lines before."""
    def given(lines):
        return relayed(b"nlor", b"\n".join(lines), 5)[:3]

    replaced = [*lines[:place], other, *lines[place + 1:]]
    before, empty = given(lines[:place]), given([*lines[:place], b"", *lines[place + 1:]])
    for output, front, wanted in zip(given(replaced), before, empty):
        if len(output) > len(wanted):
            del output[len(front):len(front) + 1]
        same(f"the other lines than {place}", b"\n".join(replaced), output, wanted)


def rows():
    """The texts of the table of answers."""
    escapes = {b"n": b"\n", b"t": b"\t", b"r": b"\r", b"0": b"\0", b"\\": b"\\"}
    table = pathlib.Path(__file__).parent.parent / "checks/tables/answers.tsv"
    for row in table.read_bytes().split(b"\n"):
        if row and not row.startswith(b"#"):
            yield re.sub(rb"\\(.)", lambda escape: escapes[escape[1]], row.split(b"\t")[1])


def hostile(rng, texts):
    """Lines of a front, or of one of these texts, and bytes that mean something."""
    fronts = [rng.choice(texts if rng.random() < 0.2 else FRONTS) for _ in range(rng.randrange(1, 6))]
    return b"\n".join(front + b"".join(rng.choices(BYTES, k=rng.randrange(9))) for front in fronts)


def main():
    count = int(sys.argv[2]) if len(sys.argv) > 2 else 100000
    rng = random.Random(int(sys.argv[3]) if len(sys.argv) > 3 else 1)
    told = list(rows())
    texts = told + [hostile(rng, told) for _ in range(count)]
    lines = sum(compare(text, number) for number, text in enumerate(texts))
    for text in texts[::10]:
        split = text.split(b"\n")
        compare_replaced(split, rng.randrange(len(split)), b"".join(rng.choices(OTHERS, k=9)).replace(b"\n", b""))
    print(f"newline_delimited: each of the {lines} lines of {len(texts)} texts is read as if it were alone")


main()
