#!/usr/bin/env python3
"""Refuses each request for memory in turn: for N = 1, 2, .. the Nth alone, until a call makes fewer than N requests. And runs and relays a text over
devices that fail, that move a few bytes, or that take none, call by call. What must come is written out here, from the format's rules. The
events and the blocks of the same texts must make no request, and each call must give back the memory that it took.

    checks/refusals.py LIBRARY

LIBRARY: the calls of crates/lp_checks and crates/lp_c, with memory.c, as a shared library; checks/refusals.sh makes it.
"""

import collections
import ctypes
import itertools
import random
import struct
import sys

from library import ALL, CARRIED, FINISH, LINES_AT, NEXT, NO_LIMIT, RELAYS, Library, numbers
from random_texts import random_parts, random_text

NOWHERE, UNTOUCHED, LOOKED_AT = 1000, 0xA5, 1 << 14
LIBRARY = Library(sys.argv[1])
# Buffers of their own, so that the address sanitizer sees their ends.
LIBRARY.out, LIBRARY.err, LIBRARY.refused = (ctypes.create_string_buffer(1 << 19) for _ in range(3))
ASKED, REFUSE, MOST = (ctypes.c_ulong.in_dll(LIBRARY.calls, name) for name in ("asked", "refuse", "most"))
HELD, COUNTING = ctypes.c_long.in_dll(LIBRARY.calls, "held"), ctypes.c_bool.in_dll(LIBRARY.calls, "counting")
LETTERS = [b"", b"s", b"n"]
COUNTS = collections.Counter()
REFUSED = b"out of memory"


class Wrong(Exception):
    """What is not as stated."""


def must(holds, what, *more):
    if not holds:
        raise Wrong(" ".join(map(str, (what, *more)))[:3000])


def reported(name, *values):
    """The entries that a call reports. Of rows.c the calls of the library count alone: what it fills is memory of its own."""
    COUNTING.value = not name.startswith("rows_")
    given = LIBRARY.reported(name, *values)
    COUNTING.value = True
    return given


def counted(call):
    """What a call gives, whose requests are counted."""
    for buffer in LIBRARY.out, LIBRARY.err, LIBRARY.refused:
        ctypes.memset(buffer, UNTOUCHED, LOOKED_AT)
    ctypes.memset(LIBRARY.ends, 0, LOOKED_AT)
    ASKED.value = MOST.value = HELD.value = 0
    LIBRARY.place.value = NOWHERE
    given = call()
    COUNTS["runs"] += 1
    must(HELD.value == 0, f"{HELD.value} blocks of memory were not given back")
    return given


def each_refused(call, first=0):
    """What a call gives as each request after the first ones is refused, and that one was; and at last what it gives if none is."""
    for REFUSE.value in itertools.count(first + 1):
        given = counted(call)
        was_refused = ASKED.value >= REFUSE.value
        yield given, was_refused
        if not was_refused:
            break
    REFUSE.value = 0


def must_be_untouched(*buffers):
    for buffer in buffers:
        must(ctypes.string_at(buffer, LOOKED_AT) == bytes([UNTOUCHED]) * LOOKED_AT, "an output was written")


# ---- entries, of which a refusal makes one `out of memory` ----

# How many requests an entry makes: one at least, or nothing is said.
SOME, ANY = "some", "any"


def rest(text):
    """The entry of a line that has this after its end."""
    return b"Could not parse entire line. Found trailing content: '" + text + b"'"


# A call, its text, and its entries, each with how many requests it makes.
ENTRIES = [
    (["items", 0], b"m a=1i\na\\ b,c\\,d=e\\=f g\\ h=\"i\\\"j\"\nm,a=1,b=1,c=1,d=1,e=1,f=1,g=1,h=1,i=1 v=1i,w=1i,x=1i,y=1i,z=1i\nm a=1x", [
        (b"line 1:m S1:m S1:a=i1", 0), (b"line 14:a\\ b,c\\,d=e\\=f C3:a b,C3:c,d=C3:e=f C3:g h=sC3:i\"j", 5),
        (b"line 37:m,a=1,b=1,c=1,d=1,e=1,f=1,g=1,h=1,i=1 S1:m,S1:a=S1:1,S1:b=S1:1,S1:c=S1:1,S1:d=S1:1,S1:e=S1:1,S1:f=S1:1,S1:g=S1:1,S1:h=S1:1,"
         b"S1:i=S1:1 S1:v=i1 S1:w=i1 S1:x=i1 S1:y=i1 S1:z=i1", SOME), (rest(b"x"), 1)]),
    (["items", 0], b"a\\ b f=1i\nm f=1i", [(b"line 4:a\\ b C3:a b S1:f=i1", 1), (b"line 1:m S1:m S1:f=i1", 0)]),
    (["items", 0], b"m \\,=1i x", [(rest(b" x"), 1)]),
    (["items", 0], b"cpu,host=A,region=west usage_system=64i 1590488773254420000", [
        (b"line 22:cpu,host=A,region=west S3:cpu,S4:host=S1:A,S6:region=S4:west S12:usage_system=i64 at 1590488773254420000", 0)]),
    (["items", 0], b"\\,,\\==x a=\"\\\\\"", [(b"line 7:\\,,\\==x S1:,,S1:==S1:x S1:a=sS1:\\", 0)]),
    (["items", 0], b"m 5\nfoo\n,x\nm, f=1i\nm,=v f=1i\nm\\\\ f=1i", [
        (b"No fields were provided", 0), (b"A generic parsing error occurred: TakeWhile1", 0), (b"Invalid measurement was provided", 0),
        (b"Tag Set Malformed", 0), (b"Tag Set Malformed", 0),
        (b"Measurements, tag keys and values, and field keys may not end with a backslash", ANY)]),
    (["items", 0], b"m,a=1,b=1,c=1,d=1,e=1,f=1,g=1,h=1 a=1i,b=1u,c=1.5,d=t\nm,a=1,b=1,c=1,d=1,e=1,f=1,g=1,h=1,i=1 x=1i\n"
     b"k a=1i,b=1i,c=1i,d=1i,e=1i\nm f=1i", [
         (b"line 33:m,a=1,b=1,c=1,d=1,e=1,f=1,g=1,h=1 S1:m,S1:a=S1:1,S1:b=S1:1,S1:c=S1:1,S1:d=S1:1,S1:e=S1:1,S1:f=S1:1,S1:g=S1:1,S1:h=S1:1 "
          b"S1:a=i1 S1:b=u1 S1:c=f3:1.5 S1:d=true", 0),
         (b"line 37:m,a=1,b=1,c=1,d=1,e=1,f=1,g=1,h=1,i=1 S1:m,S1:a=S1:1,S1:b=S1:1,S1:c=S1:1,S1:d=S1:1,S1:e=S1:1,S1:f=S1:1,S1:g=S1:1,S1:h=S1:1,"
          b"S1:i=S1:1 S1:x=i1", SOME), (b"line 1:k S1:k S1:a=i1 S1:b=i1 S1:c=i1 S1:d=i1 S1:e=i1", SOME), (b"line 1:m S1:m S1:f=i1", 0)]),
    (["items", 0], b"m a=-9223372036854775809i\nm a=18446744073709551616u\nm a=1i 9223372036854775808\nm s=\"a\\b\"\nm a=1e5 7\nm a=T", [
        (b"Below Unable to parse integer value '-9223372036854775809'", 1), (b"Above Unable to parse unsigned integer value '18446744073709551616'", 1),
        (b"Above Unable to parse timestamp value '9223372036854775808'", 1), (b"line 1:m S1:m S1:s=sC3:a\\b", 1), (b"line 1:m S1:m S1:a=f3:1e5 at 7", 0),
        (b"line 1:m S1:m S1:a=true", 0)]),
    (["items", 0], b"m a=1i, 5\nm a=1i,b=2i, 5", [(b"line 1:m S1:m S1:a=i1 at 5", 0), (rest(b", 5"), 1)]),
    (["items", 1], b"m a=1i, 5\nm a=1i,", [(rest(b", 5"), 1), (rest(b","), 1)]),
    (["items", 0], b"# it a=\"\nm b=1i\nn c=2i", [(rest(b"\nn c=2i"), 1)]),
    (["items", 1], b"# it a=\"\nm b=1i\nn c=2i", [(b"line 1:m S1:m S1:b=i1", 0), (b"line 1:n S1:n S1:c=i2", 0)]),
    # A name with a thousand escapes.
    (["items", 0], b"a" + b"\\ " * 1000 + b" f=1i", [(b"line 2001:a" + b"\\ " * 1000 + b" C1001:a" + b" " * 1000 + b" S1:f=i1", 1)]),
    (["bases", 0], b"foo,tag2=2,tag1=1 f=1i", [(b"owned 17:foo,tag1=1,tag2=2", SOME)]),
    (["bases", 0], b"foo,tag=1,tag=2 f=1i", [(b'Must not contain duplicate tags, but "tag" was repeated', SOME)]),
    (["bases", 0], b"\\,,k=v f=1i", [(b"borrowed 6:\\,,k=v", 0)]),
    (["bases", 0], b"foo,c=1,b=1,b=2,c=3 f=1i\nm,B=1,a=2 f=1i\nm,a=1,B=2 f=1i\nm,b,a=1,a=2 f=1i\na\\ b,k\\,1=v f=1i\nm 5", [
        (b'Must not contain duplicate tags, but "b" was repeated', SOME), (b"borrowed 9:m,B=1,a=2", 0), (b"owned 9:m,B=2,a=1", SOME),
        (b"owned 11:m,a=2,b,a=1", SOME), (b"owned 9:a b,k,1=v", SOME), (b"No fields were provided", 0)]),
    # A key takes one request, and its hash and a comparison none.
    (["keys", 0], b"foo,tag2=2,tag1=1 f=1i", [(b"17:foo,tag1=1,tag2=2", 1), (b"16838679506343377537", 0), (b"true", 0), (b"None", 0), (b"4", 0)]),
    (["keys", 0], b"m,,=v f=1i\nm 5", [
        (b"6:m,\\,=v", 1), (b"6965606012667703543", 0), (b"true", 0), (b"None", 0), (b"3", 0), (b"No fields were provided", 0)]),
    (["copies", 0], b"m s=\"x\"", [(b"S1:m", 0), (b"1:m", 1), (b"1:m", 1), (b"S1:m", 0), (b"sS1:x", 0), (b"sS1:x", 0)]),
    # Neither the splitter nor what is shown of a line asks for memory.
    (["rows_pieces", 0], b"meas tag=val field=\"\nval\"\nnext", [(b"meas tag=val field=\"\nval\"", 0), (b"next", 0)]),
    (["rows_pieces", 0], b"# it a=\"\nm b=1i\nn c=2i", [(b"# it a=\"\nm b=1i\nn c=2i", 0)]),
    (["shown", 0], b"m,tag1=val1,tag2=val2 field1=42.1,field2=false 33\nm 5", [
        (b"m,tag1=val1,tag2=val2 field1=42.1,field2=false 33", 0), (b"m,tag1=val1,tag2=val2", 0), (b"42.1", 0), (b"false", 0),
        (b"No fields were provided", 0)]),
]


def events_ask_nothing(text):
    """What the events of a text tell, to a sink or one after another, and what its blocks hold, is what its items are, in each dialect."""
    for dialect, name in itertools.product(range(3), ("events", "pulled", "rows_items")):
        items = reported("items", dialect, text)
        given = counted(lambda: reported(name, dialect, text))
        must(ASKED.value == 0, text, f"{name} made {ASKED.value} requests")
        must(given == items, text, name, given, items)
    COUNTS["texts"] += 1


def refuse_entries(call, text, entries, first=0):
    """The entries are as wanted, but for one that is refused. The requests up to the first ones are left alone."""
    events_ask_nothing(text)
    refused = collections.Counter()
    for given, was_refused in each_refused(lambda: reported(*call, text), first):
        places = [place for place, entry in enumerate(given) if entry == REFUSED]
        wanted = [REFUSED if place in places else entry for place, (entry, _) in enumerate(entries)]
        must(given == wanted and len(places) == was_refused, call, text, given, "where this is wanted:", wanted)
        refused.update(places)
    for place, (_, requests) in enumerate(entries):
        holds = requests == ANY or (refused[place] > 0 if requests == SOME else refused[place] == requests)
        must(holds, call, text, f"entry {place} makes {refused[place]} requests")


def refuse_each_entry():
    for row in ENTRIES:
        refuse_entries(*row)
    # Copies of a measurement and of a string, both with an escape; the line's own two requests are left alone.
    refuse_entries(["copies", 0], b"a\\ b s=\"a\\\"b\"", [
        (b"C3:a b", 1), (b"3:a b", 1), (b"3:a b", 1), (b"C3:a b", 0), (b"sC3:a\"b", 1), (b"sC3:a\"b", 0)], 2)
    # Of more than 8 tags, a hash and a comparison take a request for each series too. The first request is the line's own.
    key = b"m,a=0,b=1,c=2,d=3,e=4,f=5,g=6,h=7,i=8"
    refuse_entries(["keys", 0], key + b" f=1i", [(b"37:" + key, 2), (b"15007026820635020882", 1), (b"true", 2), (key, 0), (b"11", 0)], 1)
    # The key of a series of 40 tags, which come in the other order, with an escape in each name.
    tags = [b",k\\ %d=v\\,%d" % (at, at) for at in range(10, 50)]
    text, key = b"m\\ n" + b"".join(tags[::-1]) + b" f=1i", b"m\\ n" + b"".join(tags)
    counted(lambda: reported("items", 0, text))
    refuse_entries(["keys", 0], text, [(b"%d:" % len(key) + key, 2), (b"1494254718823088878", 1), (b"true", 2), (b"None", 0), (b"42", 0)], ASKED.value)


def refuse_in_used_line():
    """A line of 20 tags and 20 fields is read into a line that has held as many before, and asks for nothing, whatever comes between."""
    wide = b"m" + b",t=v" * 20 + b" f=1i" + b",f=1i" * 19
    for between in (b"", b"m", b"m,", b",x", b"m f=1i", b"m f=1i\nm f=1i", b"m,a=1 f=1i", b"m f=1i\nm,a=1 f=1i", b"m,a\\,b=1 f=1i", b"m,t=v f",
                    b"m f=1x", b"m,a=1 f=9223372036854775808i"):
        text = b"\n".join([wide, between, wide])
        items = reported("items", 0, text)
        refuse_entries(["reused", 0], text, list(zip(items, [SOME, *[ANY] * (len(items) - 2), 0])))


def refuse_influx():
    """What InfluxDB 1.x reads of a line. If a request is refused, neither a point comes nor that there is none: one empty entry."""
    text = b"m\\ n" + b"".join(b",t\\,%d=v\\ %d" % (at, at) for at in range(10, 50))
    text += b" " + b",".join(b"f%d=%d.5,s\\==\"a\\\"%d\"" % (at, at, at) for at in range(10, 50))
    point = b"m3:m n" + b"".join(b"t4:t,%dv4:v %d" % (at, at) for at in range(10, 50))
    point += b"".join(b"k3:f%df4:%d.5k2:s=s4:a\"%d" % (at, at, at) for at in range(10, 50))
    for text, points, asks in [(b"# c", [], False), (b"m f=1x", [], False), (b"m,t=a\\ b", [], True), (b"m,t=1,t=2 f=1", [], True),
                               (b"m,t=a\\ b f=1i 5", [b"m1:mt1:tv3:a bk1:fi1:a5:"], True), (text, [point], True)]:
        for given, was_refused in each_refused(lambda: reported("influx", text)):
            must(given == ([b""] if was_refused else points), text, given)
        must((ASKED.value > 0) == asks, text, f"it makes {ASKED.value} requests")


# ---- counts of series ----

SERIES_LIMIT = 600
# A line of 20 tags, which come in the other order, and 10 fields, with an escape in each name and each string.
WIDE = b"w\\ x" + b"".join(b",k\\ %d=v\\,%d" % (at, at) for at in range(30, 10, -1)) + b" " + b",".join(
    b"f\\=%d=\"a\\\"%d\"" % (at, at) for at in range(10, 20)) + b" 9\n"
ESCAPED = b"e\\ e,a\\,b=c\\=d k\\ l=\"x\\\"y\" %d\n"
# Each line is a part of the text; and whether the counter must ask for memory for it, or must not. The first one is the longest, so that no later one
# takes memory for its bytes. It is too long to be counted. A line that begins with the key of a known series takes none; a wide line, and one with
# an escape in a name, always do.
SERIES = [
    (b"m s=\"%s\"\n" % (b"0" * SERIES_LIMIT), True), (WIDE, True), (b"m,t=a f=1i 5\n", True), (b"m,t=a f=2i 3\n", False), (b"m,t=a g=2i 3\n", True),
    (b"m,t=a f=2.5,g=\"s\"\n", False), (ESCAPED % 7, True), (b"# c\n", False), (b"x\n", False), (b"\xff\n", False), (WIDE, True),
    *((b"s%d,t=%d,u=%d f%d=t\n" % (at % 3, at, at, at % 5), True) for at in range(10, 34)), (ESCAPED % 8, True), (b"m,t=a f=1i 5\n", False),
    (b"l f=1i", True),
]


def series_told(max_series, without=None):
    """What a counter told before the first line, after each line, and after the end of the text; without one line, if that is given."""
    lines = [line for at, (line, _) in enumerate(SERIES) if at != without]
    told = reported("series", 0, SERIES_LIMIT, max_series, b"".join(lines), numbers([0, *map(len, lines)]))
    must(len(told) == len(lines) + 2, f"{len(told)} entries came")
    return told


def must_be_between(entry, least, most):
    """Each count must be that of `least`. A field or a tag is in `least` or in `most`, and the entry has all of `least`, but for fields that have
    another value in `most`, of which it has one of the two."""
    entry, least, most = (told.split(b"\n") for told in (entry, least, most))
    names = {line for line in (*entry, *least) if line.startswith((b"field ", b"tag "))}
    must(entry[0] == least[0], entry[0], "should be", least[0])
    for line in entry[1:]:
        must(line in least or (line in names and line in most), "the tables have", line)
    for line in least[1:]:
        name = line[:line.rfind(b" ") + 1]
        changes = line in names and line not in most
        must(line in entry or (changes and any(other.startswith(name) for other in entry)), "the tables have not", line)


def refuse_series(max_series):
    """A call is refused. Its line is lost, and no other: what was counted before is still there, and the later lines are counted. If no series is
    kept, the lines ask for less, and how many do is not said."""
    whole = counted(lambda: series_told(max_series))
    without = [counted(lambda: series_told(max_series, line)) for line in range(len(SERIES))]
    asks = set()
    for given, was_refused in each_refused(lambda: series_told(max_series)):
        places = [place for place, entry in enumerate(given) if entry.startswith(REFUSED + b"\n")]
        must(len(places) == was_refused and 0 not in places, f"the calls {places} are refused")
        for place in places:
            lost = min(place, len(SERIES)) - 1
            asks.add(lost)
            must(given[:place] == whole[:place], "what was counted before is lost")
            entries = [given[place].partition(b"\n")[2], *given[place + 1:]]
            for entry, least, most in zip(entries, without[lost][place - 1:], whole[place:], strict=True):
                must_be_between(entry, least, most)
    must(given == whole, "with no request refused other counts came")
    must(not max_series or asks == {line for line, (_, asks_for_memory) in enumerate(SERIES) if asks_for_memory}, f"the lines {asks} make requests")


def count_few_series():
    text = b"m,t=b f=1i 5\nm,t=a f=2 -3\nx\nn,t=a g=\"s\"\nm,t=c f=t\nm,t=a f=3"
    told = counted(lambda: reported("series", 0, NO_LIMIT, 3, text, numbers([13, 9, 37])))
    must(len(told) == 4 and told[0] == b"1 0 5 5 0 0\nseries m,t=b 1\npoints m 1\nkeys m 1\nfield m f false,true,false,false,false\ntag t b\n", told)
    # Series and values of tags come in the order in which they came, measurements and fields in the order of their names.
    must(told[3] == b"5 3 -3 5 1 1\nseries m,t=b 1\nseries m,t=a 2\nseries n,t=a 1\npoints m 3\nkeys m 2\nfield m f true,true,false,false,false\n"
         b"points n 1\nkeys n 1\nfield n g false,false,false,true,false\ntag t b\ntag t a\n", told)


# ---- calls of the builder ----

FIELDS = b"sfiub"
# Calls: what each appends, its letter, and its texts. The last ones are lines that are written again.
PROGRAMS = [
    [(b"foo", b"m", b"foo"), (b",bar=baz", b"t", b"bar", b"baz"), (b" qux=42", b"f", b"qux", b"42"), (b"\n", b".")],
    [(b"with\\,comma\\ and\\ space", b"m", b"with,comma and space"), (b",with\\ space=with\\=eq", b"t", b"with space", b"with=eq"),
     (b",k=with\\\\\\ backslash", b"t", b"k", b"with\\ backslash"), (b" a=\"foo \\\\ bar\"", b"s", b"a", b"foo \\ bar"), (b",c=51i", b"i", b"c", b"51"),
     (b",u=51u", b"u", b"u", b"51"), (b",b=false", b"b", b"b", b"false"), (b",f=-1.234456E+3", b"f", b"f", b"-1.234456E+3"),
     (b" 1234", b"@", b"", b"1234"), (b"\n", b"."), (b"#x", b"m", b"#x"), (b" f=\"a\nm k\"", b"s", b"f", b"a\nm k"), (b",c=1i", b"i", b"c", b"1"), (b"\n", b".")],
    [(b"m", b"m", b"m"), (b" a=1i", b"i", b"a", b"1"), (b" 12", b"@", b"", b"12"), (b"\n", b".")],
    [(b"m a=1i\n", b"l", b"m a=1i"), (b"m a=1E+3,b=7i,c=7u 5\n", b"l", b"m a=1E+3,b=007i,c=007u 5"),
     (b"m,a\\,b=1,k=d\\=e f=true\n", b"l", b"m,a,b=1,k=d=e f=t"), (b"m,b=1,a=2 f=true\n", b"l", b"m,b=1,a=2 f=t")],
]


def spelled(steps):
    """The calls, as crates/lp_checks reads them: each has a letter and two texts."""
    return b"".join(letter + b"".join(struct.pack("<I", len(text)) + text for text in (*texts, b"", b"")[:2]) for _, letter, *texts in steps)


def build(steps, reserved, again):
    """The bytes, and the call that was refused, or NOWHERE."""
    return reported("build", spelled(steps), reserved, again, ctypes.byref(LIBRARY.place)), LIBRARY.place.value


def text_of(steps):
    """What the calls append, and the end of the line that is open after them."""
    text = b"".join(step[0] for step in steps)
    if not steps or steps[-1][1] in b".l":
        return text
    return text + (b"\n" if steps[-1][1] in FIELDS + b"@" else b" end=true\n")


def refuse_with(steps, reserved):
    """Refuses each request in turn, where some bytes are reserved first, and gives the kinds of the calls that were refused: of fields, the first one
    of a line is a kind, and the later ones another."""
    whole, own = b"".join(step[0] for step in steps), int(reserved > 0)
    for (built, place), was_refused in each_refused(lambda: build(steps, reserved, True), own):
        must(built == [whole], f"the call made again, with {reserved} bytes reserved: {built}")
        must(place < len(steps) if was_refused else place == NOWHERE, f"call {place} was refused")
        if not was_refused:
            break
        if REFUSE.value == own + 1:
            ends = itertools.accumulate(len(step[0]) for step in steps)
            must(place == next(at for at, end in enumerate(ends) if end > reserved), f"call {place} was refused, with {reserved} bytes reserved")
        letter = steps[place][1]
        yield letter if letter not in FIELDS else "a later field" if steps[place - 1][1] in FIELDS else "a field"
        given = counted(lambda: build(steps, reserved, False))
        must(given == ([text_of(steps[:place])], place), given)


def refuse_builder():
    events_ask_nothing(b"\n".join(line for _, _, line in PROGRAMS[-1]))
    kinds = set()
    for steps in PROGRAMS:
        whole = len(b"".join(step[0] for step in steps))
        kinds.update(*(refuse_with(steps, reserved) for reserved in range(whole + 1)))
        REFUSE.value = 0
        counted(lambda: build(steps, whole, True))
        must(ASKED.value == 1, f"{ASKED.value - 1} requests came after the reservation of the whole")
        REFUSE.value = 1
        must(counted(lambda: build(steps, whole, True))[0] == [], "the reservation was refused, and bytes came")
    REFUSE.value = 0
    must(kinds == {b"m", b"t", b"@", b".", b"l", "a field", "a later field"}, "of the calls these were refused:", kinds)


# ---- rebuild, run and relay ----

# Lines, and the line and the fault that each of them gives. Lines that are as written are copied, and no names are read of them. Names with escapes are
# read before a fault, and before names without any. Each of the two lines whose fault comes after such a name asks for memory once, and has its
# fault also if that is refused.
LINES = [
    (b"m a=T 5\n", b"m a=true 5\n", b""), (b"# c\n", b"", b""), (b"x\n", b"", b"item 2: A generic parsing error occurred: TakeWhile1\n"),
    (b"w\\\t a=1i\n", b"", b"item 3: a name cannot be written again\n"),
    (b"a\\ b f=1 x\n", b"", b"item 4: Could not parse entire line. Found trailing content: ' x'\n"),
    (b"a\\ b f=1i x\n", b"", b"item 5: Could not parse entire line. Found trailing content: ' x'\n"),
    (b"a\\ b,c\\ d=e\\ f  g\\ h=\"i\\\"j\"\n", b"a\\ b,c\\ d=e\\ f g\\ h=\"i\\\"j\"\n", b""), (b"n,c=e  g=\"i\"\n", b"n,c=e g=\"i\"\n", b""),
]
COPIES_BEFORE_FAULTS = 2
INPUT, BATCH, FAULTS = map(b"".join, zip(*LINES))
REFUSED_PIECES = b"".join(text for text, _, fault in LINES if fault)


def refuse_rebuild(dialect):
    events_ask_nothing(INPUT)
    answers = 0
    for given, was_refused in each_refused(lambda: reported("rows_rebuilt", dialect, INPUT)):
        must(given == [BATCH, FAULTS, b"3 carried, 4 refused"] or (was_refused and not given), given)
        if not given:
            must_be_untouched(LIBRARY.out)
        answers += bool(given)
    must(answers == COPIES_BEFORE_FAULTS + 1, f"{answers} answers came")


def refuse_run(is_relay, letters):
    """A run, or a relay that is given all of the input at one read."""
    ended_well = 0
    for ended, was_refused in each_refused(lambda: LIBRARY.relay(letters, INPUT, way="relay" if is_relay else "run")):
        if ended != 0:
            must(ended == OUT_OF_MEMORY and was_refused and LIBRARY.told[LINES_AT:CARRIED:3] == [0, 0, 0], letters, ended, LIBRARY.told[:])
            must_be_untouched(LIBRARY.out, LIBRARY.err, LIBRARY.refused)
            continue
        ended_well += 1
        must(LIBRARY.outputs() == [BATCH, FAULTS, REFUSED_PIECES if b"r" in letters else b""], letters, LIBRARY.outputs())
    must(ended == 0 and ended_well == COPIES_BEFORE_FAULTS + 1, letters, f"{ended_well} came to their end")


# ---- sizes of requests ----

def ask_for_length(call, text, wanted):
    """A copy, a base that is no part of the text, and a key take just their length: the largest request is for so many bytes."""
    events_ask_nothing(text)
    counted(lambda: reported(*call, text))
    must(MOST.value == wanted, call, text, f"the largest request is for {MOST.value} bytes and should be for {wanted}")


def ask_seldom(what, call, wanted, most):
    """A call gives this, with few requests, none of them of more bytes."""
    must(counted(call) == wanted, what, "other entries came")
    must(ASKED.value <= 50, what, f"{ASKED.value} requests came")
    must(MOST.value <= most, what, f"a request is for {MOST.value} bytes")


def grow():
    """What grows gets several times its room at once. A set of tags that has grown is kept for the next line with tags. The lines have two spaces where
    the builder writes one, so that they are read into a line that is used again: of some hundred bytes at most for each byte of them."""
    for lines in (b"m  a=1i\n" * 1000, b"m  a=1i,b=1i,c=1i,d=1i,e=1i\n", b"m  f=1i" + b",a=1i" * 1000 + b" 5\n",
                  b"m,a=b,c=d,e=f,g=h,i=j,k=l,m=n,o=p,q=r  f=1i\n", b"m" + b",a=b" * 1000 + b"  f=1i\n",
                  (b"m" + b",a=b" * 100 + b"  f=1i\nm  f=1i\n") * 20):
        wanted = [lines.replace(b"  ", b" "), b"", b"%d carried, 0 refused" % lines.count(b"\n")]
        ask_seldom(lines[:50], lambda: reported("rows_rebuilt", 0, lines), wanted, 200 * len(lines))
    line, lines = [(b"m", b"m", b"m"), (b" a=1i", b"i", b"a", b"1"), (b"\n", b".")], b"m a=1i\n" * 1000
    ask_seldom("the builder", lambda: build(line * 1000, 0, True)[0], [lines], 4 * len(lines))
    ask_seldom("a stream", lambda: streamed(None, lines, lengths(len(lines), 64), NEXT)[0], [b"<m a=1i>"] * 1000 + [b"<>"], 4 * len(lines))


def lengths(size, part):
    """The lengths of the parts of so many bytes, of a text of this size."""
    return [min(part, size - at) for at in range(0, size, part)]


def streamed(limit, text, lens, take, dialect=0):
    """What a stream with this limit, or without, gives of a text that comes in parts of these lengths, if one call takes pieces after each of them,
    and others all that are left. And the places of the parts for which memory was refused; each of them was given again."""
    steps = numbers([*itertools.chain.from_iterable((size, take) for size in lens), ALL, FINISH])
    given = reported("calls", dialect, limit is not None, limit or 0, text, steps)
    left = [len(text) - end for end in itertools.accumulate(lens)]
    refused = [left.index(int(entry[len(REFUSED):])) for entry in given if entry.startswith(REFUSED)]
    return [entry for entry in given if entry != b"none" and not entry.startswith(REFUSED)], refused


def refuse_stream():
    """A stream takes no memory before its first part, and then for what it holds."""
    text, wanted = b"m a=1i\nn s=\"x\ny\"\no b=2i", [b"<m a=1i>", b"<n s=\"x\ny\">", b"<o b=2i>"]
    counted(lambda: streamed(None, b"", [], NEXT))
    must(ASKED.value == 0, f"{ASKED.value} requests came before the first part")
    for (given, refused), was_refused in each_refused(lambda: streamed(None, text, lengths(len(text), 4), NEXT)):
        must(given == wanted and len(refused) == was_refused, given)
    must(MOST.value <= 4 * len(text), f"a request is for {MOST.value} bytes")


# Texts, and their pieces.
ONE_PIECE_OF_MANY = [b"m,a=b s=\"a\nb\\\"\nc\",t=1i", b"# d", b"e f=\"\n\n\",g=\"h\nh\"", b"last\\\nlast"]
A_LINE = [b"m a=1i", b""]
LONG_PIECES = [b"m s=\"12345a\nb, and more bytes than the buffer has room forc\"", b"m a=1i", b"n b=2i", b"a longer line", b"none of them", b"o c=3i"]
# Which of these texts comes, how many bytes a piece may have, or None if there is no limit, the lengths of the parts, and how many requests each of the
# first ones makes. Bytes that are let go ask for nothing. A part that ends a piece of which all bytes were let go asks, as others do.
PARTS = [
    *((ONE_PIECE_OF_MANY, most, [5, 5, 5, 5, 5, 5, 5, 5, 5, 5, 4], [SOME, ANY, ANY]) for most in (NO_LIMIT, None)),
    *((A_LINE, most, [7], [1]) for most in (NO_LIMIT, None)), (ONE_PIECE_OF_MANY, 0, [1, 53], [1, 1]),
    (ONE_PIECE_OF_MANY, 3, [5, 49], [1, 1]), (ONE_PIECE_OF_MANY, 3, [18, 36], [1, 1]), (ONE_PIECE_OF_MANY, 12, [12, 42], [1, 1]),
    (ONE_PIECE_OF_MANY, 64, [9, 45], [1, 1]), (A_LINE, 3, [7], [1]), (LONG_PIECES, 8, [10, 48, 50], [1, 0, 1]),
]


def refuse_parts(dialect, pieces, limit, lens, requests):
    """A part for which memory is refused is given again: nothing is lost."""
    most = NO_LIMIT if limit is None else limit
    wanted = [(b"TooLong %d %d " % (piece.count(b"\n"), len(piece)) if len(piece) > most else b"") + b"<" + piece[:most] + b">" for piece in pieces]
    asks = collections.Counter()
    for (given, refused), was_refused in each_refused(lambda: streamed(limit, b"\n".join(pieces), lens, ALL, dialect)):
        must(given == wanted and len(refused) == was_refused, given)
        asks.update(refused)
    for part, should in enumerate(requests):
        must(should == ANY or (asks[part] > 0 if should == SOME else asks[part] == should), pieces, f"part {part} makes {asks[part]} requests")


# ---- devices ----

FAILS, WHOLE = NO_LIMIT, NO_LIMIT - 1
STEPS, HAS_ROOM, END, READ, OUT_OF_MEMORY, WRITE = 1024, 1 << 18, 0, 1, 3, 4
BY_BYTES = numbers([1] * STEPS)
PIECES_TOLD, ENDING = (ctypes.c_uint64 * 3)(), (ctypes.c_uint64 * 3)()


class Device:
    """How many bytes a device moves at most at each of its calls; the last number holds of each later call, and without one it moves all. It tells
    how many bytes it holds, how many calls it had, and how many of them were flushes."""

    def __init__(self):
        self.steps, self.count, self.told, self.bytes = numbers([1] * STEPS), STEPS, (ctypes.c_uint64 * 3)(), ctypes.create_string_buffer(HAS_ROOM)

    def go_by_bytes(self, at=0, step=1):
        """A byte at each call, but at one of them, counted from 1, this step."""
        ctypes.memmove(self.steps, BY_BYTES, ctypes.sizeof(BY_BYTES))
        self.count = STEPS
        if 0 < at <= STEPS:
            self.steps[at - 1] = step

    def holds_front(self, text, least):
        """Whether it holds a beginning of this text, with at least so many bytes."""
        return least <= self.told[0] <= len(text) and ctypes.string_at(self.bytes, self.told[0]) == text[:self.told[0]]


READER, OUT, ERR = DEVICES = [Device() for _ in range(3)]


def run_stepped(is_relay, letters, text):
    """How a run or a relay over the devices ends."""
    for device in DEVICES:
        ctypes.memset(device.told, 0, ctypes.sizeof(device.told))
    COUNTS["stepped"] += 1
    outputs = [value for device in (OUT, ERR) for value in (device.bytes, HAS_ROOM, device.steps, device.count, device.told)]
    return LIBRARY.calls.lp_checks_relay(
        RELAYS["relay" if is_relay else "run"], letters, len(letters), 0, text, len(text), b"", 0, READER.steps, READER.count, READER.told, *outputs,
        LIBRARY.refused, len(LIBRARY.refused), PIECES_TOLD, ENDING, LIBRARY.kinds)


def must_end(ended, end, lines, faults):
    """It ended so, and just these lines and faults were written."""
    must(ended == end, f"it ended with {ended} and not {end}")
    must(OUT.holds_front(lines, len(lines)), "other lines were written than", lines)
    must(ERR.holds_front(faults, len(faults)), "other faults were written than", faults)


def given_by(count):
    """The lines and the faults that the lines give which end among the first bytes of the text."""
    ends = itertools.accumulate(len(text) for text, *_ in LINES)
    ended = [line for line, end in zip(LINES, ends) if end <= count]
    return b"".join(line for _, line, _ in ended), b"".join(fault for *_, fault in ended)


def fail_reads(is_relay):
    """Of a relay all lines that have ended are written before the next read, and each output is flushed then; a run has one flush of each. No device
    is called again once one has failed, or its reader is at its end."""
    must_end(run_stepped(is_relay, b"", INPUT), END, BATCH, FAULTS)
    flushes = len(INPUT) + 1 if is_relay else 1
    must(READER.told[1] == len(INPUT) + 1, f"{READER.told[1]} reads came")
    must(OUT.told[2] == ERR.told[2] == flushes, f"other flushes came than {flushes}")
    must((OUT.told[1], ERR.told[1]) == (len(BATCH) + flushes, len(FAULTS) + flushes), "other writes came than one for each byte")
    for at in range(1, len(INPUT) + 2):
        READER.go_by_bytes(at, FAILS)
        must_end(run_stepped(is_relay, b"", INPUT), READ, *(given_by(at - 1) if is_relay else (b"", b"")))
        must(READER.told[1] == at, "a read came after one that failed")
    READER.go_by_bytes()


def fail_writes(is_relay, device, step):
    """A writer fails, or takes nothing, which is a failure too, but at a flush. The lines of a run come before its faults."""
    whole = len(BATCH if device is OUT else FAULTS)
    run_stepped(is_relay, b"", INPUT)
    for at in range(1, (device.told[1] if is_relay else whole + 1) + 1):
        device.go_by_bytes(at, step)
        ended = run_stepped(is_relay, b"", INPUT)
        if step == 0 and (ended == END if is_relay else at > whole):
            must_end(ended, END, BATCH, FAULTS)
            continue
        must(ended == WRITE, f"call {at} failed, and it ended with {ended}")
        must(OUT.holds_front(BATCH, 0) and ERR.holds_front(FAULTS, 0), "what was written is no beginning")
        if not is_relay:
            must_end(ended, WRITE, BATCH[:at - 1] if device is OUT else BATCH, b"" if device is OUT else FAULTS[:at - 1])
        must(device.told[1] == at and (device is ERR or is_relay or not ERR.told[1]), f"a call came after call {at}, which failed")
    device.go_by_bytes()


def fail_by_bytes():
    for device in DEVICES:
        device.go_by_bytes()
    for is_relay in False, True:
        fail_reads(is_relay)
        for device, step in itertools.product((OUT, ERR), (FAILS, 0)):
            fail_writes(is_relay, device, step)
    for device in DEVICES:
        device.count = 0
    must_end(run_stepped(False, b"", INPUT), END, BATCH, FAULTS)
    must(OUT.told[1] == ERR.told[1] == 2, "other calls came than one write and one flush")


def refuse_by_bytes(letters):
    """Of a relay byte by byte each request is refused in turn. What the reads before gave is written, unless memory was refused before."""
    for device in DEVICES:
        device.go_by_bytes()
    ended_well = 0
    for ended, was_refused in each_refused(lambda: run_stepped(True, letters, INPUT)):
        if ended == END:
            must_end(ended, END, BATCH, FAULTS)
            ended_well += was_refused
            continue
        must(ended == OUT_OF_MEMORY and was_refused, f"it ended with {ended}")
        lines, faults = map(len, given_by(max(READER.told[1], 1) - 1))
        must(OUT.holds_front(BATCH, lines) and ERR.holds_front(FAULTS, faults), f"what was written is no beginning, or less than {lines} and {faults} bytes")
    must(ended_well == COPIES_BEFORE_FAULTS, f"{ended_well} came to their end")


# A read asks for so many bytes, and may be given just as many.
BLOCK = 65536
# Lines of so many bytes, how many a reader gives of them at each call, how it ends, and how many bytes a relay and a run write. Of 70,000 bytes a block
# has 9,362 lines, and 2 bytes.
BLOCKS = [
    (70000, [BLOCK, BLOCK, BLOCK], END, 70000, 70000), (70000, [BLOCK, 3, BLOCK], END, 70000, 70000), (70000, [3, BLOCK, BLOCK], END, 70000, 70000),
    (70000, [BLOCK, FAILS, BLOCK], READ, 65534, 0), (70000, [BLOCK, 3, FAILS], READ, 65534, 0), (70000, [3, FAILS, BLOCK], READ, 0, 0),
    (70000, [FAILS, BLOCK, BLOCK], READ, 0, 0),
    *((size, [WHOLE, FAILS, WHOLE], READ, size, 0) for size in (7, 100, 65535, 65536)),
    *((size, [WHOLE, WHOLE, FAILS], READ, size, 0) for size in (65537, 131072)),
]


def fail_by_blocks():
    OUT.count = ERR.count = 0
    READER.count = 3
    for size, steps, end, *sizes in BLOCKS:
        lines = b"m a=1i\n" * ((size - 7) // 7)
        text = lines + b"m" * (size - len(lines) - 6) + b" a=1i\n"
        READER.steps[:3] = steps
        for is_relay, wanted in zip((True, False), sizes):
            must_end(run_stepped(is_relay, b"", text), end, text[:wanted], b"")


RANDOM_TEXTS, RANDOM_WRITES = 2000, 100


def must_be_rebuilt(dialect, text, is_all):
    """What was written is the text, rebuilt: all of it, or else a beginning."""
    lines, faults, _ = reported("rows_rebuilt", dialect, text)
    must(OUT.holds_front(lines, len(lines) * is_all) and ERR.holds_front(faults, len(faults) * is_all), "other lines or faults were written of", text)


def fail_random(dialect, rng, fails_writes):
    """Of a random text in parts each read fails in turn, and so do, of some texts, each write and each flush."""
    text = random_text(rng)
    parts = random_parts(rng, len(text))
    for device in DEVICES:
        device.go_by_bytes()
    READER.steps[:len(parts)] = parts
    must(run_stepped(True, LETTERS[dialect], text) == END, text, "the relay did not come to its end")
    must_be_rebuilt(dialect, text, True)
    calls = [(device, at) for device in (OUT, ERR) for at in range(1, device.told[1] + 1)]
    for device, at in calls * fails_writes:
        device.go_by_bytes(at, FAILS)
        must(run_stepped(True, LETTERS[dialect], text) == WRITE, text, f"call {at} failed, and the relay did not")
        device.go_by_bytes()
        must_be_rebuilt(dialect, text, False)
    ends = list(itertools.accumulate(len(piece) + 1 for piece in reported("rows_pieces", dialect, text)[:-1]))
    for part, read in enumerate(itertools.accumulate(parts, initial=0)):
        step, READER.steps[part] = READER.steps[part], FAILS
        must(run_stepped(True, LETTERS[dialect], text) == READ, text, f"read {part + 1} failed, and the relay did not")
        READER.steps[part] = step
        must_be_rebuilt(dialect, text[:max((end for end in ends if end <= read), default=0)], True)


def main():
    refuse_each_entry()
    for call, text, wanted in [(["items", 0], b"m\\ n a=1i", 3), (["items", 0], b"m a=\"0123456789abcdef\\\"0123456789abcdef\"", 33),
                               (["bases", 0], b"m,a=x\\ y f=1i", 7), (["keys", 0], b"m,b=x\\ y,a=1 f=1i", 12)]:
        ask_for_length(call, text, wanted)
    grow()
    refuse_stream()
    refuse_in_used_line()
    refuse_influx()
    count_few_series()
    refuse_series(len(SERIES))
    refuse_series(0)
    refuse_builder()
    for dialect, letters in enumerate(LETTERS):
        for row in PARTS if dialect < 2 else []:
            refuse_parts(dialect, *row)
        refuse_rebuild(dialect)
        refuse_run(False, letters)
        refuse_run(True, letters)
        refuse_by_bytes(letters)
    refuse_run(True, b"ork")
    fail_by_bytes()
    fail_by_blocks()
    rng = random.Random(4)
    for dialect, number in itertools.product(range(3), range(RANDOM_TEXTS)):
        fail_random(dialect, rng, number < RANDOM_WRITES)
    print("refusals: {runs} runs, {stepped} runs and relays over devices, and {texts} texts whose events and blocks ask for nothing: each as stated".format(**COUNTS))


try:
    main()
except Wrong as wrong:
    sys.exit(f"refusals: {f'with request {REFUSE.value} refused: ' if REFUSE.value else ''}{wrong}")
