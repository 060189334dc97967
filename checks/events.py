#!/usr/bin/env python3
"""Compares the items that events tell, and those of blocks, with the items that are read, and pieces with those that are found byte by byte, in
each dialect: events.c does so for every text of at most six bytes over eleven that mean something, and for every text of at most five such
bytes after each of the fronts here. Of a batch each front has the lines that it holds, and of a line at fault just what reads before its
fault is told. What must come of these is written out here, from the format's rules (docs/FORMAT.md).

    checks/events.py LIBRARY

LIBRARY: the calls of crates/lp_checks, rows.c and events.c, as a shared library; checks/events.sh makes it.
"""

import ctypes
import itertools
import multiprocessing
import sys
from concurrent.futures import ProcessPoolExecutor

from library import Library

LIBRARY = Library(sys.argv[1], 1 << 16, 1 << 10)
AGREE = LIBRARY.calls.events_agree
AGREE.argtypes, AGREE.restype = [ctypes.c_char_p, ctypes.c_size_t, ctypes.c_int, ctypes.c_void_p], ctypes.c_bool

# Places of a line: after a space, in a tag, in a field, in a string, after a field, and in the lines after.
FRONTS = [
    b"m ", b"m,", b"m,1=", b"m,1=\\", b"m,m=1,", b"m 1=", b"m 1=-", b"m 1=1", b'm 1="', b'm 1="\\', b'm 1="i"', b"m m=1i,", b"m m=1i ",
    b"m m=1i 1", b"m m=t,i=T\n", b"m 1=1i\\", b"m\\ ", b'# m="', b"# \\",
]
# The first bytes of short texts, which are compared apart from each other.
BYTES = [bytes([byte]) for byte in b'm,= "\\\n1i#\t']

# Two lines, and their items, in the dialects in which a string may hold a newline.
FIRST_LINE = b'm,t\\ 1=v s="x\ny",f=1i 5\n'
BATCH = FIRST_LINE + b"n a=2u\n"
FIRST, LAST = b"line 8:m,t\\ 1=v S1:m,C3:t 1=S1:v S1:s=sS3:x\ny S1:f=i1 at 5", b"line 1:n S1:n S1:a=u2"

# Lines at fault, with a name that is longer than the text of each fault. Of each line just this must be told before its fault.
NAME = b"o" * 96
TOLD = b"S96:" + NAME
FAULTS = {
    b",x": b"", NAME + b"\\\\ f=1i": b"", NAME: TOLD, NAME + b" 5": TOLD, NAME + b", f=1i": TOLD,
    NAME + b",t=x": TOLD + b",S1:t=S1:x",
    NAME + b",t=x,": TOLD + b",S1:t=S1:x",
    NAME + b",t=x,u f=1i": TOLD + b",S1:t=S1:x",
    NAME + b",t=x,u=y\\\\ f=1i": TOLD + b",S1:t=S1:x",
    NAME + b",t=x,f=1i\tg=2i": TOLD + b",S1:t=S1:x,S1:f=S2:1i",
    NAME + b",t=x  f": TOLD + b",S1:t=S1:x",
    NAME + b",t=x f=1i,g": TOLD + b",S1:t=S1:x S1:f=i1",
    NAME + b",t=x f=1i,g=18446744073709551616u": TOLD + b",S1:t=S1:x S1:f=i1",
    NAME + b",t=x f=1i,g=2i,": TOLD + b",S1:t=S1:x S1:f=i1 S1:g=i2",
    NAME + b",t=x f=1i,g=2i 9223372036854775808": TOLD + b",S1:t=S1:x S1:f=i1 S1:g=i2",
    NAME + b",t=x,u=y f=1i,g=2i x": TOLD + b",S1:t=S1:x,S1:u=S1:y S1:f=i1 S1:g=i2",
}
BEFORE, BEFORE_TOLD = b"m,k=v e=1i\n", b"line 5:m,k=v S1:m,S1:k=S1:v S1:e=i1"


def agree(front, most=0):
    """Compares each text of at most so many bytes after a front, and gives how many texts, lines and faults these are."""
    told = (ctypes.c_uint64 * 3)()
    return told[:] if AGREE(front, len(front), most, told) else None


def read_fronts():
    """The first line is read as soon as it is whole, whatever follows it; before that there is one item at most."""
    for length in range(len(BATCH) + 1):
        yield agree(BATCH[:length])
        for dialect in 0, 1:
            items = LIBRARY.reported("items", dialect, BATCH[:length])
            is_read = len(items) <= 1 if length < len(FIRST_LINE) else items[:1] == [FIRST] and len(items) <= 2
            if not is_read or (length == len(BATCH) and items[1:] != [LAST]):
                sys.exit(f"events: in dialect {dialect} the items of {BATCH[:length]!r} are {items}")


def tell_faults():
    """At a fault the sink writes its text over what it was told of the line. So after that text its buffer has the rest of what it was told,
    and then nothing."""
    for line, told in FAULTS.items():
        text = BEFORE + line + b"\n"
        yield agree(text)
        for name in "events", "pulled":
            ctypes.memset(LIBRARY.out, 0, 4096)
            items = LIBRARY.reported(name, 0, text)
            fault, has = items[-1], ctypes.string_at(LIBRARY.out, 4096).rstrip(b"\0")
            wanted = BEFORE_TOLD + fault + told[len(fault):]
            if len(items) != 2 or items[0] != BEFORE_TOLD or len(fault) >= len(TOLD) or has != wanted:
                sys.exit(f"events: of {text!r} there is told {has!r}, and not {wanted!r}")


def main():
    told = [*read_fronts(), *tell_faults(), agree(b"")]
    with ProcessPoolExecutor(mp_context=multiprocessing.get_context("fork")) as pool:
        told += pool.map(agree, BYTES + FRONTS, itertools.repeat(5))
    if None in told:
        sys.exit("events: what should be told, read or cut was not")
    texts, lines, faults = map(sum, zip(*told))
    print(f"events: {texts} texts in each dialect, with {lines} lines and {faults} faults: told, and in blocks, as they are read, and cut as "
          "byte by byte")


main()
