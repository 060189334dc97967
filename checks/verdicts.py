#!/usr/bin/env python3
"""Prints the verdict of lp_offsets_verdicts on each text of standard input, a line of hexadecimal digits, by default limits: the bits of the clauses
that it breaks. A newline at the end of a text is left out. The verdict must say "no line" exactly if the strict reader does not take the text
and a newline for just one line, and must be the same as the line is read. Status 1: it is not.

    checks/verdicts.py LIBRARY

LIBRARY: crates/lp_c as a shared library; checks/portable.sh makes it.
"""

import ctypes
import re
import struct
import sys
from pathlib import Path

HEADER = (Path(__file__).resolve().parent.parent / "include/influxdb_line_protocol.h").read_text(encoding="utf-8")
LINE, WRITTEN, STRICT = (int(re.search(rf"\b{name} = (\d+)", HEADER)[1]) for name in ("LP_LINE", "LP_WRITTEN", "LP_STRICT"))
NOT_A_LINE = 1 << int(re.search(r"LP_CLAUSE_NOT_A_LINE +\(UINT64_C\(1\) << (\d+)\)", HEADER)[1])
# An lp_offset_row, an lp_block, an lp_limits, and how long an lp_offset_part is.
ROW, BLOCK, LIMITS, PART = struct.Struct("=4Q4I9I2H"), struct.Struct("=Q4I"), struct.Struct("=QQqq"), 32
VERDICT, PIECE_AT, PIECE_LEN, ANSWER = 3, 4, 5, 14

LIBRARY = ctypes.CDLL(sys.argv[1])
Size, Room = ctypes.c_size_t, ctypes.c_void_p
LIBRARY.lp_offsets_verdicts.argtypes = [Room, Size, Room, Size, Room, Room]
LIBRARY.lp_offsets_block_verdicts.argtypes = [Room, Size, ctypes.c_uint32, ctypes.c_bool, Room, Room, Size, Room, Size, Room, Size, Room, Room]
LIMITS_BY_DEFAULT = ctypes.create_string_buffer(LIMITS.size)
LIBRARY.lp_limits_default(LIMITS_BY_DEFAULT)


class Wrong(Exception):
    """What is wrong with a verdict, in words."""


def verdict_on(text):
    """The verdict on a text, of a row that has all of it for the piece of a line."""
    made = [0xA5] * 19
    made[PIECE_AT], made[PIECE_LEN], made[ANSWER] = 0, len(text), LINE
    row, told = ctypes.create_string_buffer(ROW.pack(*made), ROW.size), Size()
    if LIBRARY.lp_offsets_verdicts(text, len(text), row, 1, LIMITS_BY_DEFAULT, ctypes.byref(told)) != WRITTEN or told.value != 1:
        raise Wrong("no verdict is told")
    return ROW.unpack(row.raw)[VERDICT]


def verdict_as_read(text):
    """The verdict that is told as a text and a newline are read, or `None` if the strict reader does not take them for just one line."""
    most, told = len(text) // 4 + 2, Size()
    parts, room, rows = (ctypes.create_string_buffer(size) for size in (most * PART, len(text) + 1, 2 * ROW.size))
    block = ctypes.create_string_buffer(BLOCK.pack(1, 0, 0, 0, 0), BLOCK.size)
    LIBRARY.lp_offsets_block_verdicts(
        text + b"\n", len(text) + 1, STRICT, True, block, room, len(text), rows, 2, parts, most, LIMITS_BY_DEFAULT, ctypes.byref(told))
    _, at, filled, *_ = BLOCK.unpack(block.raw)
    row = ROW.unpack_from(rows)
    if (filled, at, row[ANSWER], row[PIECE_AT], row[PIECE_LEN]) != (1, len(text) + 1, LINE, 0, len(text)):
        return None
    return row[VERDICT] if told.value == 1 else -1


def main():
    for number, line in enumerate(sys.stdin, 1):
        text = bytes.fromhex(line).removesuffix(b"\n")
        try:
            verdict, read = verdict_on(text), verdict_as_read(text)
            if read != (None if verdict & NOT_A_LINE else verdict):
                raise Wrong(f"the verdict is {verdict}, and {read} as it is read")
        except Wrong as wrong:
            sys.exit(f"portable: of text {number}: {wrong}")
        print(verdict)


main()
