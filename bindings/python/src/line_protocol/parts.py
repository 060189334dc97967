"""Files are cut into parts, each of which is read by itself, by any process; what was read of them is joined."""

from __future__ import annotations

import os
from array import array
from dataclasses import replace
from typing import Any, Dict, Iterable, Iterator, List, NamedTuple, Optional, Sequence, Tuple, Union

from . import _fast
from .checking import Dialect, as_dialect
from .items import Fault, Unsigned, as_integer, short
from .reading import reader_of
from .sources import BLOCK
from .tables import _NUMBERS, BOOLEAN, MIXED, TAG, Columns, Told, _numpy_of, _table

MOST_PARTS = 1_000_000
"""The ends of so many parts take 8 MB. `lp_relay --cut` has the same limit."""

_UNSIGNED = 2

FilePath = Union[str, "os.PathLike[str]"]

Extent = Tuple[Optional[str], int, int]
"""Bytes of a file: its path, where they start and where they end. With no path it is a newline between two files."""

_NEWLINE: Extent = (None, 0, 1)

Cells = Tuple[int, Any, Optional[bytearray]]
"""The kind of a column, its numbers or objects, and where it has missing ones."""

Place = Tuple[int, int, int]
"""How many items, newlines and bytes come before a part."""

START: Place = (0, 0, 0)


class PartRead(NamedTuple):
    """What was read of a part: tables, each with how many rows it has; faults, which count from the part's start; and how many newlines
    and bytes the part has."""

    tables: List[Tuple[str, int, List[Told]]]
    faults: List[Fault]
    newlines: int
    size: int


def _as_path(path: Any) -> str:
    """The name of a file."""
    if not isinstance(path, (str, os.PathLike)):
        raise TypeError(f"a path is a str or a path of pathlib, not {type(path).__name__}: {short(path)}")
    return os.fsdecode(path)


def as_paths(paths: Any) -> List[str]:
    """The names of a file, or of those in a list, which do not depend on the folder that a process is in."""
    return [os.path.abspath(_as_path(path)) for path in (paths if isinstance(paths, (list, tuple)) else [paths])]


def as_count(parts: int) -> int:
    """How many parts there are."""
    try:
        number = as_integer(parts)
    except TypeError:
        raise TypeError(f"parts is an int, not {type(parts).__name__}: {short(parts)}") from None
    if not 0 <= number <= MOST_PARTS:
        raise ValueError(f"parts is {short(number)}, and must be from 0 to {MOST_PARTS}")
    return max(number, 1)


def _all_of(paths: Iterable[str]) -> List[Extent]:
    """All of these files, with a newline after each that does not end in one, if another file comes then."""
    extents: List[Extent] = []
    is_in_line = False
    for path in paths:
        if is_in_line:
            extents.append(_NEWLINE)
        with open(path, "rb", buffering=0) as file:
            size = file.seek(0, os.SEEK_END)
            file.seek(max(size - 1, 0))
            is_in_line = file.read(1) not in (b"", b"\n")
        extents.append((path, 0, size))
    return extents


def _bytes_of(path: str, start: int, end: int) -> Iterator[bytes]:
    """The bytes of an extent, in blocks."""
    with open(path, "rb", buffering=0) as file:
        file.seek(start)
        while start < end:
            block = file.read(min(BLOCK, end - start))
            if not block:
                raise EOFError(f"{path} has become shorter: it ends at {start}, and not at {end} or later")
            start += len(block)
            yield block


def blocks_of(extents: Iterable[Extent]) -> Iterator[bytes]:
    """The bytes of extents, one after another, in blocks."""
    for path, start, end in extents:
        if path is None:
            yield b"\n"
        elif start < end:
            yield from _bytes_of(path, start, end)


def _ends_of(extents: Sequence[Extent], count: int, dialect: int) -> List[int]:
    """Where so many parts of extents end, one part at least."""
    return _fast.part_ends(blocks_of(extents), sum(end - start for _, start, end in extents), count, dialect)


def _from_to(extents: Iterable[Extent], first: int, last: int) -> Iterator[Extent]:
    """The bytes of extents from one place to another."""
    at = 0
    for path, start, end in extents:
        low, high = max(first - at, 0), min(last - at, end - start)
        if low < high:
            yield path, start + low, start + high
        at += end - start


def cut(paths: Iterable[str], count: int, dialect: int) -> List[List[Extent]]:
    """So many parts, one at least, of files that are read one after another."""
    extents = _all_of(paths)
    ends = _ends_of(extents, count, dialect)
    return [list(_from_to(extents, first, last)) for first, last in zip([0, *ends], ends)]


def part_ends(source_path: FilePath, parts: int, *, strict: Optional[bool] = None, dialect: Optional[Dialect] = None) -> List[int]:
    """Where a file can be cut into so many parts of about one length: the end of each, in bytes, as `lp_relay --cut` prints it.

    Each part but the last ends after a newline that ends a line, or is empty, and the last ends with the file. So each part can be read
    by itself, by any process: what the parts give is, one after another, what the file gives, but for the numbers in faults. A part is
    empty if a line is longer than a part would be. `parts` of 0 is taken as 1.

    The file is read once, up to the last of these places; it need not be UTF-8. Beside the ends, that takes the memory of a block. It
    raises what `open` raises, and OSError also for what has no end to begin with, as a pipe; EOFError if the file becomes shorter.

    >>> import pathlib, tempfile
    >>> folder = tempfile.TemporaryDirectory()
    >>> path = pathlib.Path(folder.name, "lines.lp")
    >>> path.write_bytes(b'm s="a\\nb"\\nn c=1i')
    16
    >>> part_ends(path, 2)
    [10, 16]
    >>> folder.cleanup()
    """
    path, count, number = _as_path(source_path), as_count(parts), as_dialect(strict, dialect)
    return _ends_of(_all_of([path]), count, number)


def read_part(extents: Sequence[Extent], dialect: int, max_line: Optional[int]) -> PartRead:
    """Reads a part."""
    newlines = size = 0

    def counted() -> Iterator[bytes]:
        nonlocal newlines, size
        for block in blocks_of(extents):
            newlines += block.count(b"\n")
            size += len(block)
            yield block

    tables, faults, _ = _fast.columns(reader_of(counted(), dialect, max_line), False)
    return PartRead([table[:3] for table in tables], faults, newlines, size)


def after(place: Place, read: PartRead) -> Place:
    """The place after a part that was read. An item of it is a row or a fault."""
    items, newlines, size = place
    return items + sum(rows for _, rows, _ in read.tables) + len(read.faults), newlines + read.newlines, size + read.size


def _faults_at(place: Place, faults: List[Fault]) -> List[Fault]:
    """Faults of a part at a place, which count from the start of the whole."""
    items, newlines, size = place
    return [
        replace(
            fault, item=fault.item + items, line=fault.line + newlines, offset=fault.offset + size,
            piece_line=fault.piece_line + newlines, piece_offset=fault.piece_offset + size, stop_line=fault.stop_line + newlines,
            last_line=fault.last_line + newlines)
        for fault in faults]


def _objects_of(kind: int, cells: Any, missing: Optional[bytearray]) -> List[Any]:
    """Cells as objects, None in the place of a missing one."""
    if kind not in _NUMBERS:
        return list(cells)
    numbers: Any = array(_NUMBERS[kind][0])
    numbers.frombytes(cells)
    made = {_UNSIGNED: Unsigned, BOOLEAN: bool}.get(kind)
    objects = numbers if made is None else map(made, numbers)
    return [None if gone else cell for cell, gone in zip(objects, missing or bytes(len(numbers)))]


def _joined_column(key: Optional[str], shares: Sequence[Tuple[int, Optional[Cells]]]) -> Told:
    """A column of the cells that each part has, for so many rows."""
    kinds = {share[0] for _, share in shares if share}
    kind = kinds.pop() if len(kinds) == 1 else MIXED
    joined: Any = bytearray() if kind in _NUMBERS else []
    missing = bytearray()
    for rows, share in shares:
        if share is None:
            joined += bytes(8 * rows) if kind in _NUMBERS else [None] * rows
        else:
            joined += share[1] if kind in _NUMBERS else _objects_of(*share)
        missing += b"\1" * rows if share is None else share[2] or bytes(rows)
    return key, kind, joined, missing if 1 in missing else None


def _joined_table(shares: Sequence[Tuple[int, List[Told]]]) -> List[Told]:
    """A table of the rows that each part has. A tag and a field may have one key."""
    named: List[Tuple[int, Dict[Tuple[Optional[str], bool], Cells]]] = [
        (rows, {(key, kind == TAG): (kind, cells, missing) for key, kind, cells, missing in told}) for rows, told in shares]
    names = dict.fromkeys(name for _, columns in named for name in columns)
    return [_joined_column(name[0], [(rows, columns.get(name)) for rows, columns in named]) for name in names]


def columns_of(reads: Sequence[PartRead], place: Place, use_numpy: Optional[bool]) -> Columns:
    """What was read of parts that come one after another, the first of them at this place, as columns."""
    numpy = _numpy_of(use_numpy)
    shares: Dict[str, List[Tuple[int, List[Told]]]] = {}
    faults: List[Fault] = []
    for read in reads:
        for measurement, rows, told in read.tables:
            shares.setdefault(measurement, []).append((rows, told))
        faults += _faults_at(place, read.faults)
        place = after(place, read)
    return Columns({measurement: _table(_joined_table(tables), None, numpy) for measurement, tables in shares.items()}, faults)
