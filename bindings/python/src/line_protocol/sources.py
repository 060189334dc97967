"""Sources are cut into segments of whole lines."""

from __future__ import annotations

import os
import sys
from typing import IO, Any, Callable, Iterator, List, Optional, Tuple, Union

from . import _fast
from .items import FaultKind, short

BLOCK = 1 << 17
"""A file is read in blocks of at most so many bytes, which a processor keeps at hand."""

_PATIENCE = 1 << 16
"""Where more bytes than this end no line, they are not looked through again before they are twice as many."""

_REFUSED = (type(iter("")), type(iter("é")))
"""Iterators of single characters: a `str` was meant."""

_BEGUN = (0, 0, 0, 0, 0, False)
"""The state of a line of which nothing was skipped yet."""

_OF_GZIP = b"\x1f\x8b"
"""What a file of gzip begins with. No UTF-8 does."""

_LONGEST_PATH = 4096

Refused = Tuple[FaultKind, bytes, int, int, bool]
"""A line that is refused before it is read: why, its first bytes, how many newlines and bytes it takes, and whether the last byte ends it."""


def hint_on_text(text: Any) -> Optional[str]:
    """What was meant by a text that can be no line, if it is the name of a file."""
    if not isinstance(text, str) or len(text) > _LONGEST_PATH or "=" in text or "\n" in text or not os.path.isfile(text):
        return None
    return f"a str is a text, and there is a file of that name: pathlib.Path({short(text)}) is read as a path"


def hint_on_bytes(start: bytes) -> Optional[str]:
    """What to do with bytes that begin so, if they are none of lines."""
    if not start.startswith(_OF_GZIP):
        return None
    return "it begins as what gzip made: gzip.open reads such a file, and gzip.decompress such bytes"


def lends_bytes(source: Any) -> bool:
    """Whether a source lends its bytes, as `bytes` and `bytearray` do."""
    try:
        memoryview(source).release()
    except TypeError:
        return False
    return True


def _as_bytes(part: Any) -> bytes:
    """A part of a source."""
    if isinstance(part, bytes):
        return part
    if isinstance(part, str):
        return part.encode()
    if part is None:
        raise BlockingIOError("the file does not block, and has no bytes yet")
    if not lends_bytes(part):
        raise TypeError(f"a part of a source is a str or bytes, not {type(part).__name__}: {short(part)}")
    return bytes(memoryview(part))


def _read(read: Callable[[int], Any], file: Optional[IO[bytes]] = None) -> Iterator[bytes]:
    """First an empty part, and then what a file gives; a file that is handed in is closed at the end."""
    try:
        yield b""
        while True:
            part = _as_bytes(read(BLOCK))
            if not part:
                return
            yield part
    finally:
        if file is not None:
            file.close()


def parts_of(source: Any) -> Iterator[bytes]:
    """The parts of a source that is no text: a path, a file object, or an iterator of parts."""
    if isinstance(source, os.PathLike):
        file = open(source, "rb", buffering=0)
        parts = _read(file.read, file)
        next(parts)  # from now on it closes the file, also if no part of it is wanted
        return parts
    if hasattr(source, "read"):
        return _read(getattr(source, "read1", source.read))
    if hasattr(source, "__next__") and not isinstance(source, _REFUSED):
        return map(_as_bytes, source)
    raise TypeError(
        "a source is a str, bytes, a path of pathlib, a file object or an iterator of parts, "
        f"not {type(source).__name__}: {short(source)}")


def _told(segment: bytes, long_ones: List[Tuple[int, int]], limit: int) -> Iterator[Union[bytes, Refused]]:
    """A segment in runs of lines that can be read, and each line that is too long."""
    at = 0
    for start, end in long_ones:
        if start > at:
            yield segment[at:start]
        at = min(end + 1, len(segment))
        yield FaultKind.TOO_LONG, segment[start : start + limit], segment.count(b"\n", start, at), at - start, at > end
    if at < len(segment):
        yield segment[at:]


def _skipped(data: bytes, parts: Iterator[bytes], dialect: int, limit: int) -> Tuple[Refused, bytes]:
    """A line that is too long, of which the first bytes are given, and what comes after it."""
    shown, newlines, size, state = data[:limit], 0, 0, _BEGUN
    while True:
        end, state = _fast.skip(data, state, dialect)
        taken = end + 1 if end >= 0 else len(data)
        newlines += data.count(b"\n", 0, taken)
        size += taken
        more = next(parts, None) if end < 0 else None
        if more is None:
            return (FaultKind.TOO_LONG, shown, newlines, size, end >= 0), data[taken:]
        data = more


def segments(parts: Iterator[bytes], dialect: int, most: Optional[int]) -> Iterator[Union[bytes, Refused]]:
    """Segments of whole lines, and each line that is longer than the limit."""
    held, looked_at, limit = bytearray(), 0, sys.maxsize if most is None else most
    for part in parts:
        held += part
        if len(held) <= limit and (b"\n" not in part or looked_at > _PATIENCE and len(held) < 2 * looked_at):
            continue
        while True:
            with memoryview(held) as view:
                block = bytes(view[: held.rfind(b"\n") + 1])
            whole, long_ones = _fast.cut(block, dialect, limit)
            yield from _told(block[:whole], long_ones, limit)
            del held[:whole]
            if len(held) <= limit:
                break
            refused, rest = _skipped(bytes(held), parts, dialect, limit)
            yield refused
            held = bytearray(rest)
        looked_at = len(held)
    if held:
        block = bytes(held)
        whole, long_ones = _fast.cut(block, dialect, limit)
        yield from _told(block, long_ones + ([(whole, len(block))] if len(block) - whole > limit else []), limit)
