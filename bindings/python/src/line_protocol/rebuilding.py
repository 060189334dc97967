"""A text whose lines are written again."""

from __future__ import annotations

import threading
from dataclasses import dataclass
from typing import AnyStr, Generic, Optional, Tuple

from . import _fast
from .checking import Dialect, as_dialect
from .reading import as_lent

_KEPT = threading.local()
"""For each thread, the memory that its last call wrote to: new memory from the system takes much of the time of a call."""

_MOST_KEPT = 1 << 26
"""Where it is more bytes than this, none is kept."""


@dataclass
class Rebuilt(Generic[AnyStr]):
    """What became of a text: its lines, written again, and a line for each item that was refused; and how many of each.

    >>> rebuild("m  f=1i").carried
    1
    """

    batch: AnyStr
    faults: AnyStr
    carried: int
    refused: int


def rebuild(text: AnyStr, *, strict: Optional[bool] = None, dialect: Optional[Dialect] = None) -> Rebuilt[AnyStr]:
    """Writes again each line of a text whose names are all admitted, and refuses every other item.

    A `str` gives `str`, and bytes give bytes. UnicodeDecodeError where the text is no UTF-8.

    >>> rebuild("m  f=t\\nm f")
    Rebuilt(batch='m f=true\\n', faults='item 2: No fields were provided\\n', carried=1, refused=1)
    """
    number = as_dialect(strict, dialect)
    # They are taken: a call within this one has its own.
    rooms: Tuple[bytearray, bytearray] = vars(_KEPT).pop("rooms", None) or (bytearray(), bytearray())
    rebuilt = _fast.rebuild(as_lent(text), number, *rooms)
    if sum(map(len, rooms)) <= _MOST_KEPT:
        _KEPT.rooms = rooms
    return Rebuilt(*rebuilt)
