"""What is read and written."""

from __future__ import annotations

import re
import reprlib
import sys
from collections.abc import Mapping as AnyMapping
from dataclasses import dataclass, field
from datetime import datetime, timezone
from enum import IntEnum
from operator import index
from typing import Any, List, Mapping, Optional, Sequence, Tuple, Type, Union

from . import _fast

_LITERAL = re.compile(r"-?[0-9]+(\.[0-9]+)?([eE][+-]?[0-9]+)?")


def short(value: object) -> str:
    """What a value is, in few words, whatever its `repr` does."""
    try:
        return reprlib.repr(value)
    except Exception:  # as that of an integer of more digits than Python shows
        return f"<{type(value).__name__}>"


def as_integer(number: int) -> int:
    """A number that must be an integer, as an `int`. `bool` is none here, though Python counts it among its integers, nor is NumPy's."""
    if isinstance(number, (bool, getattr(sys.modules.get("numpy"), "bool_", bool))):
        raise TypeError("'bool' object cannot be interpreted as an integer")
    return index(number)


Time = Union[int, datetime]
"""A time that is handed in: nanoseconds since 1970, or a `datetime`, which is UTC if it has no zone."""

_START = datetime(1970, 1, 1, tzinfo=timezone.utc)


def nanoseconds_of(time: datetime) -> int:
    """A time in nanoseconds since 1970, exactly. It may be a Timestamp of pandas, which has nanoseconds, but not its NaT."""
    if time != time:
        raise ValueError(f"{time} is no time")
    since = (time.replace(tzinfo=timezone.utc) if time.utcoffset() is None else time) - _START
    seconds = since.days * 86_400 + since.seconds
    return (seconds * 1_000_000 + since.microseconds) * 1_000 + getattr(since, "nanoseconds", 0)


class Unsigned(int):
    """The value of a field that is an unsigned integer: `7u`. A plain `int` is signed: `7i`.

    >>> write(Line("m", [], [("sent", Unsigned(7)), ("lost", 7)]))
    'm sent=7u,lost=7i\\n'
    """

    __slots__ = ()

    def __new__(cls, number: int = 0) -> Unsigned:
        return super().__new__(cls, as_integer(number))


class FloatText(float):
    """A float that is written as `text` spells it. ValueError where that is no literal of a float.

    Reading gives it where the float nearest to the literal is infinite, since a plain float would have lost what was read.

    >>> FloatText("1.50"), FloatText("1.50").text
    (FloatText('1.50'), '1.50')
    >>> write(Line("m", [], [("f", FloatText("1e400"))]))
    'm f=1e400\\n'
    """

    __slots__ = ("text",)
    text: str

    def __new__(cls, text: str) -> FloatText:
        if not isinstance(text, str):
            raise TypeError(f"the literal of a float is a str, not {type(text).__name__}")
        if not _LITERAL.fullmatch(text):
            raise ValueError(f"{short(text)} is no literal of a float")
        number = super().__new__(cls, text)
        number.text = text
        return number

    def __reduce__(self) -> Tuple[Type[FloatText], Tuple[str]]:
        return type(self), (self.text,)

    def __repr__(self) -> str:
        return f"FloatText({self.text!r})"


Value = Union[int, Unsigned, float, str, bool]
"""The value of a field. A `bool` is a boolean, and no integer; a `float` is finite, or a FloatText."""


class FaultKind(IntEnum):
    """What is wrong with a line. The last two are of lines that were not read at all.

    >>> FaultKind.FIELD_SET_MISSING.name
    'FIELD_SET_MISSING'
    """

    DUPLICATE_TAG = 1
    MEASUREMENT_VALUE_INVALID = 2
    FIELD_SET_MISSING = 3
    INTEGER_VALUE_INVALID = 4
    UINTEGER_VALUE_INVALID = 5
    TIMESTAMP_VALUE_INVALID = 6
    ENDS_WITH_BACKSLASH = 7
    CANNOT_PARSE_ENTIRE_LINE = 8
    TAG_SET_MALFORMED = 9
    GENERIC_PARSING_ERROR = 10
    NOT_UTF8 = 101
    TOO_LONG = 102


class Side(IntEnum):
    """On which side of its range a number lies.

    >>> [fault] = parse("m f=9223372036854775808i")
    >>> fault.side.name
    'ABOVE'
    """

    NEITHER = 0
    ABOVE = 1
    BELOW = 2


_MESSAGES = {
    FaultKind.DUPLICATE_TAG: 'Must not contain duplicate tags, but "{}" was repeated',
    FaultKind.MEASUREMENT_VALUE_INVALID: "Invalid measurement was provided",
    FaultKind.FIELD_SET_MISSING: "No fields were provided",
    FaultKind.INTEGER_VALUE_INVALID: "Unable to parse integer value '{}'",
    FaultKind.UINTEGER_VALUE_INVALID: "Unable to parse unsigned integer value '{}'",
    FaultKind.TIMESTAMP_VALUE_INVALID: "Unable to parse timestamp value '{}'",
    FaultKind.ENDS_WITH_BACKSLASH: "Measurements, tag keys and values, and field keys may not end with a backslash",
    FaultKind.CANNOT_PARSE_ENTIRE_LINE: "Could not parse entire line. Found trailing content: '{}'",
    FaultKind.TAG_SET_MALFORMED: "Tag Set Malformed",
    FaultKind.GENERIC_PARSING_ERROR: "A generic parsing error occurred: TakeWhile1",
    FaultKind.NOT_UTF8: "the line is not UTF-8",
    FaultKind.TOO_LONG: "the line is too long",
}
"""The texts of the faults, which docs/FORMAT.md lists."""


_NO_PAIRS: Tuple[()] = ()


def _pairs_of(pairs: Any) -> Any:
    """A list of the pairs of a `dict`, in its order; anything else as it is."""
    if not isinstance(pairs, (list, tuple)) and isinstance(pairs, AnyMapping):
        return list(pairs.items())
    return [] if pairs is _NO_PAIRS else pairs


@dataclass(init=False)
class Line(_fast.LineMembers):
    """A line: its tags and fields are pairs, in the order of the text, and a key may come twice.

    Tags and fields may be handed in as a `dict` too, and the timestamp as a `datetime`, which is UTC if it has no zone: the line has pairs and
    nanoseconds then.

    A line that was read keeps the literals of its floats: `write` spells a float so as long as it stands where it was read.

    It also has its place in the source: `line` and `offset`, where its text begins, as a Fault has them, and `last_line`, the number of the
    line in which it ends. All three are 0 if the line was not read. They do not count where lines are compared.

    >>> Line("cpu", [("host", "a")], [("usage", 64)], 5)
    Line(measurement='cpu', tags=[('host', 'a')], fields=[('usage', 64)], timestamp=5)
    >>> from datetime import datetime, timezone
    >>> Line("cpu", {"host": "a"}, {"usage": 64}, datetime(2026, 1, 1, tzinfo=timezone.utc))
    Line(measurement='cpu', tags=[('host', 'a')], fields=[('usage', 64)], timestamp=1767225600000000000)
    >>> [line] = parse('# a comment\\nm note="two\\nlines"')
    >>> line.line, line.offset, line.last_line
    (2, 12, 3)
    """

    __slots__ = ("__weakref__",)

    measurement: str
    tags: List[Tuple[str, str]] = field(default_factory=list)
    fields: List[Tuple[str, Value]] = field(default_factory=list)
    timestamp: Optional[int] = None

    def __init__(
            self, measurement: str, tags: Union[Sequence[Tuple[str, str]], Mapping[str, str]] = _NO_PAIRS,
            fields: Union[Sequence[Tuple[str, Value]], Mapping[str, Value]] = _NO_PAIRS, timestamp: Optional[Time] = None) -> None:
        self.measurement = measurement
        self.tags = tags if type(tags) is list else _pairs_of(tags)
        self.fields = fields if type(fields) is list else _pairs_of(fields)
        self.timestamp = nanoseconds_of(timestamp) if isinstance(timestamp, datetime) else timestamp

    def __reduce__(self) -> Tuple[Any, ...]:
        members = (self.measurement, self.tags, self.fields, self.timestamp)
        place = self.line, self.offset, self.last_line
        return _restored, (type(self), members, self._spelled, place), vars(self) if hasattr(self, "__dict__") else None


def _restored(
        kind: Any, members: Tuple[str, Any, Any, Optional[int]], spelled: Optional[bytes], place: Tuple[int, int, int] = (0, 0, 0)) -> Line:
    """A line that was pickled or copied."""
    line: Line = kind.__new__(kind)
    line.measurement, line.tags, line.fields, line.timestamp = members
    line._spelled = spelled
    line.line, line.offset, line.last_line = place
    return line


@dataclass
class Fault(_fast.FaultMembers):
    """An item that is no line.

    `text` is the number that is out of its range, or what is left of the line, and `message` says all of it in words. `item` is its
    number among the items, from 1 on. `refused` are the bytes of its piece, of one that is too long the first ones.

    `line` and `offset` are its place in the source: 1 more than there are newlines before it, and how many bytes, as UTF-8. It begins
    after the blanks and comments of its piece; `piece_line` and `piece_offset` are the place of the piece, and `last_line` is the line in
    which that ends. The two places are one if the piece is too long or no UTF-8.

    `stop_line` and `stop_column` are the byte at which reading stopped: its line, and its column in bytes, from 1 on. Of a piece that is no
    UTF-8 that is the first byte that makes it none, and of one that is too long its first byte.

    Two faults are equal if kind, text and side are.

    >>> [line, fault] = parse("m f=1i\\n  m f=9223372036854775808i")
    >>> fault.kind.name, fault.message
    ('INTEGER_VALUE_INVALID', "Unable to parse integer value '9223372036854775808'")
    >>> fault.item, fault.line, fault.offset, fault.piece_offset, fault.refused
    (2, 2, 9, 7, b'  m f=9223372036854775808i')
    >>> fault.stop_line, fault.stop_column, fault.last_line
    (2, 7, 2)
    """

    __slots__ = ("__weakref__",)

    kind: FaultKind
    text: str = ""
    side: Side = Side.NEITHER
    item: int = field(default=0, compare=False)
    line: int = field(default=0, compare=False)
    offset: int = field(default=0, compare=False)
    refused: bytes = field(default=b"", compare=False, repr=False)
    piece_line: int = field(default=0, compare=False)
    piece_offset: int = field(default=0, compare=False)
    stop_line: int = field(default=0, compare=False)
    stop_column: int = field(default=0, compare=False)
    last_line: int = field(default=0, compare=False)

    @property
    def message(self) -> str:
        """What is wrong, as the library's programs say it."""
        return _MESSAGES[self.kind].format(self.text)

    def __reduce__(self) -> Tuple[Any, ...]:
        members = (
            self.kind, self.text, self.side, self.item, self.line, self.offset, self.refused, self.piece_line, self.piece_offset, self.stop_line,
            self.stop_column, self.last_line)
        return type(self), members, vars(self) if hasattr(self, "__dict__") else None


# The defaults of a dataclass are members of its class, which would hide those of the objects.
for _kind, _names in (
        (Line, ("timestamp",)), (Fault, ("text", "side", "item", "line", "offset", "refused", "piece_line", "piece_offset", "stop_line",
                                         "stop_column", "last_line"))):
    for _name in _names:
        delattr(_kind, _name)
