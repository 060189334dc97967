"""Lines are written, shown and tested."""

from __future__ import annotations

from typing import Iterable, Iterator, List, Optional

from . import _fast
from .checking import Dialect, NotAdmitted, as_dialect, as_name, as_string, as_text, plain_timestamp, plain_value, refuse
from .items import Line, Time, Value


class DuplicateTag(ValueError):
    """A key of the tags is repeated: the series has no base.

    >>> base(Line("m", [("a", "1"), ("a", "2")]))
    Traceback (most recent call last):
    line_protocol.writing.DuplicateTag: a
    """


def write(line: Line, *, strict: Optional[bool] = None, dialect: Optional[Dialect] = None) -> str:
    """A line as the builder writes it, with its newline. By the rules of its dialect it reads back as this line alone, whatever text
    comes after it.

    NotAdmitted if it would not. What else cannot be written raises here as in the other calls that take a line: ValueError
    if there is no field, or if a float is not finite and no FloatText; OverflowError if a number is out of its range; TypeError if the
    type is wrong.

    A float of a line that was read is spelled as it was read. Scalars of NumPy are written as what they are.

    >>> write(Line("disk usage", [("host", "a")], [("free", 42.5)], 5))
    'disk\\\\ usage,host=a free=42.5 5\\n'
    >>> [line] = parse("m f=1.50")
    >>> write(line)
    'm f=1.50\\n'
    """
    return _fast.write(line, as_dialect(strict, dialect))


def write_many(lines: Iterable[Line], *, strict: Optional[bool] = None, dialect: Optional[Dialect] = None) -> str:
    """Lines one after another, as `write` writes each. What is raised for a line says which it is, from 1 on; then none is written.

    >>> write_many(Line("m", [], [("f", number)], number) for number in range(3))
    'm f=0i 0\\nm f=1i 1\\nm f=2i 2\\n'
    >>> write_many([Line("m", [], [("f", 1)]), Line("m")])
    Traceback (most recent call last):
    ValueError: line 2: the line of the measurement 'm' has no field
    """
    number = as_dialect(strict, dialect)
    try:
        counted = _Counted(iter(lines))
    except TypeError:
        raise TypeError(f"lines are an iterable of Line, not {type(lines).__name__}") from None
    try:
        return _fast.write_many(counted, number)
    except (TypeError, ValueError, OverflowError) as refused:
        if counted.is_out and len(refused.args) == 1:
            refused.args = (f"line {counted.number}: {refused}",)
            if isinstance(refused, NotAdmitted):
                refused.row = counted.number - 1
        raise


class _Counted:
    """Lines, and how many were handed out."""

    def __init__(self, lines: Iterator[Line]) -> None:
        self.lines, self.number, self.is_out = lines, 0, False

    def __iter__(self) -> Iterator[Line]:
        return self

    def __next__(self) -> Line:
        self.is_out = False
        line = next(self.lines)
        self.number += 1
        self.is_out = True
        return line


def show(line: Line) -> str:
    """A line as it is shown: strings have no quotes, and there is no newline at its end. It need not read back.

    >>> show(Line("m", [("a", "b")], [("s", "x y")], 5))
    'm,a=b s=x y 5'
    """
    return _fast.show(line)


def base(line: Line) -> str:
    """The base of the series of a line: its measurement and its tags, in the order of their keys. Fields and timestamp are not
    looked at. DuplicateTag where a key of the tags is repeated.

    A base tells its series from others where `is_base_safe` holds for both: `m,a=1\\,b\\=2` and `m,a=1,b=2` are two series with
    one base. `m,\\,=v` and `m,,=v` are one series, and with one base here, but with two where the library reads the lines.

    >>> base(Line("m", [("z", "1"), ("a", "2")]))
    'm,a=2,z=1'
    """
    return _fast.base(line)


def key(line: Line) -> str:
    """The key of the series of a line: a text that the series has alone, whatever its names hold. Fields and timestamp are not looked
    at.

    It is the measurement and the tags as `write` writes them, in the order of the tag keys, by the bytes of UTF-8. Tags of equal keys
    stay in their order. Two lines have the same key exactly where they have the same measurement and, for each tag key, the same values
    in the same order. Names that are not admitted have a key too.

    >>> key(Line("m", [("z", "1"), ("a", "2")]))
    'm,a=2,z=1'
    >>> key(Line("m", [("a", "1,b=2")])) == key(Line("m", [("a", "1"), ("b", "2")]))
    False
    """
    return _fast.key(line)


def is_base_safe(line: Line) -> bool:
    """Whether the base of a line is safe to group by: no measurement and no tag value holds a comma, no tag key an `=`, and no
    name is a comma, a space or, in a tag, an `=` alone. Fields and timestamp are not looked at.

    Where two lines are safe and have bases, their bases are the same exactly where measurement and tags are.

    >>> is_base_safe(Line("m", [("a", "1,2")]))
    False
    """
    return _fast.is_base_safe(line)


def is_admitted(line: Line, *, strict: Optional[bool] = None, dialect: Optional[Dialect] = None) -> bool:
    """Whether a line reads back once it is written in a dialect, as `NotAdmitted` says; `write` raises that if it does not.

    >>> is_admitted(Line("", [], [("f", 1)]))
    False
    """
    return _fast.is_admitted(line, as_dialect(strict, dialect))


class Builder:
    """Builds lines: each begins with a measurement, and has tags, then fields, then perhaps a timestamp.

    >>> Builder().measurement("cpu").tag("host", "a").field("usage", 64).timestamp(5).close_line().build()
    'cpu,host=a usage=64i 5\\n'

    A call that raises changes nothing: the line goes on as if it had not been made. The calls test what they are given as
    `write` does, in its dialect: that which is given a name that is not admitted raises NotAdmitted. A line that cannot be finished is
    left out by `drop_line`.
    """

    def __init__(self, *, strict: Optional[bool] = None, dialect: Optional[Dialect] = None) -> None:
        self._written: List[str] = []
        self._line: Optional[Line] = None
        self._dialect = as_dialect(strict, dialect)

    def _open(self) -> Line:
        if self._line is None:
            raise ValueError("a line begins with its measurement")
        return self._line

    def measurement(self, name: str) -> Builder:
        """Begins a line."""
        if self._line is not None:
            raise ValueError("the line before is not closed")
        self._line = Line(as_name("measurement", name))
        return self

    def tag(self, key: str, value: str) -> Builder:
        """Appends a tag, which comes before the fields."""
        line = self._open()
        if line.fields:
            raise ValueError("a tag comes before the fields")
        line.tags.append((as_name("tag key", key), as_name("tag value", value, key)))
        return self

    def field(self, key: str, value: Value) -> Builder:
        """Appends a field."""
        line = self._open()
        if line.timestamp is not None:
            raise ValueError("a field comes before the timestamp")
        as_name("field key", key)
        plain = plain_value(key, value)
        if isinstance(plain, str):
            as_string(key, as_text("the field", plain, key), self._dialect)
        line.fields.append((key, plain))
        return self

    def timestamp(self, timestamp: Time) -> Builder:
        """Sets the timestamp, after the fields: nanoseconds, or a `datetime`, which is UTC if it has no zone."""
        line = self._open()
        if not line.fields or line.timestamp is not None:
            raise ValueError("one timestamp comes after the fields")
        line.timestamp = plain_timestamp(timestamp)
        return self

    def close_line(self) -> Builder:
        """Ends a line, which has at least one field."""
        line = self._open()
        if not line.fields:
            refuse("no field", None, line.measurement)
        self._written.append(_fast.write(line, self._dialect))
        self._line = None
        return self

    def drop_line(self) -> Builder:
        """Leaves out the line that is not closed, where there is one."""
        self._line = None
        return self

    def build(self) -> str:
        """The lines. ValueError where the last one is not closed."""
        if self._line is not None:
            raise ValueError("the last line is not closed: close_line ends it, and drop_line leaves it out")
        return "".join(self._written)
