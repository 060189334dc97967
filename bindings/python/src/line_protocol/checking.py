"""What is handed in: it is made a plain value of the kind that it is, or it is refused."""

from __future__ import annotations

import sys
from datetime import datetime
from math import isfinite
from typing import Any, List, Literal, NoReturn, Optional

from .items import FloatText, Unsigned, Value, as_integer, nanoseconds_of, short


class NotAdmitted(ValueError):
    """A name cannot be written, since what would be written for it does not read back as that name.

    A name is a measurement, a key or the value of a tag. It is not admitted if it is empty, holds a newline or a tab, or ends in a
    backslash; a measurement also if it holds a NUL or begins with `#`. The value of a field may be any text, but in the dialect
    "newline-delimited" it may hold no newline.

    `part` is "measurement", "tag key", "tag value", "field key" or "field value", and `value` the text; `key` is the key of the tag, or
    of the field, if it is the value of one. `row` is the place of its line among many, or of its row in a frame or a table, from 0 on, and `table` the measurement of
    that table; of what was written alone they are None.

    >>> write(Line("login", [("user", "guest\\npayments")], [("ok", True)]))
    Traceback (most recent call last):
    line_protocol.checking.NotAdmitted: the value of the tag 'user' is not admitted: 'guest\\npayments' holds a newline
    >>> try:
    ...     write_many([Line("m", [("a", "b")], [("f", 1)]), Line("m", [("a", "")], [("f", 2)])])
    ... except NotAdmitted as refused:
    ...     print(refused.part, refused.key, repr(refused.value), refused.row)
    tag value a '' 1
    """

    part: str = ""
    key: Optional[str] = None
    value: str = ""
    row: Optional[int] = None
    table: Optional[str] = None


_PARTS = {
    "measurement": "the measurement", "tag key": "the key of a tag", "tag value": "the value of the tag", "field key": "the key of a field",
    "field value": "the value of the field"}
"""What each part of a line is called in messages."""


def told(value: object) -> str:
    """The type of a value, and what it is."""
    return f"{type(value).__name__}: {short(value)}"


def within(number: int, least: int, end: int, what: str) -> int:
    """A number that must lie in a range."""
    if not least <= number < end:
        shown = str(number) if number.bit_length() < 1000 else f"an integer of {number.bit_length()} bits"
        raise OverflowError(f"{what}: {shown} is not at least {least} and less than {end}")
    return number


def plain_timestamp(timestamp: Any) -> int:
    """A timestamp as an `int`."""
    return as_time("the timestamp", "a timestamp", timestamp)


def as_time(what: str, kind: str, time: Any) -> int:
    """A time as nanoseconds of 64 bits; messages call it `what`, and what it should be `kind`."""
    try:
        number = nanoseconds_of(time) if isinstance(time, datetime) else as_integer(time)
    except TypeError:
        raise TypeError(f"{kind} is an int or a datetime, not {told(time)}") from None
    return within(number, -(2**63), 2**63, what)


def _of_numpy(value: Any) -> Any:
    """A scalar of NumPy as Python's own, and a signed integer for a signed one, an Unsigned for an unsigned one."""
    numpy: Any = sys.modules.get("numpy")
    if numpy is None or not isinstance(value, numpy.generic):
        return value
    if isinstance(value, numpy.bool_):
        return bool(value)
    if isinstance(value, numpy.unsignedinteger):
        return Unsigned(int(value))
    if isinstance(value, numpy.signedinteger) and not isinstance(value, numpy.timedelta64):
        return int(value)
    if isinstance(value, (numpy.float16, numpy.float32)):
        return float(value)
    return value


def plain_value(key: str, value: Any) -> Value:
    """The value of a field as a `bool`, an `int`, an `Unsigned`, a `FloatText`, a `float` or a `str`, and none of their subclasses."""
    value = _of_numpy(value)
    if isinstance(value, bool):
        return value
    if isinstance(value, Unsigned):
        return int.__new__(Unsigned, within(int.__index__(value), 0, 2**64, f"the field {short(key)}"))
    if isinstance(value, int):
        return within(int.__index__(value), -(2**63), 2**63, f"the field {short(key)}")
    if isinstance(value, FloatText):
        return FloatText(value.text)
    if isinstance(value, float):
        if not isfinite(value):
            raise ValueError(f"the field {short(key)}: {value} has no literal")
        return float.__float__(value)
    if isinstance(value, str):
        return str.__str__(value)
    raise TypeError(
        f"the field {short(key)}: a value is an int, an Unsigned, a float, a str or a bool, not {told(value)}")


Dialect = Literal["crate", "strict", "newline-delimited"]
"""By whose rules a text is read, and a line reads back: those of the Rust crate; the strict ones; or the strict ones with every newline
the end of a line, whatever is open."""

NEWLINE_DELIMITED = 2
_DIALECTS = {"crate": 0, "strict": 1, "newline-delimited": NEWLINE_DELIMITED}
"""The number of each dialect."""


def as_dialect(strict: Optional[bool], dialect: Optional[str]) -> int:
    """The number of a dialect, which is that of the Rust crate if nothing else is asked for."""
    if dialect is None:
        return int(bool(strict))
    if strict is not None:
        raise TypeError("strict and dialect are not both given: dialect says all that strict says")
    if not isinstance(dialect, str):
        raise TypeError(f"a dialect is a str, not {told(dialect)}")
    if dialect not in _DIALECTS:
        raise ValueError(f"a dialect is one of {', '.join(map(repr, _DIALECTS))}, not {short(dialect)}")
    return _DIALECTS[dialect]


def refuse(what: str, key: Any, value: Any) -> NoReturn:
    """Raises for what is no text, no pair, no line, or a line without a field."""
    if what == "no field":
        raise ValueError(f"the line of the measurement {short(value)} has no field")
    if what == "a line":
        raise TypeError(f"a line is a Line, not {told(value)}")
    if what in ("tags", "fields"):
        raise TypeError(
            f"each of the {what} is a pair, not {told(value)}" if key else f"the {what} are a list of pairs or a dict, not {told(value)}")
    raise TypeError(f"{what if key is None else f'{what} {short(key)}'} is a str, not {told(value)}")


def as_text(what: str, text: Any, key: Optional[str] = None) -> str:
    """A text, which must be a str of characters that UTF-8 has."""
    if not isinstance(text, str):
        refuse(what, key, text)
    text.encode()
    return text


def _flaw(part: str, name: str) -> Optional[str]:
    """Why a name is not admitted, or None if it is: docs/FORMAT.md, section 13."""
    if not name:
        return "is empty"
    if "\n" in name:
        return "holds a newline"
    if "\t" in name:
        return "holds a tab"
    if part == "measurement" and "\0" in name:
        return "holds a NUL"
    if part == "measurement" and name[0] == "#":
        return "begins with '#'"
    return "ends in a backslash" if name[-1] == "\\" else None


def as_name(part: str, name: Any, key: Optional[str] = None) -> str:
    """A name that is admitted; `key` is that of the tag, of a value."""
    text = as_text(_PARTS[part], name, key)
    flaw = _flaw(part, text)
    if flaw is not None:
        raise _not_admitted(part, key, text, flaw)
    return text


def as_string(key: str, text: str, dialect: int) -> str:
    """The text of a field, which is admitted in a dialect."""
    if dialect == NEWLINE_DELIMITED and "\n" in text:
        raise _not_admitted("field value", key, text, "holds a newline")
    return text


def _not_admitted(part: str, key: Optional[str], name: str, flaw: str) -> NotAdmitted:
    """What is raised for a name. No frame of its traceback holds it, so that it is let go at once."""
    what = _PARTS[part] if key is None else f"{_PARTS[part]} {short(key)}"
    refused = NotAdmitted(f"{what} is not admitted: {short(name)} {flaw}")
    refused.part, refused.key, refused.value = part, key, name
    return refused


def refuse_texts(texts: List[str], tags: int, dialect: int) -> NoReturn:
    """Raises for the first text of a line that is not admitted in a dialect. The texts are its measurement, the key and the value of so
    many tags, and the key and the value of each field, which is empty if it is no string."""
    as_name("measurement", texts[0])
    for at in range(1, len(texts), 2):
        key, value = texts[at : at + 2]
        if at <= 2 * tags:
            as_name("tag value", value, as_name("tag key", key))
        else:
            as_string(as_name("field key", key), value, dialect)
    raise NotAdmitted("the line is not admitted")


def as_limit(max_line: Optional[int]) -> Optional[int]:
    """The greatest length of a line, or None."""
    if max_line is None:
        return None
    try:
        number = as_integer(max_line)
    except TypeError:
        raise TypeError(f"max_line is an int or None, not {told(max_line)}") from None
    if number < 0:
        raise ValueError(f"max_line is {number}, and must not be less than 0")
    return min(number, sys.maxsize)
