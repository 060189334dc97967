"""Items are read."""

from __future__ import annotations

import os
import warnings
from functools import partial
from typing import Any, Iterator, Literal, Optional, Protocol, Union, overload

from . import _fast
from .checking import Dialect, as_dialect, as_limit, told
from .items import Fault, Line, short
from .sources import hint_on_bytes, hint_on_text, lends_bytes, parts_of, segments


class Readable(Protocol):
    """A file object, of bytes or of str."""

    def read(self, size: int, /) -> Any:
        """At most so many bytes or characters; none at the end."""


_LONGEST_MESSAGE = 200

Source = Union[str, bytes, bytearray, memoryview, "os.PathLike[str]", Readable, Iterator[Union[bytes, str]]]
"""What is read: a text, or bytes, also others that lend their bytes; a path; a file object; or an iterator of parts."""


class Unreadable(ValueError):
    """A line cannot be read, of a call of `parse` with `errors="raise"`. `fault` is its Fault.

    >>> try:
    ...     list(parse("m f=1i\\nm f=\\n", errors="raise"))
    ... except Unreadable as raised:
    ...     print(raised)
    ...     print(raised.fault.kind.name)
    line 2: No fields were provided: b'm f='
    FIELD_SET_MISSING
    """

    fault: Fault


Errors = Literal["fault", "raise"]
"""What comes of a line that cannot be read: a Fault in its place, or Unreadable is raised."""


@overload
def parse(
        source: Source, *, strict: Optional[bool] = None, dialect: Optional[Dialect] = None,
        max_line: Optional[int] = None, errors: Literal["fault"] = "fault") -> Iterator[Union[Line, Fault]]: ...


@overload
def parse(
        source: Source, *, strict: Optional[bool] = None, dialect: Optional[Dialect] = None,
        max_line: Optional[int] = None, errors: Literal["raise"]) -> Iterator[Line]: ...


def parse(
        source: Source, *, strict: Optional[bool] = None, dialect: Optional[Dialect] = None,
        max_line: Optional[int] = None, errors: Errors = "fault") -> Union[Iterator[Union[Line, Fault]], Iterator[Line]]:
    """Each line of a source, or the fault in its place, by the rules of a dialect: of the Rust crate, if none is given.

    With `errors="raise"` a line that cannot be read raises Unreadable once it comes; the next item is that of the line after it.

    A text in memory is tested as a whole: UnicodeDecodeError where it is no UTF-8, and then nothing is read. A path, which is an
    object of `pathlib`, a file object, also of `gzip`, and an iterator of parts, bytes or str, are read in blocks: a line that is no
    UTF-8 is one Fault. `max_line` is how many bytes a line may have; a longer one is one Fault, and is not kept.

    >>> for item in parse("cpu,host=a usage=64i 5\\ncpu\\n"):
    ...     if isinstance(item, Line):
    ...         print(item.measurement, item.tags, item.fields, item.timestamp)
    ...     else:
    ...         print(f"line {item.line}: {item.message}")
    cpu [('host', 'a')] [('usage', 64)] 5
    line 2: A generic parsing error occurred: TakeWhile1
    >>> list(parse(iter([b"m f=", b"1.5 7"])))
    [Line(measurement='m', tags=[], fields=[('f', 1.5)], timestamp=7)]
    """
    number = as_dialect(strict, dialect)
    if not isinstance(errors, str):
        raise TypeError(f"errors is a str, not {told(errors)}")
    if errors not in ("fault", "raise"):
        raise ValueError(f"errors is 'fault' or 'raise', not {short(errors)}")
    reader, hint = reader_of(source, number, max_line), hint_on_text(source)
    if errors == "raise":
        return map(partial(_line_of, hint), reader)
    if hint:
        warnings.warn(hint, stacklevel=2)
    return reader


def _line_of(hint: Optional[str], item: Union[Line, Fault]) -> Line:
    """An item that is a line. Else Unreadable is raised, with what was perhaps meant."""
    if isinstance(item, Line):
        return item
    hint = hint or (hint_on_bytes(item.refused) if item.offset == 0 else None)
    message = item.message if len(item.message) <= _LONGEST_MESSAGE else f"{item.message[:_LONGEST_MESSAGE]}..."
    raised = Unreadable(f"line {item.line}: {message}: {short(item.refused)}" + (f"; {hint}" if hint else ""))
    raised.fault = item
    raise raised


def reader_of(source: Source, dialect: int, max_line: Optional[int]) -> _fast.Reader:
    """What is left of a source at its start."""
    limit = as_limit(max_line)
    if isinstance(source, str) or lends_bytes(source):
        try:
            whole = _fast.read(source, None, dialect, limit is not None)
        except UnicodeDecodeError as refused:
            hint = hint_on_bytes(refused.object)
            refused.reason += f"; {hint}" if hint else ""
            raise
        return whole if limit is None else _fast.read(b"", segments(_only(source), dialect, limit), dialect, False)
    return _fast.read(b"", segments(parts_of(source), dialect, limit), dialect, False)


def _only(source: Any) -> Iterator[bytes]:
    """The only part of a text."""
    return iter([source.encode() if isinstance(source, str) else bytes(memoryview(source))])


def split(
        text: Union[str, bytes, bytearray, memoryview], *, strict: Optional[bool] = None,
        dialect: Optional[Dialect] = None) -> Iterator[str]:
    """Each piece of a text as the splitter cuts it, not parsed.

    >>> list(split('m s="a\\nb"\\nn c=1i'))
    ['m s="a\\nb"', 'n c=1i']
    """
    return _fast.read(as_lent(text), None, as_dialect(strict, dialect), True)


def as_lent(text: Any) -> Any:
    """A text in memory, or TypeError."""
    if isinstance(text, str) or lends_bytes(text):
        return text
    raise TypeError(f"a text is a str or bytes, not {type(text).__name__}: {short(text)}")
