"""Which lines InfluxDB 1.x and VictoriaMetrics read as the strict reader does."""

from __future__ import annotations

import sys
from dataclasses import dataclass
from typing import Any, AnyStr, Dict, List, Literal, Optional, Tuple, Union

from . import _fast
from .checking import Dialect, as_dialect, as_time, told
from .items import Time, as_integer, short
from .reading import as_lent

CLAUSES: Dict[str, str] = {
    "leading_blank": "a space or a tab comes before the line",
    "trailing_space": "a space ends the line",
    "newline": "the line holds a newline: in a string, or escaped",
    "measurement_equals": "an equals sign is escaped in the measurement",
    "measurement_escape": "a backslash or a quote is escaped in the measurement",
    "tag_escape": "a backslash is escaped in a tag key or a tag value",
    "tag_key_comma": "a comma is bare in a tag key",
    "tag_value_equals": "an equals sign is bare in a tag value",
    "repeated_tag": "two tags have one key",
    "field_key_escape": "a backslash or a quote is escaped in a field key",
    "field_key_comma": "a comma is bare in a field key",
    "field_key_quote": "a field key holds a quote",
    "long_series": "the series, four bytes and a field key are longer than 65,535 bytes",
    "unsigned": "a value is an unsigned integer",
    "infinite_float": "a float is too large for a finite number",
    "rounded_float": "a float has an exponent, or takes over 310 bytes",
    "leading_nul": "the first field key begins with a byte 0",
    "time_out_of_range": "the timestamp is the greatest of 64 bits, or one of the two least",
    "tag_count": "the tags are 100, 200, 400, 800 and so on",
    "time_name": "a tag key or a field key is `time`",
    "system_name": "the measurement or a field key is a name of the server's own",
    "repeated_field": "two fields have one key",
    "key_separator": "the series holds `#!~`",
    "control_byte": "the measurement or a field key holds a byte 0 or a carriage return",
    "name_label": "a tag key is `__name__`",
    "long_tag_key": "a tag key is longer than 256 bytes",
    "long_tag_value": "a tag value is longer than 16,384 bytes",
    "long_metric_name": "the measurement, a byte and a field key are longer than 16,384 bytes",
    "long_labels": "the series, a byte and a field key are longer than 32,000 bytes",
    "too_many_tags": "there are more tags than the limit",
    "long_line": "the line is longer than the limit",
    "time_not_kept": "the timestamp is before or after what is kept",
}
"""The name of each clause, which is broken if what it says here holds of the line. They stand in the order of their bits, from 1 on."""

Servers = Literal["influx1", "victoria", "all"]
"""The servers to which a line is portable or not: InfluxDB 1.x, VictoriaMetrics, or both."""

_OF_INFLUX1 = 0x1feeff1
_OF_VICTORIA = 0x1fe411a9f
_MASKS = {"influx1": _OF_INFLUX1, "victoria": _OF_VICTORIA, "all": _OF_INFLUX1 | _OF_VICTORIA}
"""The bits of the clauses that concern each of these servers, with that of no line."""

_NOT_A_LINE = 1

_NUMBERS = _LINE, _TAGS, _EARLIEST, _LATEST = _fast.limits()
"""The limits of servers whose options are as they come."""


@dataclass(frozen=True)
class Limits:
    """What the options of a server change: how many bytes and how many tags a line may have, and which timestamps are kept, from
    the earliest to the latest: nanoseconds, or a `datetime`, which is UTC if it has no zone.

    >>> Limits(tags=40)
    Limits(line=262144, tags=40, earliest=1000000, latest=9223372036854775807)
    """

    line: int = _LINE
    tags: int = _TAGS
    earliest: Time = _EARLIEST
    latest: Time = _LATEST


_DEFAULT = Limits()


def _as_limit(what: str, number: Any) -> int:
    """A limit of a count, or of time."""
    if what in ("earliest", "latest"):
        return as_time(f"{what} of Limits", f"{what} of Limits", number)
    try:
        limit = as_integer(number)
    except TypeError:
        raise TypeError(f"{what} of Limits is an int, not {told(number)}") from None
    if limit < 0:
        raise ValueError(f"{what} of Limits is {short(limit)}, and must not be less than 0")
    return min(limit, sys.maxsize)


def _as_limits(limits: Limits) -> Tuple[int, int, int, int]:
    """Limits as the library takes them."""
    if limits is _DEFAULT:
        return _NUMBERS
    if not isinstance(limits, Limits):
        raise TypeError(f"limits are Limits, not {told(limits)}")
    return (
        _as_limit("line", limits.line), _as_limit("tags", limits.tags), _as_limit("earliest", limits.earliest),
        _as_limit("latest", limits.latest))


def _mask_of(servers: Servers) -> int:
    """The bits of the clauses that concern servers."""
    if not isinstance(servers, str):
        raise TypeError(f"servers are a str, not {told(servers)}")
    if servers not in _MASKS:
        raise ValueError(f"servers are one of {', '.join(map(repr, _MASKS))}, not {short(servers)}")
    return _MASKS[servers]


def _names_of(bits: int) -> Optional[Tuple[str, ...]]:
    """The names of clauses that have these bits."""
    return None if bits == _NOT_A_LINE else tuple(name for place, name in enumerate(CLAUSES, 1) if bits >> place & 1)


def broken_clauses(
        line: Union[str, bytes, bytearray, memoryview], servers: Servers = "all", *, limits: Limits = _DEFAULT) -> Optional[Tuple[str, ...]]:
    """The names of the clauses that the text of a line breaks, of those that concern servers; `CLAUSES` says what each means.

    None: the text is not just one line for the strict reader, as is a comment; or it has 4 GiB or more. A newline at its end is left out.
    Bytes need not be UTF-8.

    >>> broken_clauses("m f=1u,f=1e3")
    ('unsigned', 'rounded_float', 'repeated_field')
    >>> broken_clauses("m f=1u", "victoria"), broken_clauses("m f=")
    ((), None)
    >>> CLAUSES["repeated_field"]
    'two fields have one key'
    """
    mask = _mask_of(servers)
    return _names_of(_fast.verdict(as_lent(line), _as_limits(limits)) & mask)


def is_portable(line: Union[str, bytes, bytearray, memoryview], servers: Servers = "all", *, limits: Limits = _DEFAULT) -> bool:
    """Whether servers read the text of a line as the strict reader does: it is one line, and `broken_clauses` names nothing.

    >>> is_portable("m f=1u"), is_portable("m f=1u", "victoria")
    (False, True)
    >>> is_portable(write(Line("m", [("a", "x")], [("f", 1)])))
    True
    """
    mask = _mask_of(servers)
    return not _fast.verdict(as_lent(line), _as_limits(limits)) & mask


def verdicts(
        text: AnyStr, servers: Servers = "all", *, strict: Optional[bool] = None, dialect: Optional[Dialect] = None,
        limits: Limits = _DEFAULT) -> List[Tuple[AnyStr, Optional[Tuple[str, ...]]]]:
    """Each line of a text, with what `broken_clauses` names of it. One call of the library tells of up to 512 lines.

    A `str` gives `str`, and bytes give bytes, which need not be UTF-8. A line comes with the blanks before it and without its newline; blank
    lines and comments are left out, and what is no line, as a fault, has None. The dialect says where lines end; each is then read by the
    strict rules. OverflowError if a line has 4 GiB or more.

    >>> body = "m f=1\\nm f=1u\\n# a comment\\nm f=\\n"
    >>> verdicts(body)
    [('m f=1', ()), ('m f=1u', ('unsigned',)), ('m f=', None)]
    >>> [line for line, broken in verdicts(body, "influx1") if broken == ()]
    ['m f=1']
    """
    mask, number = _mask_of(servers), as_dialect(strict, dialect)
    lines, bits = _fast.verdicts(as_lent(text), number, _as_limits(limits))
    named = {one: _names_of(one & mask) for one in set(bits)}
    return list(zip(lines, map(named.__getitem__, bits)))
