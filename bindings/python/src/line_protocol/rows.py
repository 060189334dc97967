"""Tables as lines: one for each row that has a field."""

from __future__ import annotations

import sys
from array import array
from collections.abc import Mapping as AnyMapping
from typing import Any, Iterator, List, Mapping, Optional, Tuple, Union

from . import _fast
from .checking import Dialect, NotAdmitted, as_dialect, refuse, told
from .items import short
from .tables import BOOLEAN, MIXED, TAG, Column, Columns, Table

TYPES = {"i": (1, "int64"), "u": (2, "uint64"), "f": (3, "float64"), "b": (BOOLEAN, "bool")}
"""For each kind of NumPy's types the kind of a column, and the type of its cells."""

_CODES = {**dict.fromkeys("bhilq", ("i", "q")), **dict.fromkeys("BHILQ", ("u", "Q")), **dict.fromkeys("fd", ("f", "d"))}
"""For each type of an `array` the kind of NumPy's types, and the type of its cells."""

Cells = Tuple[int, Any, Optional[bytes]]
"""A column as the extension takes it: its kind, its cells, and which of them are missing."""

ToldTable = Tuple[str, int, Tuple[Tuple[Optional[str], int, Any, Optional[bytes]], ...]]
"""A table as the extension takes it: its measurement, how many rows it has, and its columns after their keys, of which the times have
none."""


def write_columns(tables: Union[Columns, Mapping[str, Table]], *, strict: Optional[bool] = None, dialect: Optional[Dialect] = None) -> str:
    """The lines of tables, one for each row: of what `columns` gave, or of a `dict` of a Table for each measurement.

    The values of a column are an array of NumPy, also a masked one, an `array`, a list or a tuple. A cell is left out if the mask is
    true or the value is None, and a row that has no field then is left out too. All else is written as `write` writes it, or raises,
    NotAdmitted if a name would not read back; then nothing is written, and the message says which row it is, from 0 on.

    >>> write_columns(columns("cpu,host=a usage=64i 5\\nmem free=0.5\\ncpu,host=b usage=7i\\n"))
    'cpu,host=a usage=64i 5\\ncpu,host=b usage=7i\\nmem free=0.5\\n'
    >>> write_columns({"cpu": Table(Column([5, 6, 7]), {"host": Column(["a", "b", None])}, {"usage": Column([1.5, 2.5, None])})})
    'cpu,host=a usage=1.5 5\\ncpu,host=b usage=2.5 6\\n'
    """
    given = tables.tables if isinstance(tables, Columns) else tables
    if not isinstance(given, AnyMapping):
        raise TypeError(f"tables are Columns, or a dict of Table, not {told(tables)}")
    number = as_dialect(strict, dialect)
    refused: List[Tuple[str, int]] = []
    try:
        return _fast.write_columns(map(_told_table, given.keys(), given.values()), number, refused)
    except (TypeError, ValueError, OverflowError) as why:
        if refused and len(why.args) == 1:
            measurement, row = refused[0]
            why.args = (f"the table {short(measurement)}, row {row}: {why}",)
            if isinstance(why, NotAdmitted):
                why.table, why.row = measurement, row
        raise


def _told_table(measurement: str, table: Table) -> ToldTable:
    """A table as the extension takes it."""
    if not isinstance(measurement, str):
        refuse("the measurement", None, measurement)
    what = f"the table {short(measurement)}"
    if not isinstance(table, Table):
        raise TypeError(f"{what} is a Table, not {told(table)}")
    rows, times = _cells(f"{what}, the times", table.time, "i", None)
    columns: List[Any] = [(None, *times)]
    for name, given, kinds in (("tag", table.tags, ""), ("field", table.fields, "iufb")):
        if not isinstance(given, AnyMapping):
            raise TypeError(f"{what}: the {name}s are a dict of Column, not {told(given)}")
        for key, column in given.items():
            if not isinstance(key, str):
                refuse(f"the key of a {name}", None, key)
            _, cells = _cells(f"{what}, the {name} {short(key)}", column, kinds, rows)
            columns.append((key, cells[0] if kinds else TAG, *cells[1:]))
    if not table.fields:
        raise ValueError(f"{what} has no field")
    return measurement, rows, tuple(columns)


def _cells(what: str, column: Column, kinds: str, rows: Optional[int]) -> Tuple[int, Cells]:
    """How many rows a column has, and the column as the extension takes it: as numbers, if NumPy's type is of one of these kinds, or
    else as objects."""
    if not isinstance(column, Column):
        raise TypeError(f"{what}: a column is a Column, not {told(column)}")
    values = column.values
    if not isinstance(values, (array, list, tuple)) and not _is_array(values):
        raise TypeError(f"{what}: values are an array, a list or a tuple, not {told(values)}")
    if _is_array(values) and values.ndim != 1:
        raise ValueError(f"{what}: an array has one dimension, not {values.ndim}")
    if rows not in (None, len(values)):
        raise ValueError(f"{what}: there are {len(values)} values, and the table has {rows} rows")
    missing = _missing(what, column.mask, len(values))
    if _is_array(values):
        values, missing = _unmasked(what, values, missing, kinds == "i")
    kind, cells = _handed(values, kinds)
    return len(values), (kind, _without_nat(cells) if kinds == "i" and kind == MIXED else cells, missing)


def _without_nat(times: List[Any]) -> List[Any]:
    """Times that are objects, None in the place of each NaT of pandas."""
    nat = getattr(sys.modules.get("pandas"), "NaT", None)
    return times if nat is None else [None if time is nat else time for time in times]


def _is_array(values: Any) -> bool:
    """Whether values are an array of NumPy."""
    numpy: Any = sys.modules.get("numpy")
    return numpy is not None and isinstance(values, numpy.ndarray)


def _missing(what: str, mask: Any, size: int) -> Optional[bytes]:
    """Which cells a mask says are missing: a byte for each."""
    if mask is None:
        return None
    if _is_array(mask) and mask.dtype == bool and mask.ndim == 1:
        missing = bytes(mask.tobytes())
    elif isinstance(mask, (list, tuple)) and all(isinstance(one, bool) for one in mask):
        missing = bytes(mask)
    else:
        raise TypeError(f"{what}: a mask is an array or a list of booleans, not {told(mask)}")
    if len(missing) != size:
        raise ValueError(f"{what}: there are {size} values, and the mask has {len(missing)}")
    return missing


def _unmasked(what: str, values: Any, missing: Optional[bytes], is_time: bool) -> Tuple[Any, Optional[bytes]]:
    """An array of NumPy without a mask of its own, times as nanoseconds; and which of its cells are missing."""
    numpy: Any = sys.modules["numpy"]
    none = numpy.zeros(len(values), dtype="bool") if missing is None else numpy.frombuffer(missing, dtype="bool")
    if isinstance(values, numpy.ma.MaskedArray):
        values, none = numpy.ma.getdata(values), none | numpy.ma.getmaskarray(values)
    if is_time and values.dtype.kind == "M":
        at, none = values.astype("datetime64[ns]"), none | numpy.isnat(values)
        if not (none | (at.astype(values.dtype) == values)).all():
            raise OverflowError(f"{what}: a time is no number of nanoseconds of 64 bits")
        values = at.view("int64")
    return values, none.tobytes() if none.any() else None


def _handed(values: Any, kinds: str) -> Tuple[int, Any]:
    """The kind of a column, and its cells: as numbers, if NumPy's type is of one of these kinds, or else as objects."""
    if _is_array(values):
        if values.dtype.kind in kinds and values.dtype.itemsize <= 8:
            kind, dtype = TYPES[values.dtype.kind]
            return kind, values.astype(dtype, copy=False).tobytes()
        return MIXED, values.tolist() if values.dtype.kind in "OU" else list(values)
    letter, code = _CODES.get(values.typecode, ("", "")) if isinstance(values, array) else ("", "")
    return (TYPES[letter][0], array(code, values).tobytes()) if letter and letter in kinds else (MIXED, list(values))
