"""Sources as columns: for each measurement its times, its tags and its fields."""

from __future__ import annotations

import warnings
from array import array
from dataclasses import dataclass, field
from importlib import import_module
from typing import Any, Dict, Iterator, List, Optional, Tuple

from . import _fast
from .checking import Dialect, as_dialect
from .items import Fault
from .reading import Source, reader_of
from .sources import hint_on_bytes, hint_on_text

TAG = 0
BOOLEAN = 5
MIXED = 100
"""The kind of a column of objects, as one whose fields are of several kinds."""

Told = Tuple[Optional[str], int, Any, Optional[bytearray]]
"""A column as the extension tells it: its key, and its cells. The first of a table has the times, and no key."""

_NUMBERS = {1: ("q", "int64"), 2: ("Q", "uint64"), 3: ("d", "float64"), BOOLEAN: ("Q", "uint64")}
"""For each kind of numbers, of enum lp_kind, its type for `array` and for NumPy."""


@dataclass
class Column:
    """A column: a value for each row, in the order of the lines.

    `values` are an array of NumPy where it is there. Else integers, unsigned integers and floats are an `array`, and all other values a
    list. `mask` says where a line had no such tag, field or timestamp: there the value is 0, False or None. It is None where each line
    had one. A field of several kinds is a column of objects.

    >>> column = columns("m f=1i\\nm f=2i", use_numpy=False).tables["m"].fields["f"]
    >>> column
    Column(values=array('q', [1, 2]), mask=None)
    >>> list(column)
    [1, 2]
    """

    values: Any
    mask: Any = None

    def __len__(self) -> int:
        return len(self.values)

    def __iter__(self) -> Iterator[Any]:
        """Each value, or None where it is missing."""
        if self.mask is None:
            return iter(self.values)
        return iter([None if missing else value for value, missing in zip(self.values, self.mask)])

    def masked(self) -> Any:
        """The column as a masked array of NumPy."""
        numpy: Any = import_module("numpy")
        return numpy.ma.MaskedArray(self.values, numpy.ma.nomask if self.mask is None else self.mask)


@dataclass
class Table:
    """The lines of a measurement, in their order. Tags and fields are in the order in which their keys came. `series` has the number of
    the series of each line, if `columns` was asked for it.

    >>> table = columns("m,t=a f=1i 5\\nm f=2i,g=t 6", use_numpy=False).tables["m"]
    >>> len(table), list(table.time), list(table.tags["t"]), list(table.fields["g"])
    (2, [5, 6], ['a', None], [None, True])
    """

    time: Column
    tags: Dict[str, Column] = field(default_factory=dict)
    fields: Dict[str, Column] = field(default_factory=dict)
    series: Optional[Column] = None

    def __len__(self) -> int:
        return len(self.time)


@dataclass
class Columns:
    """The tables of a source by their measurements, in the order in which these came, and its faults. `keys` has the key of each series by
    its number, if `columns` was asked for the numbers.

    >>> told = columns("m f=1i\\nm f\\nn f=2i", use_numpy=False)
    >>> list(told.tables), [fault.line for fault in told.faults]
    (['m', 'n'], [2])
    """

    tables: Dict[str, Table]
    faults: List[Fault]
    keys: Optional[List[str]] = None


def _numpy_of(use_numpy: Optional[bool]) -> Any:
    """NumPy, where it is there and wanted."""
    if use_numpy is False:
        return None
    try:
        return import_module("numpy")
    except ImportError:
        if use_numpy:
            raise
        return None


def _plain(kind: int, cells: Any, missing: Optional[bytearray]) -> Column:
    """A column without NumPy."""
    mask = None if missing is None else [one == 1 for one in missing]
    if kind not in _NUMBERS:
        return Column(cells, mask)
    numbers: Any = array(_NUMBERS[kind][0])
    numbers.frombytes(cells)
    return Column([one == 1 for one in numbers] if kind == BOOLEAN else numbers, mask)


def _of_numpy(numpy: Any, kind: int, cells: Any, missing: Optional[bytearray]) -> Column:
    """A column of NumPy."""
    mask = None if missing is None else numpy.frombuffer(missing, dtype="bool")
    if kind in _NUMBERS:
        values = numpy.frombuffer(cells, dtype=_NUMBERS[kind][1])
        return Column(values.astype("bool") if kind == BOOLEAN else values, mask)
    values = numpy.empty(len(cells), dtype="object")
    values[:] = cells
    return Column(values, mask)


def _column(told: Told, numpy: Any) -> Column:
    """A column that the extension tells."""
    _, kind, cells, missing = told
    return _plain(kind, cells, missing) if numpy is None else _of_numpy(numpy, kind, cells, missing)


def _table(told: List[Told], series: Optional[Told], numpy: Any) -> Table:
    """A table of the columns that the extension tells: the first are the times."""
    made = [(str(column[0]), column[1], _column(column, numpy)) for column in told]
    table = Table(made[0][2], series=None if series is None else _column(series, numpy))
    for key, kind, column in made[1:]:
        (table.tags if kind == TAG else table.fields)[key] = column
    return table


def columns(
        source: Source, *, strict: Optional[bool] = None, dialect: Optional[Dialect] = None,
        max_line: Optional[int] = None, use_numpy: Optional[bool] = None, series: bool = False) -> Columns:
    """The lines of a source as columns. It is read as `parse` reads it, to its end, and no object is made of a number.

    Integers stay integers, and unsigned ones unsigned. Of a key that comes twice in a line the last value counts. `use_numpy` says
    whether the columns are arrays of NumPy: by default where it is there. With `series` each table also has the number of the series of
    each line, from 0 in the order in which they came: lines have one number exactly if their series have one `key`.

    >>> told = columns("cpu,host=a usage=1i,load=0.5 5\\ncpu,host=b usage=2i 6\\n", use_numpy=False)
    >>> cpu = told.tables["cpu"]
    >>> cpu.time.values, cpu.fields["usage"].values
    (array('q', [5, 6]), array('q', [1, 2]))
    >>> cpu.fields["load"]
    Column(values=array('d', [0.5, 0.0]), mask=[False, True])
    >>> told = columns("cpu,host=a,az=b n=1i\\ncpu,az=b,host=a n=2i\\ncpu n=4i\\n", use_numpy=False, series=True)
    >>> told.tables["cpu"].series.values, told.keys
    (array('q', [0, 0, 1]), ['cpu,az=b,host=a', 'cpu'])
    """
    numpy = _numpy_of(use_numpy)
    tables, faults, keys = _fast.columns(reader_of(source, as_dialect(strict, dialect), max_line), series)
    hint = hint_on_text(source) or (hint_on_bytes(faults[0].refused) if faults and faults[0].offset == 0 else None)
    if hint:
        warnings.warn(hint, stacklevel=2)
    tables.reverse()
    made: Dict[str, Table] = {}
    while tables:  # each is let go once its columns are made
        measurement, _, told, numbers = tables.pop()
        made[measurement] = _table(told, numbers, numpy)
    return Columns(made, faults, keys)
