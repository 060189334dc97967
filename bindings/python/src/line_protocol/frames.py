"""Frames of pandas, which is imported by these calls alone."""

from __future__ import annotations

from importlib import import_module
from typing import Any, Callable, Dict, List, Optional, Sequence

from .checking import Dialect, as_text, told
from .items import Fault, short
from .reading import Source
from .rows import TYPES, write_columns
from .tables import Column, Table, columns

_NO_TIME = -(2**63)
"""What pandas takes for no time, among nanoseconds."""

_TAGS, _OBJECT_FIELDS = "line_protocol.tags", "line_protocol.object_fields"
"""The keys in `frame.attrs` of the names of the columns that are tags, and of those of objects that are fields."""


class Frames(Dict[str, Any]):
    """A DataFrame of pandas for each measurement of a source, in the order in which these came; `faults` are those of the source.

    >>> Frames().faults
    []
    """

    def __init__(self) -> None:
        super().__init__()
        self.faults: List[Fault] = []


def _pandas() -> Any:
    try:
        return import_module("pandas")
    except ImportError as missing:
        raise ImportError(f"frames are those of pandas, which cannot be imported: {missing}") from missing


def to_frame(
        source: Source, *, strict: Optional[bool] = None, dialect: Optional[Dialect] = None,
        max_line: Optional[int] = None) -> Frames:
    """A DataFrame of pandas for each measurement of a source, which is read as `columns` reads it.

    The columns are the tags, as categories, and then the fields: integers, unsigned integers, floats and booleans as NumPy has them, or
    as pandas' own types (`Int64`, `UInt64`, `boolean`) if some are missing; a missing float is NaN. All else are objects. The index,
    "time", has the timestamps in UTC, and NaT for a line without; if no line has any, the rows are numbered.

    `frame.attrs` names the tags under "line_protocol.tags", and the fields of objects under "line_protocol.object_fields", so that
    `from_frame` knows them also if pandas has made another type of them.

    ImportError if pandas is not there. OverflowError if a timestamp is -2^63, which is NaT to pandas.

    >>> frames = to_frame("cpu,host=a usage=64i,load=0.5 1700000000000000000\\ncpu,host=b usage=7i 1700000010000000000\\ncpu\\n")
    >>> frames["cpu"].to_dict("list")
    {'host': ['a', 'b'], 'usage': [64, 7], 'load': [0.5, nan]}
    >>> list(map(str, frames["cpu"].dtypes)), str(frames["cpu"].index[0])
    (['category', 'int64', 'float64'], '2023-11-14 22:13:20')
    >>> frames["cpu"].attrs["line_protocol.tags"]
    ['host']
    >>> [fault.line for fault in frames.faults]
    [3]
    """
    pandas = _pandas()
    read = columns(source, strict=strict, dialect=dialect, max_line=max_line, use_numpy=True)
    frames = Frames()
    frames.faults = read.faults
    for measurement in list(read.tables):
        frames[measurement] = _frame(pandas, measurement, read.tables.pop(measurement))
    return frames


def _frame(pandas: Any, measurement: str, table: Table) -> Any:
    """The frame of a table."""
    tags = [pandas.Categorical(tag.values) for tag in table.tags.values()]
    cells = tags + [_array(pandas, field) for field in table.fields.values()]
    frame = pandas.DataFrame(dict(enumerate(cells)), index=_index(pandas, measurement, table.time), copy=False)
    frame.columns = [*table.tags, *table.fields]
    frame.attrs[_TAGS] = list(table.tags)
    frame.attrs[_OBJECT_FIELDS] = [key for key, field in table.fields.items() if field.values.dtype.kind == "O"]
    return frame


def _index(pandas: Any, measurement: str, time: Column) -> Any:
    """The index of a frame: times, or None."""
    values, mask = time.values, time.mask
    if mask is not None and mask.all():
        return None
    none = values == _NO_TIME
    if none.any():
        raise OverflowError(f"{short(measurement)}, row {none.argmax()}: the timestamp {_NO_TIME} is no time of pandas")
    if mask is not None:
        values[mask] = _NO_TIME
    return pandas.DatetimeIndex(values.view("datetime64[ns]"), name="time")


def _array(pandas: Any, field: Column) -> Any:
    """The cells of a field, as a frame has them."""
    values, mask = field.values, field.mask
    if mask is None or values.dtype.kind == "O":
        return values
    if values.dtype.kind == "f":
        values[mask] = float("nan")
        return values
    return (pandas.arrays.BooleanArray if values.dtype.kind == "b" else pandas.arrays.IntegerArray)(values, mask)


def from_frame(
        frame: Any, measurement: str, *, tags: Optional[Sequence[str]] = None, fields: Optional[Sequence[str]] = None,
        time: Optional[str] = None, strict: Optional[bool] = None, dialect: Optional[Dialect] = None) -> str:
    """The lines of a DataFrame of pandas, one for each row, as `write_columns` writes them.

    `tags` and `fields` name columns. By default tags are those that `frame.attrs` names, as `to_frame` leaves it, and those of type
    category; fields are all others. ValueError if neither is given, and a column of objects or of strings is none of those that
    `to_frame` gave: it may be a tag. `time` names the column of the timestamps: by default it is the index, if it is a DatetimeIndex; if
    the index numbers the rows, lines have no timestamp. Times without a zone are UTC, and integers are nanoseconds.

    What is missing (None, NaN, NA, NaT) is left out, as is a tag of no characters, and so is a row without a field. Nothing becomes
    text: the value of a tag is a `str`, as `frame.astype({"rack": "string"})` makes it. ImportError if pandas is not there; KeyError if
    the frame has no such column; NotAdmitted if a name would not read back.

    >>> frames = to_frame("cpu,host=a usage=64i 5\\ncpu,host=b load=0.5 6\\n")
    >>> from_frame(frames["cpu"], "cpu")
    'cpu,host=a usage=64i 5\\ncpu,host=b load=0.5 6\\n'
    >>> from_frame(frames["cpu"], "cpu", tags=[], fields=["usage"])
    'cpu usage=64i 5\\n'
    """
    pandas = _pandas()
    if not isinstance(frame, pandas.DataFrame):
        raise TypeError(f"a frame is a DataFrame of pandas, not {told(frame)}")
    as_text("the measurement", measurement)
    names = list(frame.columns)
    at_time = [] if time is None else _places(names, "time", [time])
    at_tags = _known_tags(pandas, frame, at_time) if tags is None else _places(names, "tags", tags)
    at_fields = [place for place in range(len(names)) if place not in {*at_time, *at_tags}]
    if tags is None and fields is None:
        _refuse_unknown(pandas, frame, at_tags, at_fields)
    if fields is not None:
        at_fields = _places(names, "fields", fields)
    times = _times(pandas, frame.iloc[:, at_time[0]] if at_time else frame.index)
    table = Table(times, _columns(frame, at_tags, _tag), _columns(frame, at_fields, _column))
    return write_columns({measurement: table}, strict=strict, dialect=dialect)


def _known_tags(pandas: Any, frame: Any, at_time: List[int]) -> List[int]:
    """The places of the columns that are tags by their type, or since `frame.attrs` names them and no other column has that name."""
    named = set(_as_names(f"attrs[{_TAGS!r}]", frame.attrs.get(_TAGS, ())))
    return [
        place for place, (name, dtype, is_twice) in enumerate(zip(frame.columns, frame.dtypes, frame.columns.duplicated(keep=False)))
        if place not in at_time and (isinstance(dtype, pandas.CategoricalDtype) or (name in named and not is_twice))]


def _refuse_unknown(pandas: Any, frame: Any, at_tags: List[int], at_fields: List[int]) -> None:
    """Raises for a column of objects or of strings that is no tag, and that `to_frame` did not give as a field."""
    known = set(_as_names(f"attrs[{_OBJECT_FIELDS!r}]", frame.attrs.get(_OBJECT_FIELDS, ())))
    tags = [frame.columns[place] for place in at_tags]
    for place in at_fields:
        name = frame.columns[place]
        if name not in known and pandas.api.types.is_string_dtype(frame.dtypes.iloc[place]):
            raise ValueError(
                f"the column {short(name)} may be a tag or a field: tags={short([name, *tags])} makes it a tag, tags={short(tags)} a field")


def _as_names(what: str, names: Any) -> Sequence[str]:
    """Names of columns, which are a list or a tuple."""
    if not isinstance(names, (list, tuple)):
        raise TypeError(f"{what} are a list of names of columns, not {told(names)}")
    return names


def _places(names: List[Any], what: str, wanted: Sequence[str]) -> List[int]:
    """The places of columns among their names."""
    for name in _as_names(what, wanted):
        if names.count(name) != 1:
            raise ValueError(f"{what}: the frame has two columns {short(name)}") if name in names else KeyError(
                f"{what}: the frame has no column {short(name)}")
    return [names.index(name) for name in wanted]


def _columns(frame: Any, places: List[int], as_column: Callable[[Any], Column]) -> Dict[str, Column]:
    """The columns of a frame at these places, by their names."""
    named = {frame.columns[place]: as_column(frame.iloc[:, place]) for place in places}
    if len(named) < len(places):
        raise ValueError("two tags, or two fields, of the frame have one name")
    return named


def _column(cells: Any) -> Column:
    """The cells of a frame as a column."""
    missing, kind = cells.isna().to_numpy(dtype="bool"), getattr(cells.dtype, "kind", "O")
    if kind not in TYPES or getattr(cells.dtype, "itemsize", 8) > 8:
        return Column(cells.astype("object").to_numpy(), missing)
    values = cells.to_numpy(dtype=TYPES[kind][1], **({"na_value": 0} if missing.any() else {}))
    return Column(values, missing | (values != values))


def _tag(cells: Any) -> Column:
    """The cells of a tag as a column. An empty text is missing."""
    column = _column(cells)
    try:
        empty = cells.isin([""]).to_numpy(dtype="bool")
    except TypeError:  # a cell that has no hash is no str either, and is refused where it is written
        return column
    return Column(column.values, column.mask | empty)


def _times(pandas: Any, cells: Any) -> Column:
    """The times of a frame as a column, from its index or from one of its columns."""
    if isinstance(cells, pandas.DatetimeIndex) or getattr(cells.dtype, "kind", "O") == "M":
        times = pandas.Series(cells)
        return Column((times if times.dt.tz is None else times.dt.tz_convert(None)).to_numpy())
    if not isinstance(cells, pandas.Index):
        return _column(cells)
    if cells.name is not None or cells.dtype.kind not in "iu":
        raise TypeError(f"the index has no times, and numbers no rows: {type(cells).__name__} of {cells.dtype}, named {short(cells.name)}")
    return Column([None] * len(cells))
