"""Files become columns by Dask, a task for each of their parts.

`import line_protocol.dask` raises ImportError if there is no Dask; no other module of the package asks for it. The calls read the
files once, to cut them. What they give is computed by Dask, whose workers must see the files by the same names and have this package.
"""

from __future__ import annotations

from importlib import import_module
from typing import Any, List, Optional, Sequence, Union

from .checking import Dialect, as_dialect, as_limit
from .parts import START, FilePath, after, as_count, as_paths, columns_of, cut, read_part

try:
    _delayed: Any = import_module("dask").delayed
except ImportError as missing:
    raise ImportError(f"{missing}: line_protocol.dask is for Dask, which is Debian's python3-dask, or `pip install dask`") from missing

Paths = Union[FilePath, Sequence[FilePath]]


def _reads(paths: Paths, parts: int, dialect: int, max_line: Optional[int]) -> List[Any]:
    """What is read of each part. A task that reads waits for no other one, so it can be run again on any worker."""
    count, limit = as_count(parts), as_limit(max_line)
    return [_delayed(read_part)(part, dialect, limit) for part in cut(as_paths(paths), count, dialect)]


def read_columns(
        paths: Paths, parts: int, *, strict: Optional[bool] = None, dialect: Optional[Dialect] = None,
        max_line: Optional[int] = None, use_numpy: Optional[bool] = None) -> Any:
    """The columns of a file, or of those in a list, as an object of `dask.delayed`: `compute()` gives `Columns`.

    They are what `columns` gives of all files one after another, also the numbers of each fault, and the same keywords say how lines are
    read. A newline is put after a file that does not end in one, if another file comes then. The files are cut into so many parts as
    `part_ends` cuts one, and the call raises what that raises; what is computed raises EOFError if a file has become shorter.

        told = line_protocol.dask.read_columns(["a.lp", "b.lp"], 16).compute()
        told.tables["cpu"].fields["usage"].values
    """
    return _delayed(columns_of)(_reads(paths, parts, as_dialect(strict, dialect), max_line), START, use_numpy)


def read_parts(
        paths: Paths, parts: int, *, strict: Optional[bool] = None, dialect: Optional[Dialect] = None,
        max_line: Optional[int] = None, use_numpy: Optional[bool] = None) -> List[Any]:
    """The columns of each part, in the order of the parts, as objects of `dask.delayed`, each of which gives `Columns`. So no process
    has to hold all of them.

    The rows and faults of the parts, one after another, are those that `read_columns` gives, and the faults have the same numbers. A
    part has the tables and columns of its own lines alone, and a field may be of one kind in one part and of several in another.

        parts = line_protocol.dask.read_parts("a.lp", 16)
        dask.delayed(sum)([dask.delayed(len)(part.faults) for part in parts]).compute()
    """
    place: Any = START
    columns = []
    for read in _reads(paths, parts, as_dialect(strict, dialect), max_line):
        columns.append(_delayed(columns_of)([read], place, use_numpy))
        place = _delayed(after)(place, read)
    return columns
