"""InfluxDB line protocol: lines are read and written by a proved library.

>>> for item in parse("cpu,host=a usage=64i 5"):
...     if isinstance(item, Line):
...         print(item.measurement, item.tags, item.fields, item.timestamp)
...     else:
...         print(item.message)
cpu [('host', 'a')] [('usage', 64)] 5

docs/python.md tells all of it. The library is part of the extension module `_fast`, which is made where the package is installed.
"""

try:
    from . import _fast
except ImportError as missing:
    raise ImportError(f"{missing}: `pip install bindings/python` compiles the extension") from missing
from .checking import Dialect, NotAdmitted
from .checking import plain_timestamp as _plain_timestamp
from .checking import plain_value as _plain_value
from .checking import refuse as _refuse
from .checking import refuse_texts as _refuse_texts
from .frames import Frames, from_frame, to_frame
from .items import Fault, FaultKind, FloatText, Line, Side, Unsigned, Value
from .parts import part_ends
from .portable import CLAUSES, Limits, Servers, broken_clauses, is_portable, verdicts
from .reading import Errors, Source, Unreadable, parse, split
from .rebuilding import Rebuilt, rebuild
from .rows import write_columns
from .tables import Column, Columns, Table, columns
from .writing import Builder, DuplicateTag, base, is_admitted, is_base_safe, key, show, write, write_many

__all__ = [
    "Builder", "CLAUSES", "Column", "Columns", "Dialect", "DuplicateTag", "Errors", "Fault", "FaultKind", "FloatText", "Frames", "Limits",
    "Line", "NotAdmitted", "Rebuilt", "Servers", "Side", "Source", "Table", "Unreadable", "Unsigned", "Value", "__version__", "base",
    "broken_clauses", "columns", "from_frame", "is_admitted", "is_base_safe", "is_portable", "key", "parse", "part_ends", "rebuild",
    "show", "split", "to_frame", "verdicts", "write", "write_columns", "write_many",
]

__version__ = "{}.{}.{}".format(_fast.version() // 10_000, _fast.version() // 100 % 100, _fast.version() % 100)
"""The version of the library, the newest that CHANGELOG.md names."""

_fast.setup(
    Line, Fault, Unsigned, FloatText, int.__new__, tuple(FaultKind(number or FaultKind.NOT_UTF8) for number in range(11)), tuple(Side),
    DuplicateTag, _plain_value, _plain_timestamp, _refuse, _refuse_texts)
