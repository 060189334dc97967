"""What the tests share: NumPy, pandas and the corpora of the bench, and what is asked of lines and tables."""

import copy
import gc
import os
import pickle
import sys
import tempfile
import tracemalloc
import unittest
from dataclasses import replace
from pathlib import Path

from line_protocol import Builder, Column, Line, Table

try:
    import numpy
except ImportError:
    numpy = None
try:
    import pandas
except ImportError:
    pandas = None

sys.path.append(str(Path(__file__).parents[3] / "bench"))
import corpora  # noqa: E402, F401


def typed(item):
    """An item whose values, where it is a line, are shown and have their types beside them, since to Python 1, 1.0 and True are equal. A
    fault is as it was."""
    if not isinstance(item, Line):
        return item
    return replace(item, fields=[(key, type(value), repr(value)) for key, value in item.fields])


def copies_of(one):
    """An object that was copied and pickled in each way."""
    return [copy.copy(one), copy.deepcopy(one), *(pickle.loads(pickle.dumps(one, at)) for at in range(2, 6))]


def begin(line, **options):
    """A builder that was handed the parts of a line."""
    builder = Builder(**options).measurement(line.measurement)
    for key, value in line.tags:
        builder.tag(key, value)
    for key, value in line.fields:
        builder.field(key, value)
    if line.timestamp is not None:
        builder.timestamp(line.timestamp)
    return builder


def build(line, **options):
    """A line through the builder."""
    return begin(line, **options).close_line().build()


def table_of(time, fields, tags=()):
    """The table `m` of columns that have these values and miss none."""
    return {"m": Table(Column(time), *({key: Column(values) for key, values in dict(given).items()} for given in (tags, fields)))}


def tables_of(line):
    """Tables whose only row is a line."""
    tags, fields = ({key: [value] for key, value in pairs} for pairs in (line.tags, line.fields))
    return {line.measurement: table_of([line.timestamp], fields, tags)["m"]}


def trace(test):
    """Traces what memory is held until a test ends."""
    tracemalloc.start()
    test.addCleanup(tracemalloc.stop)


def give_back(test, once, times, most):
    """Sees that no more than so many bytes are held after as many calls again."""
    trace(test)
    for _ in range(times):  # caches of Python fill
        once()
    gc.collect()
    before = tracemalloc.get_traced_memory()[0]
    for _ in range(times):
        once()
    gc.collect()
    test.assertLess(tracemalloc.get_traced_memory()[0], before + most)


def open_files():
    """How many files the process has open, where the system says it."""
    return len(os.listdir("/proc/self/fd")) if os.path.exists("/proc/self/fd") else 0


class Folder(unittest.TestCase):
    def setUp(self):
        folder = tempfile.TemporaryDirectory()
        self.addCleanup(folder.cleanup)
        self.folder = Path(folder.name)

    def file(self, data, name="lines"):
        """A path of a file of these bytes."""
        path = self.folder / name
        path.write_bytes(data)
        return path
