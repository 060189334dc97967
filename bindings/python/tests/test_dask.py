"""Columns by Dask: over a stand-in for it, and over Dask where it is there."""

import importlib
import importlib.util
import sys
import types
import unittest
from unittest import mock

import line_protocol
from line_protocol import columns, write_columns
from shared import Folder
from test_sources import located

TEXT = b'cpu,host=a usage=64i,load=0.5 5\nwrong\ncpu usage=2.5\nmem s="a\nb"\n# c\nm f\n' * 40


class Task:
    """Of the stand-in: what is computed once it is asked for."""

    def __init__(self, call, given):
        self.call, self.given = call, given

    def compute(self):
        return self.call(*map(computed, self.given))


def computed(given):
    """What was handed in, with the results of tasks in their places."""
    return [computed(one) for one in given] if isinstance(given, list) else given.compute() if isinstance(given, Task) else given


def stand_in():
    """Dask as far as the package asks for it."""
    module = types.ModuleType("dask")
    module.delayed = lambda call: lambda *given: Task(call, given)
    return module


class ByDask(Folder):
    def imported(self, dask):
        """The module over what is there as Dask."""
        for patch in (mock.patch.dict(sys.modules, dask=dask), mock.patch.object(line_protocol, "dask", None, create=True)):
            patch.start()
            self.addCleanup(patch.stop)
        sys.modules.pop("line_protocol.dask", None)
        self.addCleanup(sys.modules.pop, "line_protocol.dask", None)
        return importlib.import_module("line_protocol.dask")

    def compare(self, module, **options):
        paths = [self.file(TEXT[:-1], "one"), str(self.file(TEXT, "two"))]
        wanted = columns(iter([TEXT + TEXT]), use_numpy=False, **options)
        for parts in (0, 1, 2, 7):
            found = module.read_columns(paths, parts, use_numpy=False, **options).compute()
            self.assertEqual((located(found.faults), found.tables), (located(wanted.faults), wanted.tables))
            each = [part.compute() for part in module.read_parts(paths, parts, use_numpy=False, **options)]
            self.assertEqual(len(each), max(parts, 1))
            self.assertEqual(located(fault for part in each for fault in part.faults), located(wanted.faults))
            rows = [(name, len(table)) for part in each for name, table in part.tables.items()]
            for name, table in wanted.tables.items():
                self.assertEqual(sum(count for of, count in rows if of == name), len(table))
            written = "".join(map(write_columns, each))
            self.assertEqual(sorted(written.splitlines()), sorted(write_columns(wanted).splitlines()))
        self.assertEqual(module.read_columns(paths[0], 3).compute().faults, columns(paths[0]).faults)

    def test_the_stand_in(self):
        module = self.imported(stand_in())
        self.compare(module)
        self.compare(module, strict=True, max_line=12)

    @unittest.skipUnless(importlib.util.find_spec("dask"), "there is no Dask")
    def test_dask(self):
        dask = importlib.import_module("dask")
        module = self.imported(dask)
        for scheduler in ("synchronous", "threads"):
            with dask.config.set(scheduler=scheduler):
                self.compare(module)
                self.compare(module, strict=True, max_line=12)

    def test_where_there_is_no_dask(self):
        with self.assertRaisesRegex(ImportError, "line_protocol.dask is for Dask"):
            self.imported(None)

    def test_arguments_are_looked_at_by_the_call(self):
        module = self.imported(stand_in())
        for call in (module.read_columns, module.read_parts):
            for paths in (5, None, b"a", {"a"}, iter(["a"]), [5], ["a", b"b"], (None,)):
                with self.subTest(call=call, paths=paths), self.assertRaisesRegex(TypeError, "a path is a str or a path of pathlib, not"):
                    call(paths, 2)
            for parts in ("2", 2.0, None, True):
                with self.subTest(call=call, parts=parts), self.assertRaisesRegex(TypeError, "parts is an int, not"):
                    call("a", parts)
            for parts in (-1, 10**6 + 1):
                with self.subTest(call=call, parts=parts), self.assertRaisesRegex(ValueError, "parts is .* from 0 to 1000000"):
                    call("a", parts)
            with self.assertRaisesRegex(ValueError, "max_line is -1"):
                call("a", 2, max_line=-1)
            with self.assertRaises(TypeError):
                call("a", 2, True)

    def test_files_are_cut_by_the_call(self):
        module = self.imported(stand_in())
        with self.assertRaises(FileNotFoundError):
            module.read_columns(self.folder / "nothing", 2)
        path = self.file(TEXT)
        task = module.read_columns(path, 2)
        path.write_bytes(TEXT[:-1])
        with self.assertRaises(EOFError):
            task.compute()
