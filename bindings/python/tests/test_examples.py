"""The examples of docs/python.md, and those of the documentation of each call."""

import doctest
import inspect
import re
import unittest
from pathlib import Path

import line_protocol
from line_protocol import checking, frames, items, parts, portable, reading, rebuilding, rows, sources, tables, writing

from shared import pandas

PAGE = Path(__file__).parents[3] / "docs" / "python.md"
NAMES = {name: getattr(line_protocol, name) for name in line_protocol.__all__}
MODULES = [line_protocol, checking, items, parts, portable, reading, rebuilding, rows, sources, tables, writing]


def examples_of(page):
    """The examples of a page, without the section of frames if there is no pandas."""
    text = page.read_text(encoding="utf-8")
    if pandas is None:
        text = re.sub("^## Use frames of pandas$.*?^(?=## )", lambda section: "\n" * section[0].count("\n"), text, flags=re.M | re.S)
    return doctest.DocTestCase(doctest.DocTestParser().get_doctest(text, {}, page.name, str(page), 0))


def load_tests(_, tests, __):
    """The examples are tests."""
    for module in MODULES if pandas is None else [*MODULES, frames]:
        tests.addTests(doctest.DocTestSuite(module, extraglobs={**NAMES}))
    tests.addTest(examples_of(PAGE))
    return tests


class Documentation(unittest.TestCase):
    def test_each_call_has_an_example(self):
        for name in line_protocol.__all__:
            one = getattr(line_protocol, name)
            if inspect.isclass(one) or inspect.isfunction(one):
                with self.subTest(name=name):
                    self.assertIn(">>> ", one.__doc__ or "")

    def test_the_page_names_each_call(self):
        page = PAGE.read_text(encoding="utf-8")
        for name in line_protocol.__all__:
            if name not in ("Source", "Value", "Side", "FaultKind", "Servers", "Errors"):
                with self.subTest(name=name):
                    self.assertRegex(page, rf"[`.]{name}\b|\b{name}\(")
