"""Requests for memory: none is made where a text is read, and each other is refused in turn. LP_REFUSED_LIBRARY names a folder with
the package over heap.c with LP_REFUSE."""

import os
import subprocess
import sys
import unittest

PROGRAM = r"""
import ctypes
import line_protocol
from line_protocol import _fast

refused, requests = (ctypes.c_long.in_dll(ctypes.CDLL(_fast.__file__), name) for name in ("lp_refused", "lp_requests"))
line = line_protocol.Line("m", [("t", "a b")], [("f", 1)])
LONG = "m" + "".join(f",t{number}=a" for number in range(20)) + " f=1"
builder = line_protocol.Builder().measurement("a").field("f", 1).close_line().measurement("b").field("g", 2)
refused.value, requests.value = 0, 0
assert len(list(line_protocol.parse('a\\ b,h\\ =x f=1i\nm f=99999999999999999999i\nlast f=1'))) == 3 and requests.value == 0
for call in (
    lambda: line_protocol.write(line),
    lambda: line_protocol.write_columns(line_protocol.columns("m,t=a f=1i\nm,t=b f=2i", use_numpy=False)),
    lambda: line_protocol.base(line_protocol.Line("m", [("t", "a b"), ("s", "c")])),
    lambda: line_protocol.key(line),
    lambda: line_protocol.key(line_protocol.Line("m", [(f"t{99 - number}", "a") for number in range(40)])),
    lambda: line_protocol.is_base_safe(line_protocol.Line("m", 9 * [("t", "a")])),
    lambda: line_protocol.rebuild('m f=1i\nm f'),
    lambda: line_protocol.broken_clauses(LONG),
    lambda: line_protocol.verdicts(f"m f=1\n{LONG}\n{LONG}\n"),
    lambda: builder.close_line().measurement("b").field("g", 2),
):
    refused.value, requests.value = -1, 0
    call()
    count = requests.value
    assert count
    for at in range(count):
        refused.value, requests.value = at, 0
        try:
            call()
        except MemoryError:
            continue
        raise AssertionError(f"request {at} was refused, and nothing was said")
refused.value = -1
assert builder.close_line().build() == "a f=1i\nb g=2i\nb g=2i\n", builder.build()
print("refused")
"""


class Memory(unittest.TestCase):
    def test_each_request_refused_in_turn(self):
        library = os.environ.get("LP_REFUSED_LIBRARY")
        if not library:
            self.skipTest("LP_REFUSED_LIBRARY names no folder")
        said = subprocess.run(
            [sys.executable, "-B", "-c", PROGRAM], env={**os.environ, "PYTHONPATH": library},
            capture_output=True, text=True, check=False)
        self.assertEqual((said.returncode, said.stdout), (0, "refused\n"), said.stderr)
