"""Each request of Python for memory is refused in turn: a call then raises MemoryError, and nothing is lost or broken. (Those of the
library are refused by test_memory.py.)"""

import subprocess
import sys
import unittest

try:
    import _testcapi
except ImportError:
    _testcapi = None

PROGRAM = r"""
import sys
import _testcapi
import line_protocol
from line_protocol import *

TEXT = 'm,t=a\\ b,k=v f=0.10,s="x\\"y",u=1u,b=t,i=5i 5\nwrong\nm,k=w f=1e400,g=0.1234567890123456789\nn f=1i\nm f="x",n=1\n'
LONG = TEXT + "m " + ",".join(f"f{i}={i}" for i in range(40)) + "\n" + TEXT * 3 + "# " + "c" * 5000
PARTS = [LONG[:100].encode(), LONG[100:]]
BAD = [b"m f=1i\nm \xff\nmuch f=1i\n", b"m f=2i"]
LINES = [item for item in parse(LONG) if isinstance(item, Line)]
FIELDS = Line("m", [("t", "v")], [("f", 0.1), ("g", FloatText("1.50")), ("u", Unsigned(7)), ("s", "x"), ("b", True)], 5)
TABLES = columns(LONG.replace("1e400", "1e4"), use_numpy=False)
REFUSED = Line("m", [(f"t{i}", "v") for i in range(20)] + [("user", "guest\npayments")], [("f", 1)])
REFUSED_ROWS = Table(Column([1, 2]), {"t": Column(["a", "b\t"])}, {"f": Column([1, 2])})


def refused_by(call):
    # What is said of a name that is not admitted.
    try:
        call()
    except NotAdmitted as raised:
        return raised.part, raised.key, raised.value, raised.row, raised.table


CALLS = {
    "parse": lambda: len(list(parse(LONG))),
    "parse parts": lambda: len(list(parse(iter(PARTS)))),
    "parse bad": lambda: len(list(parse(iter(BAD), max_line=8))),
    "columns": lambda: len(columns(LONG, use_numpy=False).tables),
    "columns and series": lambda: columns(LONG, use_numpy=False, series=True).keys,
    "part_ends": lambda: line_protocol._fast.part_ends(iter([LONG.encode(), LONG.encode()]), 2 * len(LONG), 5, False),
    "split": lambda: len(list(split(TEXT))),
    "write": lambda: len(write(FIELDS)),
    "write_many": lambda: len(line_protocol._fast.write_many(LINES, False)),
    "write_columns": lambda: len(write_columns(TABLES)),
    "refused names": lambda: refused_by(lambda: line_protocol._fast.write(REFUSED, False)),
    "refused rows": lambda: refused_by(lambda: write_columns({"m": TABLES.tables["n"], "n": REFUSED_ROWS})),
    "show": lambda: len(show(FIELDS)),
    "base": lambda: len(base(FIELDS)),
    "key": lambda: len(key(FIELDS)),
    "is_admitted": lambda: is_admitted(FIELDS),
    "rebuild": lambda: rebuild(TEXT).carried,
    "verdicts": lambda: verdicts(LONG, "influx1"),
    "verdict": lambda: broken_clauses("m f=1u,g=1e3"),
}

def all_items(source):
    # The items of a source, of which each that memory is refused for is asked for again.
    items, found = parse(source), []
    while True:
        try:
            item = next(items)
        except MemoryError:
            _testcapi.remove_mem_hooks()
        except StopIteration:
            return found
        else:
            found.append(item)


CALLS["each item"] = lambda: len(all_items(LONG))
# In these, functions of Python call others. Python 3.11 loses the error itself if memory for such a call is refused.
IN_PYTHON = [CALLS["refused names"], CALLS["refused rows"]]
call = CALLS[sys.argv[1]]
wanted = call()
refused = at = answered = 0
while answered < 60:  # of which none had a request that was refused
    at += 1
    _testcapi.set_nomemory(at, at + int(sys.argv[2]))
    try:
        found = call()
    except (MemoryError, SystemError) as raised:
        _testcapi.remove_mem_hooks()
        if isinstance(raised, SystemError) and (call not in IN_PYTHON or "built-in" in str(raised)):
            raise AssertionError(f"request {at}: {raised}")
        refused += 1
        answered = 0
        continue
    finally:
        _testcapi.remove_mem_hooks()
    if found != wanted:
        raise AssertionError(f"request {at} was refused, and {found} came in place of {wanted}")
    answered += 1
if call() != wanted:
    raise AssertionError("a later call gives another answer")
print("refused", refused)
"""


@unittest.skipIf(_testcapi is None or not hasattr(_testcapi, "set_nomemory"), "Python has no module that refuses memory")
class Refusals(unittest.TestCase):
    def test_each_request_refused_in_turn(self):
        calls = ["parse", "parse parts", "parse bad", "columns", "columns and series", "part_ends", "split", "write", "write_many",
                 "write_columns", "refused names", "refused rows", "show", "base", "key", "is_admitted", "rebuild", "verdicts",
                 "verdict", "each item"]
        for name in calls:
            with self.subTest(call=name):
                said = subprocess.run(
                    [sys.executable, "-B", "-X", "faulthandler", "-c", PROGRAM, name, "1"], capture_output=True, text=True, check=False)
                self.assertEqual(said.returncode, 0, said.stderr[-2000:])
                self.assertRegex(said.stdout, "^refused [1-9]")
