#!/usr/bin/env python3
"""Times the Python package over files, and two other packages that write line protocol, in rows as driver.c gives them.

    bindings/python/build_backend.py FOLDER && PYTHONPATH=FOLDER bench/python.py FILE..

Each call runs once after a first run; a call that takes more than a second runs once in all. What a call takes is made before it is
timed: a writer is given points that are there: lines, columns, or the dictionaries that the other packages take. A speed is that of the
file's bytes. The answer is how many items, or how many bytes, a call gave; for columns and frames how many measurements. What is not
installed, or refuses what the file says, has no row.
"""

import sys
import time
from importlib.util import find_spec
from pathlib import Path
from typing import Any, Callable, Dict, Iterator, List, Tuple

import line_protocol

Call = Tuple[str, Callable[[], Any], Callable[[Any], int]]
"""The name of a call, what makes that which it takes, and the call, which gives a number."""


def point(line: line_protocol.Line) -> Dict[str, Any]:
    """A line as the other packages take it."""
    return {"measurement": line.measurement, "tags": dict(line.tags), "fields": dict(line.fields), "time": line.timestamp}


def own_calls(data: bytes, lines: Callable[[], List[line_protocol.Line]]) -> Iterator[Call]:
    """The calls of this package."""
    yield "parse", lambda: data, lambda data: sum(1 for _ in line_protocol.parse(data))
    yield "columns", lambda: data, lambda data: len(line_protocol.columns(data).tables)
    yield "rebuild", lambda: data, lambda data: len(line_protocol.rebuild(data).batch)
    yield "write_many", lines, lambda lines: len(line_protocol.write_many(lines))
    yield "write_columns", lambda: line_protocol.columns(data), lambda columns: len(line_protocol.write_columns(columns))
    if find_spec("pandas"):
        yield "to_frame", lambda: data, lambda data: len(line_protocol.to_frame(data))


def other_calls(lines: Callable[[], List[line_protocol.Line]]) -> Iterator[Call]:
    """The calls of the other packages that are there, as they are told to be called for many points."""
    if find_spec("influxdb"):
        from influxdb.line_protocol import make_lines

        yield "influxdb", lambda: {"points": [point(line) for line in lines()]}, lambda points: len(make_lines(points).encode())
    if find_spec("aioinflux"):
        from aioinflux.serialization import serialize

        yield "aioinflux", lambda: [point(line) for line in lines()], lambda points: len(serialize(points))


def timed(call: Callable[[Any], int], given: Any) -> Tuple[float, int]:
    """The seconds of the processor that one run of a call takes, and its answer."""
    start = time.process_time()
    answer = call(given)
    return time.process_time() - start, answer


def warmed(call: Callable[[Any], int], given: Any) -> Tuple[float, int]:
    """The same after a first run, unless that took long."""
    first = timed(call, given)
    return first if first[0] > 1 else timed(call, given)


def main() -> None:
    for path in map(Path, sys.argv[1:]):
        data = path.read_bytes()

        def lines() -> List[line_protocol.Line]:
            return [item for item in line_protocol.parse(data) if isinstance(item, line_protocol.Line)]

        for name, prepare, call in [*own_calls(data, lines), *other_calls(lines)]:
            try:
                seconds, answer = warmed(call, prepare())
            except ValueError:
                continue  # what has no spelling, such as a float that is infinite
            print(f"python {name}", path.name, f"{len(data) / 1e6 / seconds:.1f}", answer, sep="\t")


if __name__ == "__main__":
    main()
