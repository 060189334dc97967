#!/usr/bin/env python3
"""Times the package over files, and another build of it beside it, in turns: MB of a file for each second of the processor, the best
round of each.

    PYTHONPATH=FOLDER bindings/python/bench.py FILE..                  times the package of a folder
    PYTHONPATH=FOLDER BESIDE=OTHER bindings/python/bench.py FILE..     and that of another folder, and how many times as fast the first is
    WAITS=1 PYTHONPATH=FOLDER .. bindings/python/bench.py FILE..       tells how long another thread waits for Python's lock meanwhile

ROUNDS is how many rounds there are, 5 by default. Each round of each package is a process of its own. With WAITS a thread beside the call sleeps
a millisecond at a time: what is told are the milliseconds that the call takes, those by which all these sleeps are longer, and by which the
longest is; the least of all rounds.
"""

import os
import subprocess
import sys
import threading
import time
from importlib.util import find_spec
from pathlib import Path


def calls():
    """What is timed, as far as the package has it, each with what it takes of a file."""
    import line_protocol as package

    def lines_of(path):
        return [item for item in package.parse(path.read_bytes()) if isinstance(item, package.Line)]

    def count(items):
        return sum(1 for _ in items)

    yield "parse", Path.read_bytes, lambda data: count(package.parse(data))
    yield "write", lines_of, lambda lines: sum(len(package.write(line)) for line in lines)
    yield "rebuild", Path.read_bytes, lambda data: len(package.rebuild(data).batch)
    if hasattr(package, "write_many"):
        yield "parse a path", lambda path: path, lambda path: count(package.parse(path))
        yield "write_many", lines_of, package.write_many
    if hasattr(package, "columns"):
        package.columns("")  # imports NumPy
        yield "columns", Path.read_bytes, package.columns
    if hasattr(package, "write_columns"):
        yield "write_columns", lambda path: package.columns(path.read_bytes()), package.write_columns
    if hasattr(package, "to_frame") and find_spec("pandas"):
        package.to_frame("")  # imports pandas
        yield "to_frame", Path.read_bytes, package.to_frame
        yield "from_frame", lambda path: package.to_frame(path.read_bytes()), lambda frames: [
            package.from_frame(frame, measurement) for measurement, frame in frames.items()]


def waits_beside(call, given):
    """The milliseconds that a call takes, those that a thread beside it waits for the lock, and the longest wait."""
    is_over, waits, nap = threading.Event(), [], 0.001

    def sleep():
        while not is_over.is_set():
            start = time.perf_counter()
            time.sleep(nap)
            waits.append(time.perf_counter() - start - nap)

    sleeper = threading.Thread(target=sleep)
    sleeper.start()
    start = time.perf_counter()
    call(given)
    taken = time.perf_counter() - start
    is_over.set()
    sleeper.join()
    return [1e3 * seconds for seconds in (taken, sum(waits), max(waits))]


def one_round(files):
    """Prints a line for each call over each file."""
    for name, prepare, call in calls():
        for file in map(Path, files):
            given = prepare(file)
            if os.environ.get("WAITS"):
                for what, figure in zip(("ms", "ms of waits", "ms of the longest wait"), waits_beside(call, given)):
                    print(f"{name}: {what}", file.name, -figure, sep="\t")
                continue
            start = time.process_time()
            call(given)
            print(name, file.name, file.stat().st_size / 1e6 / (time.process_time() - start), sep="\t")


def take_turn(folder, files, best):
    """A round of the package of a folder; the best figures are kept, which are the greatest: those of waits are less than 0."""
    run = subprocess.run(
        [sys.executable, "-B", __file__, "--round", *files], env={**os.environ, "PYTHONPATH": folder}, stdout=subprocess.PIPE,
        universal_newlines=True, check=True)
    for row in run.stdout.splitlines():
        name, file, figure = row.split("\t")
        best[name, file] = max(best.get((name, file), float("-inf")), float(figure))


def main():
    files = sys.argv[1:]
    if files[:1] == ["--round"]:
        one_round(files[1:])
        return
    folders = [folder for folder in (os.environ.get("PYTHONPATH", "."), os.environ.get("BESIDE")) if folder]
    figures = [{} for _ in folders]
    for _ in range(int(os.environ.get("ROUNDS", "5"))):
        for folder, best in zip(folders, figures):
            take_turn(folder, files, best)
    for name, file in figures[0]:
        told = [best[name, file] for best in figures if (name, file) in best]
        times = f"{told[0] / told[1]:.1f} times" if len(told) > 1 else ""
        print(name, file, *(f"{abs(figure):.1f}" for figure in told), times, sep="\t")


if __name__ == "__main__":
    main()
