#!/usr/bin/env python3
"""Times the programs lp_rebuild and lp_relay over a long input, and tells how much memory each took at most. Or times lp_series.

    bench/programs.py [--size BYTES] [--rounds N] PROGRAM..
    bench/programs.py --series LP_SERIES [--size BYTES] [--rounds N] [COMMAND..]

The input is the corpus `telegraf` of 16 MB, again and again. It comes from a file, and the output goes to /dev/null. The
programs take turns, and the best round of each counts.

With --series the inputs are `telegraf`, `iot` and `short`, and a figure is MB of the input for each second of processor, of all processes
that a command starts. It is told of lp_series, of what Unix has for lines whose first word is their series, and of other commands of the
shell, which read standard input.
"""

import argparse
import os
import subprocess
import sys
import tempfile
import time
from pathlib import Path

CORPUS = 16_000_000
"""The size of the corpus that is repeated."""


CORPORA = ("telegraf", "iot", "short")
"""Those over which lp_series is timed."""

SERIES = ("--stats", "--key", "--shard 0/4")
"""The forms of lp_series that are timed."""

UNIX = ("awk '{ print $1 }' | sort | uniq -c", "awk '{ n[$1]++ } END { for (k in n) print n[k], k }'", "awk '{ print $1 \"\\t\" $0 }'")
"""What counts the lines of each first word, or writes it before each line."""


def write_input(path: Path, size: int, corpus: str = "telegraf") -> int:
    """Writes the input, and gives its length."""
    made = [sys.executable, Path(__file__).with_name("corpora.py"), "--seed", "bench", "--size", str(CORPUS)]
    subprocess.run([*made, "--out", path.parent, corpus], check=True, stdout=subprocess.DEVNULL)
    lines = (path.parent / f"{corpus}.lp").read_bytes()
    with path.open("wb") as file:
        while file.tell() < size:
            file.write(lines)
        return file.tell()


def memory(pid: int) -> int:
    """How many KiB a process has taken at most so far, and 0 where it has ended. `wait4` would count the parent's too."""
    lines = Path(f"/proc/{pid}/status").read_text().splitlines()
    return max((int(line.split()[1]) for line in lines if line.startswith("VmHWM:")), default=0)


def run(program: list[str], path: Path) -> tuple[float, int]:
    """The seconds that a run takes, and how many KiB of memory it took at most, seen each hundredth of a second."""
    most = 0
    with path.open("rb") as text, Path(os.devnull).open("wb") as nowhere:
        start = time.monotonic()
        child = subprocess.Popen(program, stdin=text, stdout=nowhere, stderr=nowhere)
        while child.poll() is None:
            most = max(most, memory(child.pid))
            time.sleep(0.01)
    if child.returncode != 0:
        sys.exit(f"{' '.join(program)}: status {child.returncode}")
    return time.monotonic() - start, most


def processor(command: str, path: Path) -> float:
    """The seconds of processors that a command of the shell takes, with all that it starts. Names are compared by bytes."""
    with path.open("rb") as text, Path(os.devnull).open("wb") as nowhere:
        by_bytes = {**os.environ, "LC_ALL": "C"}
        child = subprocess.Popen(["sh", "-c", command], stdin=text, stdout=nowhere, stderr=nowhere, env=by_bytes)
        _, status, used = os.wait4(child.pid, 0)
    child.returncode = os.waitstatus_to_exitcode(status)
    if child.returncode != 0:
        sys.exit(f"{command}: status {child.returncode}")
    return used.ru_utime + used.ru_stime


def time_series(asked: argparse.Namespace, folder: Path) -> None:
    """Times lp_series and the other commands over each corpus, and prints a table."""
    commands = [*(f"{asked.series} {form}" for form in SERIES), *UNIX, *asked.programs]
    paths = [folder / f"{corpus}.input" for corpus in CORPORA]
    sizes = [write_input(path, asked.size, corpus) for path, corpus in zip(paths, CORPORA)]
    rounds = [[[processor(command, path) for path in paths] for command in commands] for _ in range(asked.rounds)]
    print(f"| | {' | '.join(CORPORA)} |\n|---{'|---' * len(CORPORA)}|")
    for command, results in zip(commands, zip(*rounds)):
        best = [f"{size / 1e6 / min(seconds):.0f}" for size, seconds in zip(sizes, zip(*results))]
        print(f"| {command} | {' | '.join(best)} |")
    for form, path in ((form, path) for form in SERIES for path in paths):
        print(f"{form} of {path.stem}: {run([asked.series, *form.split()], path)[1] / 1024:.1f} MiB at most")


def time_programs(asked: argparse.Namespace, folder: Path) -> None:
    """Times programs that are given no arguments."""
    path = folder / "input"
    size = write_input(path, asked.size)
    rounds = [[run([program], path) for program in asked.programs] for _ in range(asked.rounds)]
    for program, results in zip(asked.programs, zip(*rounds)):
        seconds, memory = min(result[0] for result in results), max(result[1] for result in results)
        print(f"{program}: {size / 1e6 / seconds:.0f} MB/s over {size / 1e6:.0f} MB, {memory / 1024:.1f} MiB at most")


def main() -> None:
    words = argparse.ArgumentParser(description=__doc__, formatter_class=argparse.RawDescriptionHelpFormatter)
    words.add_argument("--size", type=int, default=1_000_000_000)
    words.add_argument("--rounds", type=int, default=3)
    words.add_argument("--series", metavar="LP_SERIES")
    words.add_argument("programs", nargs="*", metavar="PROGRAM")
    asked = words.parse_args()
    if not asked.series and not asked.programs:
        words.error("no program is named")
    with tempfile.TemporaryDirectory() as folder:
        (time_series if asked.series else time_programs)(asked, Path(folder))


if __name__ == "__main__":
    main()
