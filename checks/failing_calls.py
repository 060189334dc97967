#!/usr/bin/env python3
"""Fails one call to the system in each run of lp_relay and lp_series, by strace, and checks how the run ends.

  checks/failing_calls.py RELAY SERIES [WAY..]

RELAY and SERIES are the built programs. WAY is the number of a way to run a program, from 0 in the order of `ways`. By default all ways are checked.

A way has the arguments, the input, and the files that exist before the run. The script records the calls of a run in each way. For each file and
each kind of call it then fails the first, the second and the last call, by each of four errors. After each run it checks:

- The exit status is 2, or the run ended as if no call had failed. A call that a signal interrupts is made again.
- If the status is 2, the last line of standard error names the program, the file and the error.
- Each file in its place is the old file or the whole new file. Standard output, and a file that --append extends, hold whole lines from the
  beginning of the right output. No batch is missing before another batch, and no batch replaced a file. Other files did not change. Nothing is
  left beside a place, except lines from a pipe, because no other file has these lines.
- The next run, over the files that are left, ends as it should.

In each way the script also checks that a file is on the device before it comes to its place, and that the folder is on the device after that.
"""

import errno
import fcntl
import itertools
import json
import os
import re
import shutil
import subprocess
import sys
import tempfile
from concurrent.futures import ThreadPoolExecutor
from pathlib import Path
from typing import NamedTuple

LINES = b"m a=1i\nx\nm b=2i\nm c=3i\ny\nm d=4i\n"
# Three blocks for a read, with rejected lines in each; a text of more than a megabyte; and lines of nine series.
LONG = b"".join(b"m,t=%d f=%di\n" % (n % 9, n) if n % 1900 else b"bad%d\n" % n for n in range(1, 10000))
LARGE = LONG * 8
SERIES = b"".join(b"m,t=%c f=%di %d\n" % (65 + n % 9, n, n) if n % 1900 else b"bad\n" for n in range(9, 10000))
OLD = b"old\n"
STREAMS = {"0": "standard input", "1": "standard output", "2": "standard error"}
# A message names each of these files.
NAMED = re.compile(r"in$|o$|r$|m$|b-\d$")
BATCH = re.compile(r"b-\d$")
BESIDE = re.compile(r"\.lp_relay-\d+-\d+$")
# A run that goes on after an error can print this notice, or not print it. A run whose notice cannot be written goes on, since it lost no line
# and no count.
NOTICE = re.compile(r".*: (removed .*, which an ended run had left|.*: the new file has another owner or group than the old one: .*)\n")

ERRORS = ("EIO", "ENOSPC", "EAGAIN", "EINTR")
# A run that gets an error from one of these calls ends with status 2.
ENDING = {"read", "pread64", "write", "fsync", "link", "rename"}
# A run makes one of these calls again if a signal interrupts it.
REPEATED = {"read", "pread64", "write", "openat", "fsync", "flock", "link", "rename"}
# A run that gets an error from one of these calls ends with status 2, or does without the call.
OTHERS = {"openat", "statx", "lseek", "flock", "getdents64", "unlink", "fchmod", "readlink", "getcwd", "ioctl", "getrandom"}
# These calls are not failed: a program cannot see that close fails, and the others are about memory and processes.
PASSED = {"close", "mmap", "execve"}


class Wrong(Exception):
    """A description of what is wrong."""


class Way(NamedTuple):
    """A way to run a program: its arguments, the text of its input, and the files that exist before. The input can be a pipe."""

    program: str
    words: str
    text: bytes
    old: dict = {}
    is_piped: bool = False


class Call(NamedTuple):
    """A call of a run: its name, its number among the calls of that name, its file, and the line of strace."""

    name: str
    number: int
    file: str
    shown: str


class Ended(NamedTuple):
    """How a run ended: its exit status, its standard error, and the text and the permissions of each file."""

    status: int
    said: str
    files: dict


def ways():
    """Yields each place for lines with each place for rejected lines, with a file and a pipe as input by turns. Then yields the other ways."""
    outputs = [("", {}), ("-o o", {}), ("-o o", {"o": OLD}), ("--batch-lines 2 -o b-%01d", {}), ("--batch-lines 3 -o b-%01d", {}), ("--check", {})]
    rejected = [("", {}), ("--refused r", {}), ("--refused r --replace", {"r": OLD}), ("--refused r --append", {"r": b"old"})]
    for number, ((output, before), (words, pieces)) in enumerate(itertools.product(outputs, rejected)):
        is_piped = number % 2 != number // 4 % 2
        text = LINES if "batch" in output else LONG
        yield Way("relay", f"{output} {words}{'' if is_piped else ' in'}", text, {**before, **pieces}, is_piped)
    yield Way("relay", "-o o in", LARGE)
    yield Way("relay", "", LONG)
    yield Way("relay", "--check --refused - --summary --faults json in", LONG)
    yield Way("relay", "--batch-lines 2 -o b-%01d in", LINES, {"b-2": OLD})
    yield Way("relay", "-o link --refused r in", LINES, {"d/o": OLD, "d/o.lp_relay-4194305-0": OLD})
    yield Way("relay", "--newline-delimited --whole-lines --range 8.. -o o in", LONG + b"m a=1")
    yield Way("relay", "--cut 3 in", LONG)
    for words in ("in", "--json", "--key in", "--shard 0/2 in", "--prometheus m in"):
        yield Way("series", words, SERIES)
    yield Way("series", "--prometheus m in", SERIES, {"m": OLD})


def input_of(way, room):
    """Opens the input of a run: the file `in`, or a pipe that holds the whole text."""
    if not way.is_piped:
        return open(room / "in", "rb")
    reader, writer = os.pipe()
    fcntl.fcntl(writer, fcntl.F_SETPIPE_SZ, 1 << 18)
    with open(writer, "wb") as pipe:
        pipe.write(way.text)
    return open(reader, "rb")


def files_in(room):
    """Returns the text and the permissions of each file in a folder. A link has the path that it leads to as its text."""
    paths = sorted(path for path in room.rglob("*") if path.is_symlink() or path.is_file())
    return {str(path.relative_to(room)): (bytes(path.readlink()), 0) if path.is_symlink() else (path.read_bytes(), path.stat().st_mode & 0o777)
            for path in paths}


def in_places(files):
    """Returns the files that are not beside a place."""
    return {name: has for name, has in files.items() if not BESIDE.search(name)}


def left_beside(way, ended):
    """Returns the names of the files that a run left beside a place."""
    return {name for name in ended.files if BESIDE.search(name)} - set(way.old)


class Trial:
    """Runs the programs, each run in a folder of its own."""

    def __init__(self, programs):
        self.programs = programs
        self.top = Path(tempfile.mkdtemp()).resolve()
        self.numbers = itertools.count()

    def room(self, way):
        """Makes a folder with the files that exist before a run."""
        room = self.top / str(next(self.numbers))
        (room / "d").mkdir(parents=True)
        (room / "link").symlink_to("d/o")
        for name, text in {"in": way.text, "other": OLD, **way.old}.items():
            (room / name).write_bytes(text)
            (room / name).chmod(0o640)
        return room

    def run(self, way, room, *strace):
        """Runs a program in a folder."""
        words = [*strace, self.programs[way.program], *way.words.split()]
        with input_of(way, room) as came, open(room / "out", "wb") as out, open(room / "err", "wb") as err:
            status = subprocess.run(words, stdin=came, stdout=out, stderr=err, cwd=room, check=False, timeout=120).returncode
        files = files_in(room)
        return Ended(status, files.pop("err")[0].decode(), files)

    def traced(self, way, room, *asked):
        """Runs a program under strace, and returns the lines of the trace too."""
        trace = room.with_suffix(".trace")
        ended = self.run(way, room, "strace", "-qq", "-y", "-s", "24", "-o", trace, *asked)
        return ended, trace.read_text().splitlines()


def file_of(line, room):
    """Returns the file of a call: its name in the folder, `.` for a folder, or the name of a stream. Returns None for a call of the loader."""
    if line.startswith("getrandom"):
        return "random numbers"
    found = re.match(r'\w+\((?:(\d+)<([^>]*)>|(?:AT_FDCWD<[^>]*>, )?"([^"]*)")', line)
    if not found:
        return None
    number, opened, path = found.groups()
    if number in STREAMS:
        return STREAMS[number]
    path = os.path.normpath(room / (opened or path))
    if path.startswith(("/proc/self/fd", "/proc/self/mountinfo")):
        return path
    if path in (str(room), str(room / "d")):
        return "."
    return BESIDE.sub("", path[len(str(room)) + 1:]) if path.startswith(f"{room}/") else None


def calls_of(lines, room):
    """Yields the calls of a run over its files and standard streams."""
    counts = {}
    for line in lines:
        name = line.split("(")[0]
        counts[name] = counts.get(name, 0) + 1
        file = file_of(line, room)
        if file is not None and name not in PASSED:
            yield Call(name, counts[name], file, line)


def chosen_calls(calls):
    """Yields the first, the second and the last call of each name over each file."""
    kinds = {}
    for call in calls:
        kinds.setdefault((call.name, call.file), []).append(call)
    for (name, _), same in kinds.items():
        if name not in ENDING | OTHERS:
            raise Wrong(f"no list of failing_calls.py has this call: {same[0].shown}")
        yield from same if len(same) < 3 else [*same[:2], same[-1]]


def puts(call):
    """Returns whether a call puts a file in its place."""
    return call.name in ("link", "rename") and not BESIDE.search(call.shown.split('"')[3])


def check_synced(way, calls):
    """Checks that each file is on the device before it comes to its place, and its folder after that."""
    synced = [(at, call.file) for at, call in enumerate(calls) if call.name == "fsync"]
    for at, call in enumerate(calls):
        if puts(call):
            if not any(other < at and file == call.file for other, file in synced) or not any(other > at and file == "." for other, file in synced):
                raise Wrong(f"{way.program} {way.words}: {call.file} comes to its place without fsync of the file and of the folder")


def is_front(text, whole, old=b""):
    """Returns whether a text is the old text, or the old text and then whole lines from the beginning of what is right."""
    return text == old or whole.startswith(text) and text.startswith(old) and text.endswith(b"\n")


def is_told(text, whole):
    """Returns whether a text can be the counts of the beginning of the input. With no line of the input, the counts are fewer."""
    counts, most = ([int(number) for number in re.findall(rb"\d+", told)] for told in (text, whole))
    return text.endswith(b"\n") and len(counts) <= len(most) and (len(counts) < len(most) or all(a <= b for a, b in zip(counts, most)))


def check_place(way, clean, name, text):
    """Checks a file in its place, or standard output, after a run that failed."""
    new, old = clean.files.get(name, (b"", 0))[0], way.old.get(name, b"")
    is_stream = name == "out" or name == "r" and "--append" in way.words
    is_count = way.program == "series" and name in ("out", "m")
    if not (text in (old, new) and name != "out" or is_stream and is_front(text, new, old) or is_count and is_told(text, new)):
        raise Wrong(f"{name} has {len(text)} bytes that end with {text[-40:]}")


def check_batches(way, clean, ended, call):
    """Checks that no batch is missing before another batch. If the input is a pipe, the next lines stay beside their place."""
    beside = left_beside(way, ended)
    batches = sorted(name for name in ended.files if BATCH.match(name) and name not in way.old)
    if batches != sorted(name for name in clean.files if BATCH.match(name))[:len(batches)]:
        raise Wrong(f"the batches are {batches}")
    is_of_batch = BATCH.match(call.file) and call.file not in batches and (call.name == "fsync" or puts(call))
    if way.is_piped and is_of_batch and not beside:
        raise Wrong(f"the lines of {call.file} are lost")
    if not beside or call.name == "unlink":
        return
    lines = b"".join(clean.files[name][0] for name in sorted(clean.files) if BATCH.match(name))
    left = b"".join(ended.files[name][0] for name in [*batches, *beside])
    # If the relay cannot look at the input, it takes the input for a pipe.
    if len(beside) > 1 or not (way.is_piped or call.name == "statx") or not left or not lines.startswith(left):
        raise Wrong(f"{beside} is left")


def check_failed(way, clean, ended, call):
    """Checks the files after a run that ended with status 2."""
    gone = {name for name in in_places({**way.old, "in": b"", "other": b"", "out": b"", "link": b""}) if name not in ended.files}
    if gone:
        raise Wrong(f"{gone} is gone")
    for name, (text, mode) in in_places(ended.files).items():
        if name not in ("in", "other", "link"):
            check_place(way, clean, name, text)
        elif (text, mode) != clean.files[name]:
            raise Wrong(f"{name} has changed")
    check_batches(way, clean, ended, call)


def check_message(way, said, call, error):
    """Checks the last line of standard error. An error of another call can come after the error of a call that only looks at a file."""
    last = said.splitlines()[-1] if said else ""
    if "json" in way.words and way.program == "relay":
        last = f"lp_relay: {json.loads(last)['run_error']['text']}"
    number = getattr(errno, error)
    name = f": {call.file}" if NAMED.match(call.file) else ""
    is_exact = call.name in ENDING or call.name == "openat" and "O_CREAT" in call.shown
    why = f"{name}: {os.strerror(number)} (os error {number})"
    if not last.startswith(f"lp_{way.program}: ") or is_exact and not last.endswith(why):
        raise Wrong(f"the message is {last}")


def is_whole(clean, ended):
    """Returns whether a run ended as if no call had failed. It can leave the files of an earlier run."""
    said = [NOTICE.sub("", one.said) for one in (clean, ended)]
    return ended.status == clean.status and said[0] == said[1] and in_places(ended.files) == in_places(clean.files)


def writes_notice(call):
    """Returns whether a call writes a notice."""
    return call.file == "standard error" and ', "lp_relay: removed' in call.shown


def check_run(way, clean, ended, call, error):
    """Checks a run in which a call failed."""
    is_ending = call.name in ENDING and not writes_notice(call) or call.name == "flock" and call.file == "r" and "--append" in way.words
    if is_whole(clean, ended) and (not is_ending or error == "EINTR" or clean.status == 2):
        # EAGAIN of flock says that another run has locked the file, and that run removes it.
        if left_beside(way, ended) and call.name != "unlink" and (call.name, error) != ("flock", "EAGAIN"):
            raise Wrong(f"{left_beside(way, ended)} is left")
        return
    if ended.status != 2 or error == "EINTR" and call.name in REPEATED:
        raise Wrong(f"status {ended.status}, {ended.said[-200:]!r}, {({name: has[0][-20:] for name, has in ended.files.items()})}")
    # If the message itself cannot be written, there is none.
    if clean.status != 2 or (call.name, call.file) != ("write", "standard error"):
        check_message(way, ended.said, call, error)
    check_failed(way, clean, ended, call)


def next_of(way, clean, ended):
    """Returns the status and the files that the next run must give over the files that are left."""
    files = in_places(ended.files)
    rejected = files.get("r", (b"", 0))[0]
    if any(BATCH.match(name) for name in files) or rejected and "--replace" not in way.words and "--append" not in way.words:
        return 2, {**files, "out": (b"", files["out"][1])}
    files = in_places(clean.files)
    if "--append" in way.words:
        added = clean.files["r"][0][len(way.old["r"] + b"\n"):]
        files["r"] = (rejected + b"\n" * (not rejected.endswith(b"\n")) + added, files["r"][1])
    return clean.status, files


def wrong_in(trial, way, clean, call, error):
    """Runs a program with a call that fails, and then once more. Returns what is wrong, or None."""
    room = trial.room(way)
    try:
        ended, lines = trial.traced(way, room, "-e", f"trace={call.name}", "-e", f"inject={call.name}:error={error}:when={call.number}")
        if not any(line.endswith("(INJECTED)") for line in lines):
            raise Wrong("no call failed")
        check_run(way, clean, ended, call, error)
        after, wanted = trial.run(way, room), next_of(way, clean, ended)
        if (after.status, in_places(after.files)) != wanted:
            raise Wrong(f"the next run ends with status {after.status} for {wanted[0]}, {after.said[-200:]!r}")
    except Wrong as wrong:
        return f"{way.program} {way.words}: {call.name} {call.number} of {call.file} fails by {error}: {wrong}"
    finally:
        shutil.rmtree(room)
    return None


def runs_of(trial, way):
    """Returns the runs of a way: each chosen call with each error."""
    room = trial.room(way)
    clean, lines = trial.traced(way, room)
    calls = list(calls_of(lines, room))
    check_synced(way, calls)
    return [(trial, way, clean, call, error) for call in chosen_calls(calls) for error in ERRORS]


def check(trial, chosen):
    """Checks the chosen ways. Returns the number of runs, and what is wrong."""
    with ThreadPoolExecutor(os.cpu_count()) as pool:
        runs = [run for runs in pool.map(lambda way: runs_of(trial, way), chosen) for run in runs]
        return len(runs), [wrong for wrong in pool.map(lambda run: wrong_in(*run), runs) if wrong]


def main(arguments):
    if len(arguments) < 2:
        print(__doc__, file=sys.stderr)
        return 2
    if not shutil.which("strace") or subprocess.run(["strace", "-o", os.devnull, "true"], capture_output=True, check=False).returncode:
        told = '. "$0"; left_out "calls that fail" "there is no strace, or it may not watch, for checks/failing_calls.py"'
        return subprocess.run(["bash", "-c", told, Path(__file__).with_name("left_out.sh")], check=False).returncode
    trial = Trial({name: Path(path).resolve() for name, path in zip(("relay", "series"), arguments)})
    try:
        chosen = [way for number, way in enumerate(ways()) if not arguments[2:] or str(number) in arguments[2:]]
        count, wrong = check(trial, chosen)
    except Wrong as why:
        print(f"failing_calls: {why}")
        return 1
    finally:
        shutil.rmtree(trial.top)
    for text in wrong[:20]:
        print(f"failing_calls: {text}")
    print(f"failing_calls: {count} runs with a call that fails, in {len(chosen)} ways: {len(wrong)} are wrong")
    return int(bool(wrong))


if __name__ == "__main__":
    sys.exit(main(sys.argv[1:]))
