#!/usr/bin/env python3
"""Runs the built programs where a row of checks/runs cannot: with pipes that nothing reads or that pause, on a terminal, in little memory, beside
other processes, under strace, and over texts that are made.

    checks/program_cases.py [--only NAME,..] REBUILD RELAY SERIES

Each case is a function, whose first sentence says what must be; --only runs the cases of these names. A case has a folder of its own, and four run at
a time. Status 1: a case saw something else. If EMULATED is set, as where qemu runs the programs, the cases that need the memory or the speed of
this processor are left out.
"""

import contextlib
import fcntl
import functools
import json
import os
import pty
import re
import select
import shutil
import stat
import subprocess
import sys
import tempfile
import threading
import time
from concurrent.futures import ThreadPoolExecutor
from pathlib import Path
from typing import NamedTuple

from documents import left_out

TOP = Path(__file__).resolve().parent.parent
X = b"A generic parsing error occurred: TakeWhile1"
OPEN = b"No fields were provided"
NONE = b"No such file or directory (os error 2)"
LINE = b"m a=1i\n"
IS_EMULATED = "EMULATED" in os.environ
CASES = []


def case(function):
    """A case that also runs under an emulator."""
    CASES.append(function)
    return function


def native(function):
    """A case that this processor alone runs."""
    return function if IS_EMULATED else case(function)


class Wrong(Exception):
    """What differs, in words."""


class Done(NamedTuple):
    """How a run ended. A status of 141 is also that of a program that the signal of a broken pipe ended."""

    status: int
    out: bytes = b""
    err: bytes = b""


def shown(value):
    text = repr(value)
    return text if len(text) < 1500 else f"{text[:700]} .. {text[-700:]}"


def same(what, has, wanted):
    """Ends the case if these differ."""
    if has != wanted:
        raise Wrong(f"{what}: should be\n    {shown(wanted)}\n  and is\n    {shown(has)}")


def refused(message, name="lp_relay", out=b""):
    """How a run ends that says this alone."""
    return Done(2, out, f"{name}: {message}\n".encode())


@functools.cache
def can_trace():
    """Whether strace may watch. If not, that is said once."""
    can = bool(shutil.which("strace")) and subprocess.run(["strace", "-o", "/dev/null", "true"], stderr=subprocess.DEVNULL).returncode == 0
    return can or left_out("calls of the programs by strace", "there is no strace, or it may not watch, for checks/program_cases.py")


class Room:
    """A folder, and the programs."""

    def __init__(self, programs, folder):
        self.rebuild, self.relay, self.series = programs
        self.path = folder

    def write(self, name, text):
        (self.path / name).write_bytes(text)

    def read(self, name):
        return (self.path / name).read_bytes()

    def names(self):
        return sorted(path.name for path in self.path.iterdir())

    def beside(self, name="out"):
        """The files beside a place."""
        return [found for found in self.names() if found.startswith(f"{name}.lp_relay-")]

    def run(self, words, text=b"", program=None, prefix=(), setup="", redirect="", **more):
        """Runs a program, which is lp_relay if none is named, after commands of a shell and with redirections."""
        words = words.split() if isinstance(words, str) else words
        command = [*prefix, program or self.relay, *words]
        if setup or redirect:
            command = ["sh", "-c", f'{setup} exec "$@" {redirect}', "sh", *command]
        done = subprocess.run(command, **({"input": text} if "stdin" not in more else {}), cwd=self.path, check=False,
                              **{"stdout": subprocess.PIPE, "stderr": subprocess.PIPE, **more})
        return Done(done.returncode if done.returncode >= 0 else 128 - done.returncode, done.stdout or b"", done.stderr or b"")

    def unread(self, words, text=b"", program=None, stream="stdout", **more):
        """The same, where nothing reads one of its outputs."""
        reader, writer = os.pipe()
        os.close(reader)
        try:
            return self.run(words, text, program, **{stream: writer}, **more)
        finally:
            os.close(writer)

    def begin(self, words, program=None, **more):
        """Begins a run whose standard input is a pipe."""
        return subprocess.Popen([program or self.relay, *words.split()], cwd=self.path, stdin=subprocess.PIPE,
                                **{"stdout": subprocess.PIPE, "stderr": subprocess.PIPE, **more})

    def begin_beside(self, words):
        """The same, once there is a file beside its place."""
        process = self.begin(words)
        wait_for(lambda: any(f"-{process.pid}-" in name for name in self.beside()))
        return process

    def traced(self, words, calls, program=None, options=(), **more):
        """Runs a program under strace, and returns how it ended and the calls that strace wrote."""
        done = self.run(words, program=program, prefix=["strace", "-qq", "-o", self.path.parent / "trace", "-e", f"trace={calls}", *options], **more)
        return done, (self.path.parent / "trace").read_text()


def ended(process, text=b""):
    """How a run ends that is given this text at last."""
    out, err = process.communicate(text)
    return Done(process.returncode, out or b"", err or b"")


def wait_for(holds, seconds=20):
    """Waits until something holds."""
    end = time.monotonic() + seconds
    while not holds():
        if time.monotonic() > end:
            raise Wrong("what the case waits for does not come")
        time.sleep(0.02)


def given_in_parts(process, parts, pause):
    """Writes parts to a process, with a pause after each."""
    for part in parts:
        process.stdin.write(part)
        process.stdin.flush()
        time.sleep(pause)


def fault_lines(word, numbers, text=X):
    return b"".join(b"%s %d: %s\n" % (word, number, text) for number in numbers)


# What each program says of itself.
@case
def helps(room):
    """--help all prints the usage of docs/OPERATING.md, a line for each option, and all of its text; --help at most 24 lines of 80 columns,
    with the options that tables/options.txt marks; -h prints the same."""
    usage = re.search(r"^usage: lp_relay .*?\n(?=```$)", (TOP / "docs/OPERATING.md").read_text(), re.M | re.S)[0].encode()
    done, short = room.run("--help all"), room.run("--help")
    same("the status and the messages", (done.status, done.err, short.status, short.err), (0, b"", 0, b""))
    same("the beginning of the help", done.out[:len(usage)], usage)
    same("the end", done.out.split(b"Exit status")[1].split()[-5:], b"if nothing reads the output.".split())
    records = re.findall(r"^option: (\S+).*\n((?:.+\n)*)", (TOP / "tables/options.txt").read_text(), re.M)
    for option, fields in records:
        head = re.compile(rf"^  {option}( [A-Z.]+| strict)?(, -[a-z])?(  |$)".encode(), re.M)
        if not head.search(done.out):
            raise Wrong(f"--help all does not say what {option} does")
        same(f"whether --help has {option}", bool(head.search(short.out)), "\noften: yes\n" in f"\n{fields}")
    lines = short.out.splitlines()
    same("whether the short help fits on a screen", (len(lines) <= 24, max(map(len, lines)) <= 80), (True, True))
    same("the last line of the short help", lines[-1][-34:], b"all options, `man lp_relay` explains them."[-34:])
    same("what -h prints", (room.run("-h"), room.run("-h all")), (short, done))
    series = room.run("--help", program=room.series)
    same("the end of lp_series", series.out.split()[-5:], b"if nothing reads the output.".split())
    same("what -h of lp_series prints", room.run("-h", program=room.series), Done(0, series.out))


# Pipes.
@case
def unread_outputs(room):
    """If nothing reads the output, lp_relay and lp_series end with status 141 and say nothing; lp_rebuild ends with 2, and says it."""
    long = LINE * 100000
    for words in ("", "--cut 2", "--help", "-h", "--help all", "--version"):
        same(f"lp_relay {words}", room.unread(words, long), Done(141))
    room.write("out", b"old\n")
    same("if nothing reads standard error", room.unread("-o out", b"m b=2i\nx\n", stream="stderr"), Done(141))
    same("the files", (room.names(), room.read("out")), (["out"], b"old\n"))
    same("lp_rebuild", room.unread("", long, room.rebuild), refused("cannot write the output", "lp_rebuild"))
    many = b"".join(b"m,t=%d v=1i\n" % number for number in range(200000))
    for words in ("", "--json", "--key", "--shard 0/1", "--max-series 7"):
        same(f"lp_series {words}", room.unread(words, many, room.series), Done(141))


@case
def refused_lines_to_pipes(room):
    """Rejected lines come out of a pipe or a FIFO as they are rejected, whether or not there is --append or --replace."""
    for option in ("", "--append", "--replace"):
        reader, writer = os.pipe()
        done = room.run(f"{option} --refused /dev/fd/{writer}", b"m b=2i\nx\n", pass_fds=[writer])
        os.close(writer)
        same(f"the run with {option}", done, Done(1, b"m b=2i\n", fault_lines(b"item", [2])))
        same(f"the pieces with {option}", os.read(reader, 9), b"x\n")
        os.close(reader)
    os.mkfifo(room.path / "pieces")
    with room.begin("--check --refused pieces") as process, open(room.path / "pieces", "rb", buffering=0) as pieces:
        given_in_parts(process, [b"x\n"], 0)
        same("whether a piece comes while the relay goes on", bool(select.select([pieces], [], [], 10)[0]) and pieces.read(9), b"x\n")
        same("the end", ended(process), Done(1, b"", fault_lines(b"item", [1])))


@native
def parts_that_are_told_apart(room):
    """A packed input is refused, and a byte order mark is told, by however few bytes the first read gives; other texts are relayed."""
    packed = b"\x1f\x8b\x08\x00\x00\x00\x00\x00\x00\x03" + LINE
    mark = "the input begins with a byte order mark, which is part of its first line"
    wanted = {packed: refused("cannot read the input: the input is gzip: use zcat"),
              b"\x28\xb5\x2f\xfd\x04\x58\n": refused("cannot read the input: the input is zstd: use zstdcat"),
              b"\xef\xbb\xbfm c=3i\nx\n": Done(1, b"\xef\xbb\xbfm c=3i\n", f"lp_relay: {mark}\n".encode() + fault_lines(b"item", [2]))}
    tried = [(text, at, done) for text, done in wanted.items() for at in (1, 2, 3)]
    tried += [(text, 1, Done(0, text)) for text in (b"\x1f a=1i\n", b"\x28 a=1i\n", b"\x28\x28 a=1i\n", LINE)]
    for text, at, done in tried:
        process = room.begin("")
        given_in_parts(process, [text[:at]], 0.3)
        same(f"{text!r}, of which {at} bytes come first", ended(process, text[at:]), done)


@case
def pauses(room):
    """A line that pauses in a pipe is relayed whole, and by --now has the time of the read with which it ended."""
    process = room.begin("--newline-delimited --whole-lines --summary")
    given_in_parts(process, [b"m a=", b"1i\nm b", b"=2i", b"\nm c=3"], 0.1)
    same("whole lines", ended(process), Done(0, b"m a=1i\nm b=2i\n", b"14 bytes, 2 lines, 2 items: 2 carried, 0 refused\n"))
    start = time.time_ns()
    process = room.begin("--verbatim --now")
    given_in_parts(process, [b"m a=1i\nm b=2i 7\nx\nm c"], 1)
    done = ended(process, b"=3i\ny\nm d=4i")
    found = re.fullmatch(rb"m a=1i (\d+)\nm b=2i 7\nm c=3i (\d+)\nm d=4i (\d+)\n", done.out)
    same("--now", (done.status, done.err, bool(found)), (1, fault_lines(b"item", [3, 5]), True))
    first, second, third = map(int, found.groups())
    same(f"the order of the times {found.groups()}, from {start}", start <= first < second - 200000000 < second <= third <= time.time_ns(), True)
    same("whether a time is no whole number of milliseconds", any(told % 1000000 for told in (first, second, third)), True)


@native
def clock_that_steps_back(room):
    """By --now times do not go back if the clock of the system does."""
    if not shutil.which("cc"):
        return left_out("a clock that steps back", "there is no cc, for checks/program_cases.py")
    room.write("clock.c", b"#include <time.h>\nint clock_gettime(clockid_t id, struct timespec *now) { static int looks; (void)id;"
               b" now->tv_nsec = 0; now->tv_sec = ++looks % 3 ? 1000 + looks : 1000 - looks; return 0; }\n")
    subprocess.run(["cc", "-shared", "-fPIC", "-o", "clock.so", "clock.c"], cwd=room.path, check=True)
    done = room.run("--now", LINE * 100000, env={**os.environ, "LD_PRELOAD": str(room.path / "clock.so")})
    times = [int(line.split()[2]) for line in done.out.splitlines()]
    same("the lines, their order, and whether there are some times", (len(times), times, len(set(times)) > 3), (100000, sorted(times), True))


# What a relay reads of files.
@case
def whole_lines(room):
    """With --whole-lines no byte after the last newline of a file or of a pipe is read, wherever the blocks end in which it is read."""
    texts = [("", b"", b"", b""), ("", LINE[:-1], b"", b""), ("", b"\n", b"", b""), ("", b"\n\n# c\n\n# m a=1i", b"", b""),
             ("", LINE, LINE, b""), ("", LINE + b"\n\n x", LINE, b""), ("--crlf", b"m a=1i\r\nm b=2i\r", LINE, b""),
             ("", b'm s="x\ny"', b"", fault_lines(b"item", [1], OPEN)), ("", b"\xef\xbb\xbfm a=1i", b"", b"")]
    for length in (1, 65528, 65529, 65530, 65535, 65536, 65537, 131065, 131071, 131072, 131073, 200000):
        lines = LINE + b"m,t=%s a=1i\nm c=3i\n" % (b"x" * length)
        texts += [("", LINE + b"x" * length, LINE, b""), ("", lines + b"m d=4", lines, b"")]
    for words, text, out, err in texts:
        words, wanted = f"--newline-delimited --whole-lines {words}", Done(1 if err else 0, out, err)
        room.write("ends", text)
        same(f"a file of {len(text)} bytes, {text[:30]!r}", room.run(f"{words} ends"), wanted)
        same(f"a pipe of {len(text)} bytes, {text[:30]!r}", room.run(words, text), wanted)
        same(f"standard input of {len(text)} bytes, {text[:30]!r}", room.run(words, redirect="<ends"), wanted)


@case
def growing_file(room):
    """Relays of a file that grows, each from where the last one ended by its counts, give all of its whole lines once."""
    room.write("all", b"")
    at, lines = 0, b""
    for text in (b"m a=1i\nm b", b"=2i", b"\n", b"", b"m c=3i\nm d=4i\nm", b" e=5i\n"):
        room.write("all", room.read("all") + text)
        done = room.run(f"--newline-delimited --whole-lines --summary --range {at}.. all")
        lines += done.out
        at += int(done.err.split()[0])
    same("the lines", lines, room.read("all"))


@native
def last_line_that_is_too_long(room):
    """With --whole-lines a last line that is too long is not read of a file, and is refused of a pipe, both in 32 MB of memory."""
    room.write("huge", LINE)
    os.truncate(room.path / "huge", 300 << 20)
    words, little = "--newline-delimited --whole-lines", "ulimit -v 32000 &&"
    same("a file", room.run(f"{words} --summary huge", setup=little), Done(0, LINE, b"7 bytes, 1 lines, 1 items: 1 carried, 0 refused\n"))
    same("a pipe", room.run(f"{words} --max-line 80", LINE + bytes(40000000), setup=little), Done(1, LINE, b"item 2: the line is too long\n"))


@case
def files_without_a_length(room):
    """A file of the system that does not tell how many bytes it has is read as a pipe is; a range of a pipe is refused."""
    wanted = room.run("--newline-delimited --faults raw /proc/version")
    same("/proc/version", room.run("--newline-delimited --whole-lines --faults raw /proc/version"), wanted)
    same("whether it has a fault", bool(wanted.err), True)
    same("a cut of it", room.run("--newline-delimited --cut 2 /proc/version"), room.run("--newline-delimited --cut 2", Path("/proc/version").read_bytes()))
    same("a pipe", room.run("--range 0.. -", LINE), refused("--range reads a regular file, which this is not: standard input"))


@case
def many_files(room):
    """Of 300 files all lines are relayed in order, though none of them ends in a newline."""
    names = [f"many-{number}" for number in range(1, 301)]
    for name in names:
        room.write(name, b"m f=%si" % name[5:].encode())
    lines = b"".join(room.read(name) + b"\n" for name in names)
    for option in ([], ["--max-line", "8"]):
        same(f"300 files, {option}", room.run([*option, *names]), Done(0, lines))


@native
def files_that_change(room):
    """A file that becomes shorter while it is read ends the run with status 2, and no line that was cut goes out; what is added is read."""
    for words, name in (("changed", b"changed: "), ("--range 0.. changed", b"changed: "), ("-", b"")):
        for is_cut in (True, False):
            room.write("changed", LINE * 60000)
            with open(room.path / "changed", "rb") as source:
                process = subprocess.Popen([room.relay, *words.split()], stdin=source, stdout=subprocess.PIPE, stderr=subprocess.PIPE, cwd=room.path)
            out = os.read(process.stdout.fileno(), 1)  # As nothing more is read, it still reads.
            if is_cut:
                os.truncate(room.path / "changed", 300001)
            else:
                room.write("changed", LINE * 60000 + b"m a=1i")
            done = ended(process)
            out += done.out
            message = b"lp_relay: cannot read the input: " + name + b"unexpected end of file\n" if is_cut else b""
            same(f"the end by the words ({words})", (done.status, done.err), (2 if is_cut else 0, message))
            same(f"the lines by the words ({words})", out, LINE * (len(out) // 7 if is_cut else 60001))


# Files that a relay writes.
@case
def runs_that_append(room):
    """A second run may not put its rejected lines between those of a run that appends, for as long as that runs."""
    room.write("refused", b"x\n")
    with open(room.path / "refused", "ab") as held:
        fcntl.flock(held, fcntl.LOCK_EX)
        same("the run", room.run("--refused refused --append", b"m b=2i\nx\n"),
             refused("cannot write the output: refused: another run appends to it"))
    same("the file", room.read("refused"), b"x\n")
    process = room.begin("--refused refused --append")
    given_in_parts(process, [b"y\n"], 0)
    wait_for(lambda: room.read("refused") == b"x\ny\n")
    same("a run beside it", room.run("--refused refused --append", b"x\n"), refused("cannot write the output: refused: another run appends to it"))
    same("the first run", ended(process), Done(1, b"", fault_lines(b"item", [1])))


@case
def without_proc(room):
    """Without /proc a run that names a file is refused, and one that names none goes on."""
    if subprocess.run(["unshare", "--mount", "mount", "-t", "tmpfs", "none", "/proc"], stderr=subprocess.DEVNULL).returncode:
        return left_out("runs without /proc", "it cannot be hidden, for checks/program_cases.py")
    room.write("a", LINE)
    hidden = ["unshare", "--mount", "sh", "-c", 'mount -t tmpfs none /proc && exec "$@"', "sh"]
    for words, name in (("a", "a"), ("--cut 2 a", "a"), ("-o ./a", "./a"), ("--refused a", "a"), ("--refused a -", "a")):
        same(f"the words ({words})", room.run(words, prefix=hidden),
             refused(f"without /proc it cannot be seen whether a standard stream is this file: {name}"))
    same("no file", room.run("", LINE, prefix=hidden), Done(0, LINE))


@case
def files_that_may_not_grow(room):
    """Where a file may not grow, a message names it, the old file stays in its place, and nothing is left beside it."""
    little = "trap '' XFSZ; ulimit -f 2;"
    for name in ("out", "refused", "m"):
        room.write(name, b"old\n")
    room.write("long", LINE * 100000)
    room.write("piece", b"y" * 5000)
    room.write("series", b"m,t=a v=1i")
    for words, name, program in (("-o out long", "out", room.relay), ("--check --replace --refused refused piece", "refused", room.relay),
                                 ("--prometheus m series", "m", room.series)):
        done = room.run(words, program=program, setup=little)
        message = f"lp_{'series' if name == 'm' else 'relay'}: cannot write the output: {name}: File too large (os error 27)"
        same(f"the words ({words})", (done.status, done.out, done.err.splitlines()[-1]), (2, b"", message.encode()))
    same("the files", [room.names(), *map(room.read, ("out", "refused", "m"))], [["long", "m", "out", "piece", "refused", "series"]] + [b"old\n"] * 3)


@native
def runs_beside_each_other(room):
    """A second run for the place of a run that goes on ends before it reads anything, by whatever name, and the lines of the first one come."""
    room.write("b", b"m b=2i\nx\n")
    (room.path / "link").symlink_to("./out")
    for words in ("-o out", "--check --replace --refused out", "-o link"):
        room.write("out", b"old\n")
        first = room.begin_beside("-o out")
        with open(room.path / "b", "rb") as source:
            same(f"the second run, {words}", room.run(words, stdin=source),
                 refused(f"cannot write the output: {words.split()[-1]}: another run is writing it"))
            same("what the second run left of its input", source.read(), b"m b=2i\nx\n")
        same("the place", room.read("out"), b"old\n")
        same("the first run", (ended(first, LINE), room.read("out")), (Done(0), LINE))


@native
def files_that_come_and_go(room):
    """A file that comes to the place of a new one stays, and a run whose file is removed while it goes on ends with status 2."""
    first = room.begin_beside("-o out")
    room.write("out", b"old\n")
    same("a file that came", ended(first, LINE), refused("cannot write the output: out: File exists (os error 17)"))
    first = room.begin_beside("-o out")
    (room.path / room.beside()[0]).unlink()
    same("a file that went", ended(first, LINE), refused("cannot write the output: out: " + NONE.decode()))
    same("the files", (room.names(), room.read("out")), (["out"], b"old\n"))
    with open(room.path / "out", "rb") as held:
        same("a run", room.run("-o out", LINE), Done(0))
        same("what a program has that opened the old file, and the new one", (held.read(), room.read("out")), (b"old\n", LINE))


@native
def what_ended_runs_left(room):
    """What a killed run left beside a place is removed by the next one, which says so, and nothing else is; a file that is locked stays."""
    room.write("out", b"old\n")
    room.write("a", LINE)
    killed = room.begin_beside("-o out")
    left = room.beside()
    killed.kill()
    killed.communicate()
    others = ["out.lp_relay-1-x", "out.lp_relay-1", "x.out.lp_relay-1-1", "out.lp_relay-1-1~", "out.lp_relay-8-8"]
    for name in [*others, "out.lp_relay-9-9"]:
        room.write(name, b"")
    (room.path / "out.lp_relay-7-7").mkdir()
    (room.path / "out.lp_relay-6-6").symlink_to("a")
    kept = sorted(set(room.names()) - {*left, "out.lp_relay-9-9"})
    with open(room.path / "out.lp_relay-8-8", "rb") as held:
        fcntl.flock(held, fcntl.LOCK_EX)
        done = room.run("-o out a")
    same("the message", done.err.splitlines()[-1], b"lp_relay: cannot write the output: out: another run is writing it")
    notices = [f"lp_relay: removed {name}, which an ended run had left".encode() for name in (*left, "out.lp_relay-9-9")]
    same("the notices", sorted(done.err.splitlines()[:-1]), sorted(notices))
    same("the status, the place and the files", (done.status, room.read("out"), room.names()), (2, b"old\n", kept))
    room.run("-o out a")
    same("the files of a run later", (room.read("out"), room.names()), (LINE, [name for name in kept if name != "out.lp_relay-8-8"]))


@native
def long_names(room):
    """A place can have a name as long as names may be; of two files beside it, the one whose name has as much of the name as fits is removed."""
    room.write("a", LINE)
    for name in ("n" * 255, "x" + "ö" * 127):
        front = name.encode()[:224]
        for part in (front, front[:-1]):
            (room.path / os.fsdecode(part + b".lp_relay-4194305-0")).touch()
        same("the status", room.run(["-o", name, "a"]).status, 0)
        same("the file, and how many are beside it", (room.read(name), sum(".lp_relay-" in other for other in room.names())), (LINE, 1))
        for path in (room.path / name, *room.path.glob("*.lp_relay-*")):
            path.unlink()


@native
def owners_of_files(room):
    """A new file has the owner and the permissions of the one that it replaces; if it cannot have the owner, the run says so."""
    if os.getuid() or not shutil.which("setpriv"):
        return left_out("owners of files", "this is not root, or there is no setpriv, for checks/program_cases.py")
    room.write("out", b"old\n")
    room.write("a", LINE)
    about = lambda: (room.read("out"), *(getattr(os.stat(room.path / "out"), name) for name in ("st_uid", "st_gid", "st_mode")))
    os.chown(room.path / "out", 65534, 65533)
    os.chmod(room.path / "out", 0o640)
    same("the run", (room.run("-o out a"), about()), (Done(0), (LINE, 65534, 65533, stat.S_IFREG | 0o640)))
    os.chown(room.path / "out", 0, 0)
    os.chmod(room.path / "out", 0o644)
    os.chmod(room.path, 0o777)
    program = shutil.copy(room.relay, room.path / "relay")
    other = ["setpriv", "--reuid", "65534", "--regid", "65534", "--clear-groups"]
    told = "lp_relay: out: the new file has another owner or group than the old one: Operation not permitted (os error 1)\n"
    same("a run of another user", (room.run("-o out a", program=program, prefix=other), about()),
         (Done(0, b"", told.encode()), (LINE, 65534, 65534, stat.S_IFREG | 0o644)))


@native
def mount_points(room):
    """A place that something is mounted on, whatever its name, is refused before anything is read."""
    for name in ("out", "o \t\n\\"):
        room.write(name, b"old\n")
    room.write("a", LINE)
    mount = ["unshare", "--mount", "sh", "-c", 'for name in o*; do mount --bind a "$name" || exit; done; exec "$@"', "sh"]
    if subprocess.run([*mount, "true"], cwd=room.path, stderr=subprocess.DEVNULL).returncode:
        return left_out("a mount point as output", "nothing can be mounted, for checks/program_cases.py")
    for name, told in (("out", "out"), ("o \t\n\\", r"o \t\n\\")):
        same(f"the place {name}", room.run(["-o", name, "none"], prefix=mount),
             refused(f"cannot write the output: {told}: it is a mount point, which no file can replace"))


# Under strace.
@case
def interrupted_calls(room):
    """A read or a write that a signal interrupts is made again, and so is a read at a place."""
    if IS_EMULATED or not can_trace():
        return
    room.write("three", b"m a=1i\nx\nm b=2i\n")
    for program in (room.rebuild, room.relay):
        for call in ("read", "write"):
            done, trace = room.traced("", call, program, ["-P", room.path / "three", "-P", room.path / "out", "-e", f"inject={call}:error=EINTR:when=1..3"],
                                      redirect="<three >out")
            same(f"a {call} of {program}", (done, room.read("out"), trace.count("EINTR")), (Done(1, b"", fault_lines(b"item", [2])), b"m a=1i\nm b=2i\n", 3))
    done, _ = room.traced("--cut 2 three", "pread64", None, ["-P", room.path / "three", "-e", "inject=pread64:error=EINTR:when=1"])
    same("a read at a place", done, Done(0, b"9\n16\n"))


@native
def file_that_goes_before_it_is_locked(room):
    """If another run removes the file beside a place before it is locked, a run makes another one."""
    if not can_trace():
        return
    room.write("a", LINE)
    process = room.begin(f"-qq -o /dev/null -e trace=flock -e inject=flock:delay_enter=1000000:when=1 {room.relay} -o out a", "strace")
    wait_for(room.beside)
    (room.path / room.beside()[0]).unlink()
    same("the status and the place", (ended(process).status, room.read("out")), (0, LINE))


@native
def calls_over_large_inputs(room):
    """An input of many lines is read and written in blocks, and a cut reads no more than it needs."""
    if not can_trace():
        return
    room.write("large", LINE * 30000)
    for words, call, most in (("large", "read", 9), ("large", "write", 9), ("--cut 100 large", "pread64", 9), ("--newline-delimited --cut 3 large", "pread64", 2)):
        _, trace = room.traced(words, call, options=["-P", room.path / "large", "-P", room.path / "out"], redirect=">out")
        same(f"how many calls of {call} the words ({words}) make: {trace.count(call)}", 0 < trace.count(call) <= most, True)


@native
def files_on_the_device(room):
    """All of both files is on the device before either comes to its place, and the folder after that; whether a hard link can be made is seen first."""
    if not can_trace():
        return
    calls = "fsync,rename,link,unlink"
    room.write("b", b"m b=2i\nx\n")
    room.write("long", b'm s="%s"\n' % (b"x" * 210000))
    done = lambda trace: re.findall(r"^(\w+)\(.*= 0$", trace, re.M)
    for name in ("out", "refused"):
        room.write(name, b"old\n")
    run, trace = room.traced("-o out --replace --refused refused b", calls)
    same("files that are replaced", (run.status, done(trace)), (1, "fsync fsync rename rename fsync fsync".split()))
    _, trace = room.traced("-o out b", "openat")
    same("who may read a file beside an old one at first", re.findall(r"O_CREAT.*, 0(\d+)\)", trace), ["600"])
    for name in ("out", "refused"):
        (room.path / name).unlink()
    run, trace = room.traced(f"-o out --refused refused {10 * 'long '} b", calls)
    same("new files, of which one has 2 MB", (run.status, done(trace)), (1, "link unlink link unlink fsync fsync link unlink link unlink fsync fsync".split()))
    run, trace = room.traced("--check --refused refused --append b", calls)
    same("a file that grows", (run.status, done(trace)), (1, ["fsync"]))
    (room.path / "out").unlink()
    with open(room.path / "b", "rb") as source:
        run, _ = room.traced("-o out", "link", None, ["-e", "inject=link:error=EPERM:when=1"], stdin=source)
        same("a run where no hard link can be made", run, refused("cannot write the output: out: its file system makes no hard links, which a new file needs"))
        same("what it left of its input", source.read(), b"m b=2i\nx\n")


# On a terminal.
CLEAR = b"\r\033[K"


def on_terminal(room, words, parts=(), place=None, source=None):
    """The status of a relay whose standard error is a terminal, what it showed, and how many milliseconds it took. Parts of its input come with
    pauses, or it is a file; `place` is where its lines go, or else the terminal."""
    master, slave = pty.openpty()
    told, begun = [], time.monotonic()

    def listen():
        with contextlib.suppress(OSError):
            while text := os.read(master, 65536):
                told.append(text)

    process = subprocess.Popen([room.relay, "--progress", *words.split()], cwd=room.path, stderr=slave, stdout=slave if place is None else place,
                               stdin=open(room.path / source, "rb") if source else subprocess.PIPE)
    os.close(slave)
    listener = threading.Thread(target=listen)
    listener.start()
    for number, part in enumerate(parts):
        time.sleep(2.5 if number else 0)
        process.stdin.write(part)
        process.stdin.flush()
    if not source:
        process.stdin.close()
    if place == subprocess.PIPE:
        time.sleep(1.5)
        process.stdout.read()
    status = process.wait()
    listener.join()
    os.close(master)
    return status, b"".join(told), (time.monotonic() - begun) * 1000


def meter(number, lines, faults=0, rate=b"0.0"):
    return CLEAR + b"%d bytes read, %d lines written, faults: %d, %s MB/s" % (number, lines, faults, rate)


@case
def progress(room):
    """Progress is shown on a terminal after each second with input, gives way to faults and lines, and is not shown in a file."""
    process = room.begin("--progress")
    given_in_parts(process, [LINE], 2.5)
    same("in a file", ended(process, b"m a=,\n"), Done(1, LINE, fault_lines(b"item", [2], OPEN)))
    end = b"\r\n"
    with open(room.path / "out", "wb") as out:
        same("standard error", on_terminal(room, "", [LINE, b"m a=,\n"], out)[:2],
             (1, meter(13, 1) + CLEAR + b"item 2: " + OPEN + end + meter(13, 1, 1) + end))
        same("the lines", room.read("out"), LINE)
        same("two pauses", on_terminal(room, "", [LINE] * 3, out)[:2], (0, meter(14, 1) + meter(21, 2) + meter(21, 3) + end))
        out.truncate(0)
        told = b"Could not parse entire line. Found trailing content: ','"
        same("more options", on_terminal(room, "--strict --lines --max-line 8", [b"# c\nm a=1i,\n", b"m abcd=1i\n"], out)[:2],
             (1, b"line 2: " + told + end + meter(22, 0, 1) + CLEAR + b"line 3: the line is too long" + end + meter(22, 0, 2) + end))
        same("the lines", room.read("out"), b"")
    mark = b"lp_relay: the input begins with a byte order mark, which is part of its first line"
    status, told, _ = on_terminal(room, "--check", [b"\xef\xbb\xbf" + LINE])
    told = re.sub(rb"\d+\.\d MB/s", b"0.0 MB/s", told)  # All is read at once, so any rate can come.
    same("a byte order mark", (status, told), (0, mark + end + meter(10, 0) + end))
    line = b"m a=1i\r\n"
    same("both outputs", on_terminal(room, "", [LINE] * 2)[:2], (0, line + meter(14, 1) + CLEAR + line + meter(14, 2) + end))
    same("no lines", on_terminal(room, "--check", [LINE] * 2)[:2], (0, meter(14, 0) + meter(14, 0) + end))


@case
def rates(room):
    """The rate that progress shows has a digit after its point, and is between that of the pause and that of the whole run."""
    first = b"x\n" * 3 + LINE * 300000 + (b"#" + b"0" * 99998 + b"\n") * 400
    size = len(first) + 7
    with open(room.path / "out", "wb") as out:
        status, told, passed = on_terminal(room, "", [first, LINE], out)
    if IS_EMULATED:  # It takes longer than a second for that, so more is shown: the last line tells all.
        same("the end", (status, bool(re.search(rb"K%d bytes read, 300001 lines written, faults: 3, [0-9.]* MB/s\r\n$" % size, told))), (1, True))
        return
    found = re.findall(rb"faults: 3, (\d+\.\d) MB", told)
    wanted = fault_lines(b"item", [1, 2, 3]).replace(b"\n", b"\r\n") + b"".join(meter(size, 299999 + number, 3, rate) for number, rate in enumerate(found, 1))
    same("what is shown", (status, told, len(found)), (1, wanted + b"\r\n", 2))
    for rate in map(float, found):
        same(f"whether a rate of {rate} MB/s is one, in {passed} ms", size / 1000 / passed / 1.1 <= rate <= size / 2500000 + 0.1, True)


@case
def progress_of_files(room):
    """Of files, whose size is known, the progress has the percent of all bytes, and ends with 100."""
    first = b"x\n" * 3 + LINE * 300000 + (b"#" + b"0" * 99998 + b"\n") * 400
    room.write("first", first)
    room.write("last", LINE)
    for words, source, total in (("first first", "last", 2 * len(first)), ("", "first", len(first)), ("first -", "last", len(first) + 7)):
        _, told, _ = on_terminal(room, words, place=subprocess.PIPE, source=source)
        found = [tuple(map(int, pair)) for pair in re.findall(rb"K(\d+) bytes read, (\d+) %, \d+ lines written, ", told)]
        same(f"percents of {words}", [percent for _, percent in found], [number * 100 // total for number, _ in found])
        same(f"the end of {words}", (len(found) >= 2, found[-1:]), (True, [(total, 100)]))
    _, told, _ = on_terminal(room, "--range 0..7 first")
    same("a range", b"K7 bytes read, 100 %" in told, True)
    status, told, _ = on_terminal(room, "--output lines last")
    same("lines to a file", (status, room.read("lines"), b"K7 bytes read, 100 %, 1 lines written, faults: 0, " in told), (0, LINE, True))


# Large and slow inputs.
# Pieces with what docs/FORMAT.md says of each: the line that is written again, or the text of its fault; or nothing, where no item is.
FIRST = b"cpu,host=A,region=west usage_system=64i,idle=0.5 1590488773254420000"
SPACED = rb'wea\ ther\,,k\,1=v\=w\ x s="say \"hi\" \\ there",k\ 2=-1i -7'
PIECES = [
    (FIRST, FIRST, None), (b"", None, None), (b"x", None, X), (b'm s="a\nb"', b'm s="a\nb"', None),
    (b'# a comment, with a "quote" and a\\ backslash', None, None), (b"m a=T", b"m a=true", None), (SPACED, SPACED, None),
    (b"m a=9223372036854775808i", None, b"Unable to parse integer value '9223372036854775808'"),
    ("\\wea\\ther,t=ü€😀 f=1i".encode(), "\\\\wea\\\\ther,t=ü€😀 f=1i".encode(), None),
    (b"  \tn,t=v f=01.50e3,g=007u  12  ", b"n,t=v f=01.50e3,g=7u 12", None),
    (b"m f=1i x", None, b"Could not parse entire line. Found trailing content: ' x'"), (b"m,t= f=1", None, b"Tag Set Malformed"),
    (b"weather\\\\ f=1i", None, b"Measurements, tag keys and values, and field keys may not end with a backslash"),
    (b"w\\\t a=1i", None, b"a name cannot be written again"),
    (b'# a="\nm z=1i"', None, b"Could not parse entire line. Found trailing content: '\"'"),
]
BLOCK_BYTES, BLOCKS = 625, 6408  # An odd number of bytes, so that a read ends anywhere in a block.


@functools.cache
def blocks():
    """The block that an input repeats, where its pieces end, its lines, and its faults with the numbers of their items and lines."""
    block, lines, items, ends, faults = b"", b"", 0, [0], []
    pieces = [*PIECES, (b"#" + b"0" * (BLOCK_BYTES - 2 - sum(len(came) + 1 for came, _, _ in PIECES)), None, None)]
    for came, line, fault in pieces:
        items += (line or fault) is not None
        lines += line + b"\n" if line else b""
        faults += [(items, block.count(b"\n") + 1, fault)] if fault else []
        block += came + b"\n"
        ends.append(len(block))
    return block, ends, lines, items, faults


def block_faults(word, by_lines=False):
    """The fault lines of all blocks."""
    block, _, _, items, faults = blocks()
    step = block.count(b"\n") if by_lines else items
    return b"".join(b"%s %d: %s\n" % (word, number * step + fault[by_lines], fault[2]) for number in range(BLOCKS) for fault in faults)


def slowly(process, text, size):
    """How a run ends that is given a text in small writes."""
    taken = []
    listeners = [threading.Thread(target=lambda stream=stream: taken.append((stream, stream.read()))) for stream in (process.stdout, process.stderr)]
    for listener in listeners:
        listener.start()
    for at in range(0, len(text), size):
        os.write(process.stdin.fileno(), text[at:at + size])
    process.stdin.close()
    for listener in listeners:
        listener.join()
    return Done(process.wait(), dict(taken)[process.stdout], dict(taken)[process.stderr])


@native
def blocks_of_pieces(room):
    """Both programs write the same lines and faults of 4 MB, from a file, a pipe and a slow pipe; so does a relay by lines."""
    text, lines, wanted = blocks()[0] * BLOCKS, blocks()[2] * BLOCKS, block_faults(b"item")
    room.write("input", text)
    same("the bytes of a block", len(blocks()[0]), BLOCK_BYTES)
    for program in (room.rebuild, room.relay):
        done = Done(1, lines, wanted)
        same(f"{program} of a file", room.run("", program=program, redirect="<input"), done)
        same(f"{program} of a pipe", room.run("", text, program), done)
        same(f"{program} of a slow pipe", slowly(room.begin("", program), text, 4097), done)
    same("--lines", room.run("--lines", redirect="<input"), Done(1, lines, block_faults(b"line", True)))


@native
def many_reads(room):
    """Both programs write 2,000,001 lines, one of which has 10 MB, and 50,000 lines that come one by one; a relay takes 70,000 reads of a line each."""
    large = LINE * 2000000 + b'm s="' + b"x" * 10000000 + b'"\n'
    lines = b"".join(b"m a=%di\n" % number for number in range(50000))
    for program in (room.rebuild, room.relay):
        same(f"{program} of 2,000,001 lines", room.run("", large, program), Done(0, large))
        same(f"{program} line by line", slowly(room.begin("", program), lines, 7), Done(0, lines))
    source = subprocess.Popen(["dd", "bs=7", "oflag=direct", "status=none"], stdin=subprocess.PIPE, stdout=subprocess.PIPE)
    threading.Thread(target=lambda: (source.stdin.write(LINE * 70000), source.stdin.close())).start()
    same("70,000 reads", room.run("", stdin=source.stdout), Done(0, LINE * 70000))
    source.wait()


@native
def little_memory(room):
    """In little memory a relay writes what is larger, and a run that needs more ends with status 2 and says so."""
    room.write("large", LINE * 6000000 + b"x\n")
    room.write("pairs", (FIRST + b"\nx\n") * 2000000)
    room.write("series", b"".join(b"m,t=%d v=1i\n" % number for number in range(200000)))
    for words, program, name, limit in (("--cut 2", room.relay, "large", 32000), ("", room.rebuild, "large", 32000), ("", room.series, "series", 20000)):
        done = room.run(words, program=program, setup=f"ulimit -v {limit} &&", redirect=f"<{name}")
        same(f"{program} {words}", (done.status, done.err.splitlines()[-1:]), (2, [Path(program).name.removesuffix("_program").encode() + b": out of memory"]))
    done = room.run("--faults json large", setup="ulimit -v 32000 &&")
    told = json.loads(done.err)
    same("the lines of 42 MB", done.out == LINE * 6000000, True)
    same("a fault after 42 MB", [done.status, *(told[name] for name in ("file", "item", "line", "offset", "stop_line", "stop_column"))],
         [1, "large", 6000001, 6000001, 42000000, 6000001, 2])
    done = room.run("", setup="cat pairs | { ulimit -v 32000 &&", redirect="; }")
    same("the status and the lines of 150 MB", (done.status, done.out == (FIRST + b"\n") * 2000000), (1, True))
    same("the faults of 150 MB", done.err == fault_lines(b"item", range(2, 4000001, 2)), True)
    size = len(FIRST) + 3
    parts = Done(0, b"%d\n%d\n" % (1000000 * size, 2000000 * size))
    same("a cut of a pipe, in 320 MB", room.run("--cut 2", setup="cat pairs | { ulimit -v 320000 &&", redirect="; }"), parts)
    for dialect in ("--strict", "--newline-delimited"):
        same(f"a cut of a file by {dialect}", room.run(f"{dialect} --cut 2 pairs", setup="ulimit -v 32000 &&"), parts)
    done = room.run("--now", setup="{ head -c 21000000 large; echo x; } | { ulimit -v 40000 &&", redirect="; }")
    same("the lines with times", (re.sub(rb" \d{19}\n", b"\n", done.out) == LINE * 3000000, done.err), (True, fault_lines(b"item", [3000001])))


@native
def many_parts(room):
    """A cut into 5,000 parts, of a file and of a slow pipe, ends each part where a piece ends, at or after its share of the bytes; one of 1,000,000 works."""
    block, ends, *_ = blocks()
    room.write("input", block * BLOCKS)
    places = [divmod(part * BLOCK_BYTES * BLOCKS // 5000, BLOCK_BYTES) for part in range(1, 5001)]
    wanted = Done(0, b"".join(b"%d\n" % (number * BLOCK_BYTES + next(end for end in ends if end >= at)) for number, at in places))
    same("5,000 parts", room.run("--cut 5000", redirect="<input"), wanted)
    same("5,000 parts of a slow pipe", slowly(room.begin("--cut 5000"), block * BLOCKS, 4097), wanted)
    same("1,000,000 parts", room.run("--cut 1000000", LINE), Done(0, b"7\n" * 1000000))


@native
def corpora(room):
    """Of each corpus of the bench both programs write the same, in two dialects."""
    subprocess.run([sys.executable, "-B", TOP / "bench/corpora.py", "--seed", "inputs", "--size", "1000000", "--out", room.path / "corpora"],
                   stdout=subprocess.DEVNULL, check=True)
    paths = sorted((room.path / "corpora").glob("*.lp"))
    same("whether there are corpora", len(paths) > 10, True)
    for path in paths:
        for words in ("", "--strict"):
            same(f"{path.name} {words}", room.run(f"{words} --faults raw", path.read_bytes()), room.run(words, path.read_bytes(), room.rebuild))


def at_once(room, words, text, wanted, stream="stdout"):
    """What is put into a pipe in one write, and no more, gives all of an output before the pipe is closed."""
    process = room.begin(words, **{"stdout" if stream == "stderr" else "stderr": subprocess.DEVNULL})
    writer = threading.Thread(target=lambda: (process.stdin.write(text), process.stdin.flush()))
    writer.start()
    has, end = b"", time.monotonic() + 20
    while len(has) < len(wanted) and select.select([getattr(process, stream)], [], [], max(0, end - time.monotonic()))[0]:
        has += os.read(getattr(process, stream).fileno(), 1 << 20)
    writer.join()
    process.communicate()
    same(f"what {len(text)} bytes in a pipe give at once by the words ({words})", has, wanted)


@native
def what_a_pipe_gives_at_once(room):
    """A relay writes the lines and the faults of all that a pipe gave it before it reads on, whatever the block sizes; also a line that is too long."""
    for size in (65535, 65536, 65537, 131072):
        lines = LINE * 5000 + b'm s="%0*d"\n' % (size - 35000 - 11, 0)
        at_once(room, "", b"# c\n" + lines, lines)
        at_once(room, "", (b"x\n" * size)[:size], fault_lines(b"item", range(1, size // 2 + 1)), "stderr")
    for option in ("--verbatim", "--strict", "--newline-delimited"):
        at_once(room, f"{option} --max-line 9", b"m a=1i\nm b=234567", b"item 2: the line is too long\n", "stderr")
    at_once(room, "--now", b"m a=1i 7\n" * 7000, b"m a=1i 7\n" * 7000)
    at_once(room, "--now", b"x\n" * 65536, fault_lines(b"item", range(1, 65537)), "stderr")


# Counts of series.
@case
def reports_while_input_pauses(room):
    """Where input pauses, --every tells what was counted so far, as lines, as objects and as metrics; of an input that ends at once it tells once."""
    lines, objects, metrics = runs = [room.begin(f"--every 1 {words}", room.series) for words in ("", "--json", "--prometheus m")]
    feeders = [threading.Thread(target=given_in_parts, args=(run, [b"m v=1i\n"] * 4, 1.1)) for run in runs]
    for feeder in feeders:
        feeder.start()
    held = lambda: room.read("m").splitlines() if (room.path / "m").exists() else []
    wait_for(lambda: {b"lp_series_points_total 2", b"lp_series_points_total 3"} & set(held()), 30)
    same("the last line of the metrics so far", held()[-1], b"# TYPE lp_series_tag_values gauge")
    for feeder in feeders:
        feeder.join()
    told = [line for line in ended(lines).out.splitlines() if re.match(rb"\d+ points, ", line)]
    same("lines", (len(told) >= 3, told[-1]), (True, b"4 points, 4 of them without a time"))
    told = [json.loads(line) for line in ended(objects).out.splitlines()]
    same("objects", (len(told) >= 3, told[0]["refused"], told[-1]["bytes"], told[-1]["lines"], told[-1]["refused"]), (True, None, 28, 4, {}))
    same("metrics", (ended(metrics).out, b"lp_series_points_total 4" in held(), room.names()), (b"", True, ["m"]))
    same("an input that ends at once", room.run("--every 1 --json", b"m v=1i\n", room.series).out.count(b"\n"), 1)
    with open("/dev/full", "wb") as full:
        process = room.begin("--every 1", room.series, stdout=full)
    given_in_parts(process, [b"m v=1i\n"] * 2, 2)
    wait_for(lambda: process.poll() is not None)  # A report that cannot be written ends the run, whose input goes on.
    same("reports that cannot be written", process.returncode, 2)


@case
def shards_and_keys(room):
    """The lines of each of 231 series come out of one shard, and all lines come out of all; sorted by their keys they come in the order that they had."""
    rows = [(b"m%d,a=x%d,b=%d" % (n % 3, n % 11, n % 7), b"m%d,b=%d,a=x%d f=%di" % (n % 3, n % 7, n % 11, n)) for n in range(3000)]
    text = b"".join(line + b"\n" for _, line in rows)
    keyed = room.run("--key", text, room.series)
    same("the keys", keyed, Done(0, b"".join(key + b"\t" + line + b"\n" for key, line in rows)))
    same("how many keys there are", len({key for key, _ in rows}), 231)
    key_of = {line: key for key, line in rows}
    for count in (1, 2, 3, 7, 64):
        shards = [room.run(f"--shard {number}/{count}", text, room.series).out.splitlines() for number in range(count)]
        same(f"the lines of {count} shards", sorted(sum(shards, [])), sorted(key_of))
        same(f"the series of {count} shards", sum(len({key_of[line] for line in shard}) for shard in shards), 231)
        same(f"the order in {count} shards", [shard for shard in shards if shard != [line for _, line in rows if line in set(shard)]], [])


@native
def large_series(room):
    """Keys of 16 MB, series of 30,000 tags and 1,000,002 series are counted, and 200,000 lines of 20 tags in 64 MB of memory."""
    long = b"k" * 16000000 + b" v=1i\n"
    same("a key of 16 MB", room.run("--key", long, room.series), Done(0, b"k" * 16000000 + b"\t" + long))
    same("a shard of it", room.run("--shard 0/1", long, room.series), Done(0, long))
    done = room.run("--json", long, room.series)
    same("a count of it", (done.status, len(done.out) > 16000000, done.err), (0, True, b"16000006 bytes, 1 lines, 1 items: 1 carried, 0 refused\n"))
    tags = [b"t%05d=%05d" % (number, number) for number in range(30000, 0, -1)]
    line = b"m," + b",".join(tags) + b" v=1i\n"
    same("a key of 30,000 tags", room.run("--key", line, room.series), Done(0, b"m," + b",".join(sorted(tags)) + b"\t" + line))
    done = room.run("--stats", line, room.series)
    same("a count of 30,000 tags", (done.status, b"\n30000 tag keys\n" in done.out, done.out.count(b": 1 values\n")), (0, True, 30000))
    done = room.run("", b"".join(b"k" * size + b" v=1i\n" for size in (16777211, 16777212)), room.series)
    same("a line that is too long", (done.status, b"\n1 points, " in done.out, done.err.partition(b" lines, ")[2]),
         (1, True, b"2 items: 1 carried, 1 refused: 1 too_long\n"))
    done = room.run("--json", b"".join(b"m,t=%d v=1i\n" % number for number in range(1000002)), room.series)
    same("1,000,002 series", (done.status, b'"series":1000000,"points_beyond":2,' in done.out, done.err.partition(b" bytes, ")[2]),
         (0, True, b"1000002 lines, 1000002 items: 1000002 carried, 0 refused\n"))
    room.write("tags", b"m,%s v=1i\n" % b",".join(b"t%d=v" % number for number in range(1, 21)) * 200000)
    done = room.run("--json", program=room.series, setup="ulimit -v 64000 &&", redirect="<tags")
    same("200,000 lines in 64 MB", (done.status, b'"points":200000,' in done.out), (0, True))


@case
def metrics_of_series(room):
    """Each metric has its type before its values, a counter's name ends in _total, and there is one value for each kind of fault."""
    room.write("in", 'a"\\\\b,t"\\,1=v\\ w f\\=g=1,g=2i,h=3u,i="s",j=t 5\na"\\\\b f\\=g="x" -7\nü x=1 9\nü x=1i\nü x=1u\nü x="s"\nü x=t\n'.encode())
    same("standard output", room.run("--prometheus metrics in", program=room.series).out, b"")
    name = kind = None
    for line in room.read("metrics").decode().splitlines():
        if line.startswith("# HELP "):
            name, kind = line.split()[2], None
        elif line.startswith("# TYPE "):
            same("the name of a type", line.split()[2], name)
            kind = line.split()[3]
        else:
            same(f"the metric before {line}", (re.split("[{ ]", line)[0], name.endswith("_total")), (name, kind == "counter"))
    kinds = int(re.search(r"^enum \{ LP_KINDS = (\d+) \};$", (TOP / "checks/lp_checks.h").read_text(), re.M)[1])
    same("the kinds of faults", len(re.findall(rb'^lp_series_refused_total\{kind="[a-z_0-9]*"\} 0$', room.read("metrics"), re.M)), kinds)
    values = [line for line in room.read("metrics").decode().splitlines() if not line.startswith("#") and "refused" not in line]
    same("the values", [value.removeprefix("lp_series_") for value in values], [
        "bytes_total 105", "lines_total 7", "points_total 7", "points_without_time_total 4", "series 3", "points_beyond_total 0",
        'measurement_points_total{measurement="a\\"\\\\b"} 2', 'measurement_points_total{measurement="ü"} 5',
        'measurement_series{measurement="a\\"\\\\b"} 2', 'measurement_series{measurement="ü"} 1', 'measurement_fields{measurement="a\\"\\\\b"} 5',
        'measurement_fields{measurement="ü"} 1', 'measurement_mixed_fields{measurement="a\\"\\\\b"} 1', 'measurement_mixed_fields{measurement="ü"} 1',
        'tag_values{tag="t\\",1"} 1'])


def tried(number, function, programs, top):
    """What is wrong by a case, if something is."""
    folder = Path(top, str(number), "room")
    folder.mkdir(parents=True)
    os.chmod(folder.parent, 0o755)
    try:
        function(Room(programs, folder))
    except Exception as wrong:  # Whatever a case did not expect is wrong.
        return f"{function.__name__}: {function.__doc__.splitlines()[0]}\n  {type(wrong).__name__}: {wrong}"
    finally:
        shutil.rmtree(folder, ignore_errors=True)
    return None


def main():
    words = sys.argv[1:]
    only = words[1].split(",") if words[:1] == ["--only"] else None
    programs = [str(Path(word).resolve()) for word in (words[2:] if only else words)]
    chosen = [function for function in CASES if only is None or function.__name__ in only]
    os.umask(0o022)
    count = 0
    with tempfile.TemporaryDirectory(dir="/dev/shm" if os.access("/dev/shm", os.W_OK) else None) as top, ThreadPoolExecutor(4) as pool:
        os.chmod(top, 0o755)
        for wrong in pool.map(lambda pair: tried(*pair, programs, top), enumerate(chosen)):
            if wrong:
                count += 1
                print(wrong, flush=True)
    print(f"program_cases: {len(chosen)} cases, of which {count} saw something else than they should")
    sys.exit(bool(count) or not chosen)


main()
