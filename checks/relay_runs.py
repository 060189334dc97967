"""Runs of a built lp_relay, for the programs in Python that compare what it gives with what it should."""

import os
import subprocess
import sys
import tempfile
from pathlib import Path
from typing import NamedTuple


class Wrong(Exception):
    """What differs, in words."""


class Given(NamedTuple):
    """What a run gives."""

    status: int
    out: bytes
    err: bytes


class Relay:
    """A built lp_relay, or a command that runs it, and how often it was run."""

    def __init__(self, program, *words):
        # Runs have folders of their own.
        self.command = [str(Path(program).resolve()) if Path(program).is_file() else program, *words]
        self.runs = 0

    def run(self, words, text=b"", statuses=(0, 1), **more):
        """Runs it with these words over a text. A status that is none of these is wrong; any is right if there are none."""
        self.runs += 1
        done = subprocess.run([*self.command, *words], input=text, capture_output=True, check=False, **more)
        if statuses and done.returncode not in statuses:
            raise Wrong(f"({' '.join(map(str, words))}) ends with status {done.returncode}, and says {done.stderr[-300:]!r}")
        return Given(done.returncode, done.stdout, done.stderr)

    def start(self, words, **more):
        """Starts a run whose input and outputs are read and written while it goes on."""
        return subprocess.Popen([*self.command, *words], stdout=subprocess.PIPE, stderr=subprocess.PIPE, **more)


def same(what, has, wanted):
    """Ends the check if these differ."""
    if has != wanted:
        raise Wrong(f"{what}: {str(has)[:1500]} where {str(wanted)[:1500]} is wanted")


def folder():
    """A temporary folder, in memory if that can be: each file that is written elsewhere waits for its device."""
    return tempfile.TemporaryDirectory(dir="/dev/shm" if os.access("/dev/shm", os.W_OK) else None)


def end_by(check, text, more=0):
    """Ends the program by a check of the relay that its first word names, and at most so many other words; `None` takes all words for the
    command of the relay. Status 0: the check told what it compared; 1: what is wrong is told; 2: the words are others, and `text` is printed."""
    name, words = Path(sys.argv[0]).stem, sys.argv[1:]
    if not words or (more is not None and len(words) > 1 + more):
        print(text, file=sys.stderr)
        sys.exit(2)
    try:
        told = check(Relay(*words)) if more is None else check(Relay(words[0]), *words[1:])
    except Wrong as wrong:
        sys.exit(f"{name}: {wrong}")
    print(f"{name}: {told}")
