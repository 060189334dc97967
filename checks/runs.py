#!/usr/bin/env python3
"""Runs the built programs by the rows of checks/runs, and compares all that each run gives.

    checks/runs.py [--only TEXT] PROGRAM..

PROGRAM: a built program, such as ./lp_relay; its rows are in the files that begin with its name. With --only it runs the rows whose place,
as lp_relay_words.txt:7, or whose words hold TEXT. Each row has a folder of its own, and four run at a time. Status 1: a run gave something else.

run_rows.py says how the rows are written.
"""

import os
import re
import shutil
import subprocess
import sys
import tempfile
from concurrent.futures import ThreadPoolExecutor
from pathlib import Path

from run_rows import FOLDER, entries, rows_of

SECONDS = 300


def make(folder, files):
    """Makes these files in an empty folder."""
    shutil.rmtree(folder, ignore_errors=True)
    os.mkdir(folder)
    for name, (kind, mode, text) in files.items():
        path = os.path.join(os.fsencode(folder), name)
        if kind == "folder":
            os.mkdir(path)
        elif kind == "file":
            Path(os.fsdecode(path)).write_bytes(text)
            os.chmod(path, mode)
        else:
            (os.symlink if kind == "link" else os.link)(text if kind == "link" else os.path.join(os.fsencode(folder), text), path)


def held(folder):
    """The files that are in a folder."""
    found = {}
    for path in folder.rglob("*"):
        name = os.fsencode(path.relative_to(folder))
        if path.is_symlink():
            found[name] = "link", 0, os.fsencode(os.readlink(path))
        elif path.is_dir():
            found[name] = "folder", 0, b""
        else:
            found[name] = "file", path.stat().st_mode & 0o777, path.read_bytes()
    return found


def ran(program, row, room):
    """Runs a row, and returns each thing that is other than it should be: what, as it should be, and as it is."""
    name = program_name(program)
    files = entries(row.scene, {})
    make(room / "files", files)
    text, is_own = row.input()
    (room / "in").write_bytes(text)
    shell = ["sh", "-c", f'exec "$0" "$@" {row.redirections}'] if row.redirections else []
    with open(room / "in", "rb") as stdin:
        try:
            done = subprocess.run([*shell, program, *row.words], stdin=stdin, capture_output=True, cwd=room / "files", timeout=SECONDS, check=False)
        except subprocess.TimeoutExpired:
            return [("the seconds it takes", SECONDS, "more")]
        is_unread = os.lseek(stdin.fileno(), 0, os.SEEK_CUR) == 0
    out, err = row.wanted(name)
    files = {each: files[text.removeprefix(b"./")] if kind == "hard" else (kind, mode, text) for each, (kind, mode, text) in files.items()}
    files, after = entries(row.lines, files), held(room / "files")
    told = [("the status", row.status, done.returncode), ("standard output", out, done.stdout), ("standard error", err, done.stderr)]
    for each in sorted(files.keys() | after.keys()):
        wanted, has = files.get(each), after.get(each)
        told += [(f"the file {each!r}", wanted[2], has[2])] if wanted and has and wanted[:2] == has[:2] else [(f"the file {each!r}", wanted, has)]
    if row.status == 2 and not out and not is_own:
        told.append(("whether it left its input unread", True, is_unread))
    return [(what, wanted, has) for what, wanted, has in told if not (wanted.fullmatch(has) if isinstance(wanted, re.Pattern) else wanted == has)]


def program_name(program):
    return Path(program).name.removesuffix("_program")


def shown(value):
    text = repr(value)
    return text if len(text) < 1500 else f"{text[:700]} .. {text[-700:]}"


def main():
    words = sys.argv[1:]
    only = words[1] if words[:1] == ["--only"] else ""
    pairs = []
    for program in words[2:] if only else words:
        rows = [row for path in sorted(FOLDER.glob(f"{program_name(program)}*.txt")) for row in rows_of(path)]
        pairs += [(str(Path(program).resolve()), row) for row in rows if only in row.place or only in row.head]
    os.umask(0o022)
    # In memory, if that can be: each file to write waits for its device.
    with tempfile.TemporaryDirectory(dir="/dev/shm" if os.access("/dev/shm", os.W_OK) else None) as name, ThreadPoolExecutor(4) as pool:
        rooms = [Path(tempfile.mkdtemp(dir=name)) for _ in range(4)]

        def tried(pair):
            room = rooms.pop()
            told = ran(*pair, room)
            rooms.append(room)
            return told

        wrong = [(row, told) for (_, row), told in zip(pairs, pool.map(tried, pairs)) if told]
    for row, told in wrong[:20]:
        print(f"{row.place}: {row.head}")
        for what, wanted, has in told:
            print(f"  {what} should be\n    {shown(wanted)}\n  and is\n    {shown(has)}")
    print(f"runs: {len(pairs)} runs, of which {len(wrong)} gave something else than their rows say")
    sys.exit(bool(wrong) or not pairs)


main()
