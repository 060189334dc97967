#!/usr/bin/env python3
"""Prints the record of what bin/dist made, which bin/verify reads:

    packaging/record.py FOLDER ARCH TIME LOG GIVEN VERDICTS FILE..

FOLDER has the files. ARCH is what they were asked for, TIME the time in them, LOG a log of the gate or empty, and GIVEN the folder of what was
built before, or empty. VERDICTS has what the kit said of each crate, a file verdicts-PROCESSOR for each. What cannot be told here, as the kit
where there is none, is null.
"""

import datetime
import hashlib
import json
import os
import pathlib
import re
import subprocess
import sys

TOP = pathlib.Path(__file__).resolve().parent.parent


def said_by(*words):
    """What a command prints, or None where it fails."""
    try:
        return subprocess.run(words, capture_output=True, text=True, errors="replace", check=True).stdout.rstrip("\n")
    except (OSError, subprocess.CalledProcessError):
        return None


def sum_of(path):
    return hashlib.sha256(path.read_bytes()).hexdigest()


def verdicts_in(path):
    """What the kit said of each crate; nothing where there is no such file."""
    return dict(line.split(": ", 1) for line in path.read_text(encoding="utf-8").splitlines()) if path.exists() else {}


def gate_of(log):
    """The last line of a log of the gate, and when it was written."""
    path = pathlib.Path(log)
    ended = datetime.datetime.fromtimestamp(int(path.stat().st_mtime), datetime.timezone.utc)
    last = path.read_text(encoding="utf-8", errors="replace").splitlines()[-1]
    return {"last": last, "ended": ended.isoformat(), "sha256": sum_of(path)}


def record(folder, arch, time, log, given, verdicts, *files):
    folder, kit, commit = pathlib.Path(folder), said_by("rt", "version"), said_by("git", "-C", str(TOP), "rev-parse", "HEAD")
    tools = [os.environ.get("CC", "cc"), os.environ.get("STRIP", "strip"), "dpkg-deb", "gzip", os.environ.get("PYTHON", "python3"),
             *["aarch64-linux-gnu-gcc"] * (arch == "all"), *["wasm-opt"] * ("try.html" in files)]
    processors = [found[1] for name in files if (found := re.fullmatch(r"influxdb-line-protocol-[0-9.]+-(\w+)-linux\.tar\.gz", name))]
    processors += ["wasm64"] * ("try.html" in files)
    return {
        "arch": arch,
        "commit": commit,
        "clean": commit is not None and said_by("git", "-C", str(TOP), "status", "--porcelain") == "",
        "built_before": given != "",
        "time": int(time),
        "kit": kit,
        "logic": kit and kit.split()[-1],
        "tools": {tool: (said_by(tool, "--version") or "").partition("\n")[0] for tool in tools},
        "verdicts": {processor: verdicts_in(pathlib.Path(verdicts, f"verdicts-{processor}")) for processor in sorted(processors)},
        "gate": gate_of(log) if log else None,
        "files": {name: sum_of(folder / name) for name in files},
    }


print(json.dumps(record(*sys.argv[1:]), indent=2))
