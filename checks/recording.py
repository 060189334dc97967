#!/usr/bin/env python3
"""The recording docs/images/relay.cast, in the format of asciinema: one bad line among a million is found, mended and relayed.

    checks/recording.py RELAY            compares the recording with what a built lp_relay gives; status 1 if they differ
    checks/recording.py --write RELAY    writes it

`asciinema play docs/images/relay.cast` shows it, in 20 seconds. The commands are run by sh, and what they print is in it as it comes; how long
each key and each pause takes is not measured.
"""

import json
import os
import subprocess
import sys
import tempfile
from pathlib import Path

CAST = Path(__file__).resolve().parent.parent / "docs" / "images" / "relay.cast"
HEAD = {"version": 2, "width": 110, "height": 22, "title": "lp_relay: one bad line among a million"}
KEY, PAUSE, LAST = 0.02, 0.9, 2.5  # seconds for a key, after a command, and at the end
COMMANDS = [
    "# A million lines, and one of them has lost its value.",
    "seq 1000000 | sed 's/.*/cpu,host=a usage=&i/; 700001s/=[^=]*$/=/' >spool.lp",
    "lp_relay --newline-delimited --faults json --summary --refused bad.lp --output good.lp spool.lp",
    "# The others went on. Here is the one that did not:",
    "cat bad.lp",
    "# Mend it, and relay it again.",
    "sed 's/=$/=700001i/' bad.lp | lp_relay --newline-delimited --summary >>good.lp",
    "wc -l <good.lp",
]


def printed(command, folder, path):
    """What a command prints, on both outputs."""
    run = subprocess.run(["sh", "-c", command], cwd=folder, env={**os.environ, "PATH": path}, stdin=subprocess.DEVNULL,
                         stdout=subprocess.PIPE, stderr=subprocess.STDOUT, check=False)
    return run.stdout.decode().replace("\n", "\r\n")


def recorded(relay):
    """The lines of the recording."""
    time, lines = 0.0, [json.dumps(HEAD)]

    def put(after, text):
        nonlocal time
        time += after
        lines.append(json.dumps([round(time, 3), "o", text]))

    with tempfile.TemporaryDirectory() as folder:
        os.mkdir(f"{folder}/bin")
        os.symlink(relay, f"{folder}/bin/lp_relay")
        for command in COMMANDS:
            put(PAUSE / 2, "$ ")
            for start in range(0, len(command), 3):
                put(3 * KEY, command[start:start + 3])
            put(PAUSE / 2, "\r\n")
            told = "" if command.startswith("#") else printed(command, folder, f"{folder}/bin:{os.environ['PATH']}")
            if told:
                put(PAUSE / 2, told)
    put(LAST, "$ ")
    return "\n".join(lines) + "\n"


def main(words):
    writes = words[:1] == ["--write"]
    if len(words) != 1 + writes:
        print(__doc__, file=sys.stderr)
        return 2
    text = recorded(Path(words[-1]).resolve())
    if writes:
        CAST.parent.mkdir(exist_ok=True)
        CAST.write_text(text, encoding="utf-8")
    elif not CAST.exists() or CAST.read_text(encoding="utf-8") != text:
        print(f"recording: {CAST.name} is not what lp_relay gives; run checks/recording.py --write", file=sys.stderr)
        return 1
    print(f"recording: {CAST.name} has {len(COMMANDS)} commands in {json.loads(text.splitlines()[-1])[0]:.0f} seconds")
    return 0


if __name__ == "__main__":
    sys.exit(main(sys.argv[1:]))
