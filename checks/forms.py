#!/usr/bin/env python3
"""Runs lp_relay with each form of output over one line of more than 1 MB, since a call that may refuse memory could do so for a long line alone.

    checks/forms.py RELAY

RELAY: a built lp_relay. Each row has the words, the input, and what standard output, the file of rejected lines and the status must be.
"""

import json
import re
import subprocess
import sys
import tempfile
from pathlib import Path

LONG = b"x" * 1_100_000
TEXT = b'm,t=a s="' + LONG + b'"'
SPACED = b'm,t=a  s="' + LONG + b'"'
KEYED = b"m,t=a " + LONG + b"=1i"
BROKEN = b'm,t=a s="' + LONG + b'" x'

# Words; the input; standard output; rejected lines; the status.
ROWS = [
    ("a line that is copied", [], TEXT, TEXT, b"", 0),
    ("a line that is written again", [], SPACED, TEXT, b"", 0),
    ("--verbatim", ["--verbatim"], SPACED, SPACED, b"", 0),
    ("--canonical", ["--canonical"], TEXT, TEXT, b"", 0),
    ("--canonical, of a line with a space too many", ["--canonical"], SPACED, b"", SPACED, 1),
    ("--portable, rebuilt", ["--portable", "influx1"], SPACED, TEXT, b"", 0),
    ("--portable, of a line that is too long for the server", ["--portable", "victoria"], TEXT, b"", TEXT, 1),
    ("--types", ["--types", "strict"], KEYED + b"\n" + KEYED[:-1], KEYED, KEYED[:-1], 1),
    ("--time-unit", ["--time-unit", "ms"], TEXT + b" 5", TEXT + b" 5000000", b"", 0),
    ("--time-unit and --verbatim", ["--time-unit", "ms", "--verbatim"], SPACED + b" 5", SPACED + b" 5000000", b"", 0),
    ("--default-time", ["--default-time", "7"], SPACED, TEXT + b" 7", b"", 0),
    ("--times", ["--times", "6.."], TEXT + b" 5\n" + TEXT + b" 6", TEXT + b" 6", TEXT + b" 5", 1),
    ("--crlf", ["--crlf"], TEXT + b"\r", TEXT, b"", 0),
    ("a line that is not UTF-8", [], TEXT + b"\xff", b"", TEXT + b"\xff", 1),
    ("--newline-delimited", ["--newline-delimited"], SPACED + b"\n" + BROKEN, TEXT, BROKEN, 1),
]


def fail(what, why):
    sys.exit(f"forms: {what}, over a line of {len(TEXT)} bytes: {why}")


def run(relay, room, words, text):
    """Runs the program. Returns its status, its output, what it says, and the file of rejected lines."""
    refused = Path(room) / "refused"
    refused.unlink(missing_ok=True)
    done = subprocess.run([relay, *words, "--refused", str(refused)], input=text + b"\n", capture_output=True, check=False)
    return done.returncode, done.stdout, done.stderr, refused.read_bytes() if refused.exists() else b""


def compare(relay, room):
    for what, words, text, output, refused, status in ROWS:
        wanted = status, output and output + b"\n", refused and refused + b"\n"
        has, out, said, left = run(relay, room, words, text)
        if (has, out, left) != wanted:
            fail(what, f"the status is {has}, {len(out)} bytes go out and {len(left)} are rejected, where {wanted[0]}, {len(wanted[1])} and "
                       f"{len(wanted[2])} are wanted: {said[-200:]!r}")
    has, out, said, _ = run(relay, room, ["--now"], SPACED)
    if has != 0 or not re.fullmatch(re.escape(TEXT) + rb" [0-9]{19}\n", out):
        fail("--now", f"the status is {has}, and {len(out)} bytes go out: {said[-200:]!r}")
    for words in ["--faults", "json+text"], ["--faults", "json+text", "--crlf"]:
        has, out, said, _ = run(relay, room, words, BROKEN)
        if has != 1 or out or json.loads(said)["piece"].encode() != BROKEN:
            fail(" ".join(words), f"the status is {has}, and it says {said[:200]!r}")
    for form in ["editor", "raw", "line", "json"]:
        has, out, said, left = run(relay, room, ["--faults", form], BROKEN)
        if has != 1 or out or left != BROKEN + b"\n" or len(said.splitlines()) != 1:
            fail(f"--faults {form}", f"the status is {has}, {len(left)} bytes are rejected, and it says {said[:200]!r}")


def main():
    relay = str(Path(sys.argv[1]).resolve())
    with tempfile.TemporaryDirectory() as room:
        compare(relay, room)
    print(f"forms: lp_relay gives a line of {len(TEXT)} bytes whole in {len(ROWS) + 7} forms")


main()
