#!/usr/bin/env python3
"""A stub of InfluxDB 1.x for checks/sending.sh, which answers as docs/INTEROP.md has it measured, or as it is told.

    checks/sending.py FOLDER

It writes to FOLDER/port its port, and one where no server is; to FOLDER/calls for each call the code of its answer, a colon, and the last word of each line that came,
which is its time if it has one; to FOLDER/stored the same of the lines that it stores; and to FOLDER/words the header by which a caller
says who it is. The next line of FOLDER/answers says how the next call is answered: by a code, or `close`, `cut`, `slow` or `hold`, and
with `stored` after it the lines are stored. If there is none, what the lines hold says it: `judged` has the rules.
"""

import json
import os
import re
import socket
import sys
import time
from http.server import BaseHTTPRequestHandler, ThreadingHTTPServer
from pathlib import Path

FOLDER = Path(sys.argv[1])
CONFLICT = 'field type conflict: input field "f" on measurement "m" is type boolean, already exists as type float'
TEXTS = {"401": "authorization failed", "403": "red\x9b31m\u202e", "404": 'database not found: "d"', "413": "Request Entity Too Large"}


def lines_of(body):
    """The lines of a body; a newline within a string is a byte of its line, and the last line may lack its own."""
    return re.findall(r'(?:[^"\n\\]|\\.|"(?:[^"\\]|\\.)*")+(?:\n|\Z)', body, re.DOTALL)


def words_of(lines):
    """The last word of each line."""
    return [each.split()[-1] for each in lines]


def note(name, text):
    """Adds a line to a file."""
    with open(FOLDER / name, "a") as file:
        file.write(f"{text}\n")


def told():
    """What is told of the next answer: its words, or none."""
    answers = FOLDER / "answers"
    if not answers.exists() or not answers.read_text():
        return []
    first, rest = answers.read_text().split("\n", 1)
    answers.write_text(rest)
    return first.split()


def judged(body, lines):
    """The code and the text by which a body is answered, and the lines of it that are stored."""
    limit = FOLDER / "limit"
    if limit.exists() and len(body) > int(limit.read_text()):
        return "413", TEXTS["413"], []
    if (FOLDER / "full").exists() and lines:
        return "500", "no space left on device", []
    if "boom" in body:
        return "500", None, []
    if "odd" in body:
        return "400", "odd", []
    good = [each for each in lines if "bad" not in each]
    faults = {CONFLICT: [], "points beyond retention policy": []}
    kept = []
    for line in good:
        outside = re.sub(r'"(?:[^"\\]|\\.)*"', '""', line)
        mark = CONFLICT if "f=t" in outside else "points beyond retention policy" if "old" in outside else None
        faults.get(mark, kept).append(line)
    # Of more faults the first one alone is told.
    for text, dropped in faults.items():
        if dropped:
            return "400", f"partial write: {text} dropped={len(dropped)}", kept
    if good != lines:
        text = "\n".join(f"unable to parse '{each.rstrip(chr(10)).lstrip()}': invalid\x9bnumber" for each in lines if "bad" in each)
        return "400", f"partial write: {text} dropped=0" if good else text, good
    return "204", "", lines


def in_json(text):
    """An error as Go writes it."""
    text = json.dumps({"error": text}, ensure_ascii=False, separators=(",", ":"))
    return re.sub("[<>&]", lambda letter: f"\\u{ord(letter[0]):04x}", text)


class Handler(BaseHTTPRequestHandler):
    """Answers one call after another."""

    protocol_version = "HTTP/1.1"

    def log_message(self, *_):
        pass

    def do_POST(self):
        body = self.rfile.read(int(self.headers["Content-Length"])).decode()
        lines = lines_of(body)
        code, text, stored = judged(body, lines)
        if words := told():
            code, text, stored = words[0], TEXTS.get(words[0]), lines if words[1:] else []
        note("calls", f"{code}:{','.join(words_of(lines))}")
        for word in words_of(stored):
            note("stored", word)
        note("words", self.headers["Authorization"])
        self.close_connection = code in ("close", "cut", "slow")
        if code == "slow":
            time.sleep(2)
        if code == "hold":
            while not (FOLDER / "go").exists():
                time.sleep(0.01)
        if code == "close":
            return
        answer = "" if code in ("204", "hold", "slow") else in_json(text) if text else "Internal\nServer Error"
        self.send_response({"hold": 204, "slow": 204, "cut": 400}.get(code) or int(code))
        self.send_header("Content-Length", str(1000 if code == "cut" else len(answer.encode())))
        self.end_headers()
        self.wfile.write(answer.encode())


server = ThreadingHTTPServer(("127.0.0.1", 0), Handler)
closed = socket.socket()
closed.bind(("127.0.0.1", 0))
(FOLDER / "port.new").write_text(f"{server.server_port} {closed.getsockname()[1]}\n")
os.rename(FOLDER / "port.new", FOLDER / "port")
server.serve_forever()
