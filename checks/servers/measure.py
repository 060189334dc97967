#!/usr/bin/env python3
"""Measures what servers store of the texts of interop.py and batches.py, before and after a restart, and compares it with docs/INTEROP.md and
portable_rows.txt. Then posting.sh posts to the servers by the lines of the page, and sending.sh by examples/send.sh. checks/interop.sh calls it.

    checks/servers/measure.py [--write | --print] FOLDER RELAY [READER=VERSION[=PROGRAM]..]

FOLDER: an empty folder, for the data of the servers. RELAY: a built lp_relay. READER: `influx` or `victoria`, which this starts and ends, or
`parser`, the PROGRAM that checks/interop.go is built to. `--write` writes the tables into the page, and `--print` prints them. Of a reader that
is not named nothing is compared.
"""

import contextlib
import shutil
import subprocess
import sys
from pathlib import Path

import batches
import interop
from client import SERVERS, Fault

HERE = Path(__file__).resolve().parent.parent


def put(mode, text, begin, end):
    """Prints the text of tables, or writes it between two marks of the page."""
    if mode == "--print":
        print(text)
        return
    before, _, after = interop.parts_of_page(begin, end)
    interop.PAGE.write_text(before + text + after, encoding="utf-8")
    print("interop: docs/INTEROP.md is written")


def measure(mode, relay, servers, versions, parser):
    """Measures the tables of interop.py, and then those of batches.py; compares them, or puts them where they are wanted."""
    if mode and len(versions) != len(interop.COLUMNS):
        raise Fault(f"{mode} takes all readers, and there are only: {' '.join(versions)}")
    asked = servers | ({"parser": parser} if parser else {})
    columns = {name: interop.COLUMNS[name](asked[name]) for name in versions}
    parts = interop.measured(relay, columns)
    if mode:
        put(mode, interop.page_text(parts, versions), interop.BEGIN, interop.END)
    else:
        interop.compare(parts, columns, versions)
    if not servers:
        return
    if shutil.which("curl") is None:
        command = '. "$0"; left_out "batches and lines of docs/INTEROP.md with servers" "there is no curl"'
        subprocess.run(["bash", "-c", command, HERE / "left_out.sh"], check=True)
        return
    state = batches.before_restart(relay, servers, parser)
    for server in servers.values():
        server.start_again()
    batches.add_restart(state, servers)
    if mode:
        put(mode, batches.page_text(state), batches.BEGIN, batches.END)
        return
    batches.compare(state)
    for script in "posting.sh", "sending.sh":
        subprocess.run([HERE / script, relay, *(f"{name}={server.url}" for name, server in servers.items())], check=True)


def main(words):
    mode = words.pop(0) if words and words[0] in ("--write", "--print") else ""
    if len(words) < 2 or words[0].startswith("-"):
        print(__doc__, file=sys.stderr)
        return 2
    folder, relay, *readers = words
    named = {name: rest for name, _, rest in (word.partition("=") for word in readers)}
    versions = {name: rest.partition("=")[0] for name, rest in named.items()}
    try:
        with contextlib.ExitStack() as stack:
            servers = {name: stack.enter_context(SERVERS[name](Path(folder))) for name in named if name in SERVERS}
            measure(mode, relay, servers, versions, named.get("parser", "").rpartition("=")[2])
    except Fault as fault:
        print(f"interop: {fault}", file=sys.stderr)
        return 1
    except subprocess.CalledProcessError:
        return 1
    return 0


if __name__ == "__main__":
    sys.exit(main(sys.argv[1:]))
