#!/usr/bin/env python3
"""Tries lp_gateway before influxd, which this starts and ends. checks/gateway.sh calls it.

    checks/servers/gateway.py GATEWAY FOLDER [TRIAL..]

GATEWAY: the program, built. FOLDER: an empty folder for what it writes, and for the data of influxd. TRIAL: a name of TRIALS, if not all are
wanted. It needs influxdb-python. Status 1: something is not as docs/GATEWAY.md says.
"""

import base64
import contextlib
import gzip
import json
import os
import random
import resource
import shutil
import signal
import socket
import subprocess
import sys
import threading
import time
import urllib.parse
from pathlib import Path

import influxdb
from influxdb.exceptions import InfluxDBClientError

import client
from client import Fault, Program, call, free_ports, until

sys.path.insert(0, str(Path(__file__).resolve().parents[1]))
import portable as oracle

USER, PASSWORD = "writer", "its password"
MISSING = "No fields were provided"
PANIC = "m" + "".join(f",t{n}=v" for n in range(100)) + " n=0i 1"
DISK = Path(sys.argv[2]) / "disk"  # a small one, if it is mounted there


def want(what, got, wanted):
    """Ends the check if something is not as it should be."""
    if got != wanted:
        raise Fault(f"{what}: {got!r}, where {wanted!r} is wanted")


class Influx(client.Influx):
    """The server, and what it has."""

    def __init__(self, folder):
        super().__init__(folder, u=USER, p=PASSWORD)
        self.rows(f"CREATE USER {USER} WITH PASSWORD '{PASSWORD}' WITH ALL PRIVILEGES")

    def rows(self, text, db=""):
        """The rows that a query gives."""
        (result,) = self.results(text, db)
        if "error" in result:
            raise Fault(f"{text}: {result['error']}")
        return [row for series in result.get("series", []) for row in series["values"]]

    def values(self, db, field="n", measurement="m"):
        """The values of a field, in the order of their times."""
        return [value for _, value in self.rows(f'SELECT "{field}" FROM "{measurement}"', db)]


class Trial:
    """A database of its own and, before it, a gateway with options of its own."""

    def __init__(self, influx, folder, program, name, *options, most_file=None):
        self.influx, self.db, self.folder = influx, name, folder / name
        self.folder.mkdir()
        influx.rows(f"CREATE DATABASE {name}")
        self.refused_path = self.folder / "rejected.jsonl"
        (port,) = free_ports(1)
        options = list(options) + ([] if "-spool" in options else ["-spool", str(self.folder / "spool")])
        words = [program, "serve", "-listen", f"http://127.0.0.1:{port}", "-server", influx.url, "-rejected", str(self.refused_path), *options]
        self.gateway = Program(port, words, self.folder / "log", most_file)

    def __enter__(self):
        return self

    def __exit__(self, *_):
        self.gateway.end(signal.SIGKILL)

    def write(self, body, path="/write", headers=None, **query):
        """The status and the text of an answer to a body."""
        query = {"db": self.db, "u": USER, "p": PASSWORD, **query}
        body = body if isinstance(body, bytes) else body.encode()
        words = urllib.parse.urlencode({name: value for name, value in query.items() if value is not None})
        status, text, headers = call("POST", f"{self.gateway.url}{path}?{words}", body, headers)
        want(f"Retry-After of {status}", headers.get("Retry-After"), "1" if status == 503 else None)
        said = json.loads(text) if text else {}
        return status, said.get("error", said.get("message", ""))

    def refused(self):
        """The lines that were refused, with their reasons."""
        text = self.refused_path.read_text() if self.refused_path.exists() else ""
        want("the end of the file of refused lines", text[-1:] in ("", "\n"), True)
        return [json.loads(line) for line in text.split("\n")[:-1]]

    def spool(self):
        """The folder of the spool of the server."""
        return self.folder / "spool" / self.influx.url.removeprefix("http://").replace(":", "_")

    def raw(self):
        return [line.get("piece", line.get("piece_start")) for line in self.refused()]

    def metric(self, name):
        text = call("GET", self.gateway.url + "/metrics")[1]
        values = dict(line.rsplit(" ", 1) for line in text.splitlines() if line[0] != "#")
        return int(sum(float(value) for each, value in values.items() if each.split("{")[0] == "lp_gateway_" + name))

    def drained(self):
        until(f"{self.db}: the spool is empty", lambda: self.metric("spool_bytes") == 0, 100)


class Load:
    """Threads that write lines of their own, and what they were answered by 204."""

    def __init__(self, trial, threads=4):
        self.trial, self.taken, self.going = trial, [[] for _ in range(threads)], True
        self.last = [0] * threads  # the value of a point of each thread that was taken last
        self.threads = [threading.Thread(target=self.write, args=(number,), daemon=True) for number in range(threads)]
        for thread in self.threads:
            thread.start()

    def write(self, thread):
        number = thread << 32
        while self.going:
            lines = range(number, number + 1 + number % 7)
            number = lines.stop
            body = "".join(f"m,w={thread} n={n}i {n}\n" for n in lines) + f"last,w={thread} n={lines[-1]}i 1\n"
            if self.trial.write(body)[0] == 204:
                self.taken[thread] += lines
                self.last[thread] = lines[-1]

    def stop(self):
        """Ends the threads, and gives what was taken."""
        self.going = False
        for thread in self.threads:
            thread.join()
        return {n for taken in self.taken for n in taken}

    def check(self):
        """Ends the threads, and sees that the server has all lines, and no value that is older than the one that was taken last. Gives how many lines."""
        taken, trial = self.stop(), self.trial
        trial.drained()
        if taken - set(trial.influx.values(trial.db)):  # of two writes that make a shard, InfluxDB 1.6.7 may show one only after it starts again
            trial.influx.start_again()
        want(f"the lines that were lost of {len(taken)}", taken - set(trial.influx.values(trial.db)), set())
        rows = trial.influx.results('SELECT n FROM last GROUP BY w', trial.db)[0].get("series", [])
        had = {int(each["tags"]["w"]): each["values"][-1][1] for each in rows}
        old = {thread: (had.get(thread), value) for thread, value in enumerate(self.last) if value > had.get(thread, 0)}
        want("points that have an older value", old, {})
        return len(taken)

    def go_on(self, more):
        """Waits until so many more lines were taken."""
        wanted = sum(map(len, self.taken)) + more
        until(f"{more} more lines are taken", lambda: sum(map(len, self.taken)) >= wanted)


def answers(make):
    """What is answered, kept and stored of bodies that come one by one."""
    with make("answers") as trial:
        writer = influxdb.InfluxDBClient("127.0.0.1", trial.gateway.port, USER, PASSWORD, trial.db)
        want("ping", writer.ping(), "lp_gateway")
        want("write_points", writer.write_points([{"measurement": "m", "tags": {"t": "a b"}, "fields": {"n": 1}, "time": 1}]), True)
        try:
            writer.write(["m n=2i 2", "m n=", "m n=3i 3"], {"db": trial.db}, 204, "line")
            raise Fault("influxdb-python says nothing of a refused line")
        except InfluxDBClientError as error:
            said = json.loads(error.content)["error"]
            want("a partial batch", (error.code, said), (400, f"partial write: line 2: unable to parse 'm n=': {MISSING} dropped=1"))
        want("what is stored", trial.influx.values(trial.db), [1, 2, 3])
        (kept,) = trial.refused()
        want("what is kept", (kept["piece"], kept["line"], kept["db"], kept["text"]), ("m n=", 2, "answers", MISSING))
        want("an empty body", trial.write(""), (204, ""))
        want("comments and blank lines", trial.write("# m n=4i 4\n\n \n# it's \"\nm n=4i 4"), (204, ""))
        want("carriage returns", trial.write("m n=9i 9\r\nm n=5i 5\r")[0], 400)
        want("no good line", trial.write("m n="), (400, f"line 1: unable to parse 'm n=': {MISSING}"))
        said = "partial write: line 2: unable to parse '\ufffd n=1': the line is not UTF-8 dropped=1"
        want("what is not UTF-8", trial.write(b"m n=6i 6\n\xff n=1"), (400, said))
        want("how it is kept", trial.refused()[-1]["piece_base64"], "/yBuPTE=")
        path = "/api/v2/write"
        want("version 2", trial.write("m n=7i 7", path, db=None, bucket=f"{trial.db}/autogen", precision="ns"), (204, ""))
        status, text, _ = call("POST", f"{trial.gateway.url}{path}?bucket={trial.db}&u={USER}&p={urllib.parse.quote(PASSWORD)}", b"m n=8i 8\nm")
        want("its answer", (status, json.loads(text)["code"]), (400, "invalid"))
        want("what is stored then", trial.influx.values(trial.db), [1, 2, 3, 4, 6, 7, 8])
        want("no database", trial.write("m n=1", db=None), (400, "database is required"))
        want("another database", trial.write("m n=1", db="nowhere"), (404, 'database not found: "nowhere"'))
        want("another password", trial.write("m n=1", p="x")[0], 401)
        said = 'partial write: field type conflict: input field "n" on measurement "m" is type boolean, already exists as type integer dropped=1'
        want("a type that differs", trial.write("m n=t 9"), (400, said))
        want("GET", call("GET", trial.gateway.url + "/write?db=x")[0], 405)
        want("another path", call("GET", trial.gateway.url + "/query")[0], 404)
        want("health", json.loads(call("GET", trial.gateway.url + "/health")[1])["status"], "pass")
        want("the count of refused lines", trial.metric("lines_rejected_total"), len(trial.refused()))


def bodies(make):
    """What is packed, in another precision, or too large."""
    with make("bodies", "-max-body", "5000000", "-max-in-flight", "6000000", "-max-line", "100000") as trial:
        packed = {"Content-Encoding": "gzip"}
        want("gzip", trial.write(gzip.compress(b"m n=1i 1\n"), headers=packed), (204, ""))
        want("half of it", trial.write(gzip.compress(b"m n=2i 2\n")[:-5], headers=packed)[0], 400)
        want("no gzip", trial.write("m n=2i 2", headers=packed)[0], 400)
        want("another packing", trial.write("m n=2i 2", headers={"Content-Encoding": "br"})[0], 415)
        for name, line in ("one line", b"\0"), ("refused lines", b"x" * 99 + b"\n"), ("good lines", b"m n=2i\n"):
            want(f"a bomb of {name}", trial.write(gzip.compress(line * (6 * 10**6 // len(line)), 1), headers=packed)[0], 413)
        want("a long line", trial.write("m n=2i 2\nm s=\"" + "x" * 100000 + '"')[0], 400)
        want("what is kept of it", [len(line["piece_start"]) for line in trial.refused()], [100000])
        units = {"n": 1, "ns": 1, "u": 10**3, "us": 10**3, "ms": 10**6, "s": 10**9, "m": 60 * 10**9, "h": 3600 * 10**9}
        for name, unit in units.items():
            want(f"precision {name}", trial.write(f"p,u={name} n={unit}i 400000", precision=name), (204, ""))
        for at, value in trial.influx.rows('SELECT n FROM p', trial.db):
            want(f"a time in {value} nanoseconds", at, 400000 * value)
        want("another precision", trial.write("m n=1", precision="d"), (400, 'invalid precision "d" (use n, u, ms, s, m or h)'))
        header = {"Authorization": "Basic " + base64.b64encode(f"{USER}:{PASSWORD}".encode()).decode()}
        want("credentials in a header", trial.write("m n=3i 3", u=None, p=None, headers=header), (204, ""))
        want("no credentials", trial.write("m n=4i 4", u=None, p=None)[0], 401)
        want("what is stored", trial.influx.values(trial.db), [1, 2, 3])
        want("bytes in flight", trial.metric("in_flight_bytes"), 0)


MOST_MEMORY = 256  # MiB
# What clients hold open that mean no good: how many, a header and a body of each.
HEAD = b"POST /write?db=bounds HTTP/1.1\r\nHost: x\r\nContent-Length: 24000000\r\n"
MANY_REFUSED = gzip.compress(b"x\n" * 160000)
HOSTILE = {
    "nothing": (2000, b"", b""),
    "headers of 900 KB": (1000, HEAD, b"A:\r\n" * 225000),
    "bodies that do not begin": (3000, HEAD, b"\r\n"),
    "packed refused lines": (20, HEAD.replace(b"24000000", b"%d" % len(MANY_REFUSED)), b"Content-Encoding: gzip\r\n\r\n" + MANY_REFUSED),
    "bodies of short lines": (60, HEAD, b"\r\n" + b"m n=1i\n" * 150000),
    "bodies that do not end": (3, HEAD, b"\r\n" + b"m,t=a n=1i 1\n" * 1700000),
}


def bounds(make):
    """Memory and connections, by the options as they come, while clients hold all open that they can: a client beside them is answered by 204."""
    resource.setrlimit(resource.RLIMIT_NOFILE, (min(8192, resource.getrlimit(resource.RLIMIT_NOFILE)[1]),) * 2)
    peaks = []
    for number, (what, (count, head, body)) in enumerate(HOSTILE.items()):
        with make(f"bounds{number}", "-spool", "spool") as trial, contextlib.ExitStack() as stack:
            for _ in range(count):
                held = stack.enter_context(socket.create_connection(("127.0.0.1", trial.gateway.port), 30))
                with contextlib.suppress(OSError):  # it was closed for another one
                    held.sendall(head + body)
            want(f"a client beside {what}", trial.write("m n=1i 1")[0], 204)
            want(f"connections beside {what}", trial.metric("connections") <= 2000, True)
            peaks.append(trial.gateway.peak() >> 10)
            want(f"beside {what}, less than {MOST_MEMORY} MiB", (peaks[-1] < MOST_MEMORY, peaks), (True, peaks))
    return f"at most {max(peaks)} MiB of {peaks}"


def killed(make):
    """The gateway and the server are killed under load, the gateway also while lines are in its spool."""
    with make("killed", "-spool", "spool") as trial:
        load = Load(trial)
        load.go_on(100)
        trial.influx.end(signal.SIGKILL)
        load.go_on(100)
        trial.gateway.end(signal.SIGKILL)
        part = trial.spool() / f"{1 << 60:020d}.part"
        part.write_text("{}\nm n=5i 5")
        trial.gateway.start()
        load.go_on(100)
        trial.influx.start()
        load.go_on(100)
        trial.gateway.end(signal.SIGKILL)
        trial.gateway.start()
        load.go_on(100)
        count = load.check()
        want("what a killed gateway has not finished is there", part.exists(), False)
        return count


def kills(make):
    """The gateway and the server are killed at random, by SIGKILL and SIGTERM, while 8 clients write. KILLS says how often."""
    count, chance = int(os.environ.get("KILLS", "8")), random.Random(int(os.environ.get("SEED", "1")))
    with make("kills", "-spool", "spool") as trial:
        load = Load(trial, 8)
        for _ in range(count):
            time.sleep(chance.random() / 2)
            if chance.random() < 0.7:
                trial.gateway.end(chance.choice((signal.SIGKILL, signal.SIGTERM)))
                trial.gateway.start()
            else:
                trial.influx.end(chance.choice((signal.SIGKILL, signal.SIGTERM)))
                time.sleep(chance.random() / 2)
                trial.influx.start()
        return f"{load.check()} lines, {count} kills"


def each_call(make):
    """Each system call by which the spool changes files fails once, and is the last one of a process that is killed."""
    if not can_watch():
        return "left out"
    done = 0
    for call in ("openat", "write", "fsync", "renameat", "pwrite64", "fdatasync", "unlinkat"):
        for how in ("error=EIO", "error=ENOSPC", "signal=KILL"):
            with make(f"each_{call}_{how.partition('=')[2]}", "-spool", "spool") as trial:
                done += call_fails(trial, call, how)
    return done


def call_fails(trial, call, how):
    """The next two such calls end so, while clients write and the server does not answer, and then answers again. Gives 1 if one was met."""
    trial.influx.process.send_signal(signal.SIGSTOP)
    told = trial.folder / "strace"
    words = ["strace", "-f", "-p", str(trial.gateway.process.pid), "-e", f"trace={call}", "-e", f"inject={call}:{how}:when=3..4"]
    try:
        with open(told, "wb") as log, subprocess.Popen(words, stdout=log, stderr=log) as watching:
            until("strace watches", lambda: " attached" in told.read_text(errors="replace"))
            load = Load(trial, 2)
            time.sleep(1.4)
            trial.influx.process.send_signal(signal.SIGCONT)
            time.sleep(0.3)
            watching.send_signal(signal.SIGINT)
    finally:
        trial.influx.process.send_signal(signal.SIGCONT)
    load.stop()
    with contextlib.suppress(subprocess.TimeoutExpired):  # a write of Go's own that fails ends the program
        trial.gateway.process.wait(0.2)
        trial.gateway.start()
    load.check()
    return int("INJECTED" in told.read_text(errors="replace") or "killed by" in told.read_text(errors="replace"))


def ended(make):
    """The gateway ends by SIGTERM under load, twice."""
    count = 0
    for name in ("ended", "ended_again"):
        with make(name, "-spool", "spool") as trial:
            load = Load(trial)
            load.go_on(100)
            want("the status of a gateway that ended", trial.gateway.end(), 0)
            taken = load.stop()
            want("the lines that were lost", taken - set(trial.influx.values(trial.db)), set())
            count += len(taken)
    return count


def away(make):
    """The server is away, and comes back: lines come in order, each as the same point however often it is sent."""
    with make("away_spool", "-spool", "spool") as trial:
        trial.influx.end()
        for n in range(100):
            want("an answer with a spool", trial.write(f"m n={n}i 5\nt,u=ms n={n}i", precision="ms"), (204, ""))
        want("a refused line meanwhile", trial.write("m n=\nm n=101i 6", precision="ms")[0], 400)
        came = time.time_ns()
        trial.gateway.end()
        trial.gateway.start()
        trial.influx.start()
        trial.drained()
        want("the last value of one time", trial.influx.values(trial.db), [99, 101])
        times = [at for at, _ in trial.influx.rows("SELECT n FROM t", trial.db)]
        want("times of arrival", (len(times) > 1, all(came - 10**10 < at < came and at % 10**6 == 0 for at in times)), (True, True))


def hung(make):
    """The server takes connections and does not answer: lines are kept all the same, and come in order."""
    with make("hung", "-spool", "spool") as trial:
        trial.influx.process.send_signal(signal.SIGSTOP)
        began = time.monotonic()
        try:
            for n in range(20):
                want("an answer while the server hangs", trial.write(f"m n={n}i 5"), (204, ""))
        finally:
            trial.influx.process.send_signal(signal.SIGCONT)
        want("it does not wait for -timeout", time.monotonic() - began < 25, True)
        trial.drained()
        want("the last value of one time", trial.influx.values(trial.db), [19])


def poisoned(make):
    """Lines that the server refuses, or at which it panics, are in the spool among others."""
    poisons = [PANIC, "m f=1,f=t 2", "m n=t 3", 'm n="x" 4', "m n=7u 5", "m,a=1,a=2 n=8i 6"]
    with make("poisoned", "-spool", "spool") as trial:
        want("the types of fields", trial.write("m n=0i,f=1 0"), (204, ""))
        trial.influx.end()
        for number, poison in enumerate(poisons, 1):
            good = [f"m n={number * 100 + n}i {number * 100 + n}" for n in range(20)]
            want("a batch", trial.write("\n".join(good[:7] + [poison] + good[7:])), (204, ""))
        want("a batch of one line", trial.write(PANIC), (204, ""))
        want("a batch of another database", trial.write("m n=1i 1\nm n=2i 2", db="nowhere"), (204, ""))
        want("a batch of another policy", trial.write("m n=1i 1", rp="nowhere"), (204, ""))
        want("a batch behind them", trial.write("m n=9999i 9999"), (204, ""))
        trial.influx.start()
        trial.drained()
        wanted = [0] + [number * 100 + n for number in range(1, len(poisons) + 1) for n in range(20)] + [9999]
        want("what is stored", trial.influx.values(trial.db), wanted)
        want("what is kept", sorted(trial.raw()), sorted([*poisons, PANIC, "m n=1i 1\nm n=2i 2", "m n=1i 1"]))
        want("the count of these", trial.metric("lines_refused_total"), len(poisons) + 4)


def portable(make):
    """No line that is let out as portable makes the server fail."""
    texts = [*(row.text() for row in oracle.rows()), *oracle.random_texts(1, 500)]
    with make("portable", "-spool", "spool", "-portable", "influx1") as trial:
        said = f"partial write: line 2: unable to parse '{PANIC[:200]}': not portable: the tags are 100, 200, 400, 800 and so on dropped=1"
        want("a line at which the server panics", trial.write(f"m n=1i 1\n{PANIC}"), (400, said))
        want("a time of minutes", trial.write("m n=2i 153722868", precision="m")[0], 400)
        counts = {}
        for text in texts:
            status, _ = trial.write(text)
            counts[status] = counts.get(status, 0) + 1
        want("answers by other statuses than 204 and 400", set(counts) - {204, 400}, set())
        trial.drained()  # what the server did not take within a second
        later = [line["text"] for line in trial.refused() if line["kind"] == "refused_by_server"]
        want("lines that the server does not take, but for their types", [why for why in later if "field type conflict" not in why], [])
        return counts


def fill(trial, body_of):
    """Writes bodies until three are answered by 503. Gives the numbers of the others, and of those three."""
    taken, busy = [], []
    for n in range(1, 1000):
        status, _ = trial.write(body_of(n))
        (busy if status == 503 else taken).append(n)
        if len(busy) == 3:
            return taken, busy
    raise Fault(f"{trial.db}: nothing is full after {n} bodies")


def full_refusals(trial):
    """There is no room for refused lines: nothing of their bodies goes out, and no part of a line is kept."""
    taken, busy = fill(trial, lambda n: f"m n={n}i {n}\n" + "x" * 700 + f"{n}")
    want("the lines that are kept", [raw.lstrip("x") for raw in trial.raw()], [str(n) for n in taken])
    want("what is stored", trial.influx.values(trial.db), taken)
    want("a body without refused lines", trial.write("m n=2000i 2000"), (204, ""))
    os.truncate(trial.refused_path, 0)
    want("a refused line once there is room", trial.write("m n=2001i 2001\nx2001")[0], 400)
    want("what is kept then", trial.raw(), ["x2001"])
    want("what is stored then", trial.influx.values(trial.db), [*taken, 2000, 2001])
    return len(taken)


def full_spool(trial):
    """There is no room in the spool: what is answered by 503 is not sent later."""
    trial.influx.end()
    taken, busy = fill(trial, lambda n: "".join(f'm,w={n} n={n}i,s="{"x" * 300}"\n' for _ in range(n)))
    want("files that were not finished", list(trial.folder.glob("**/*.part")), [])
    trial.gateway.end(signal.SIGKILL)
    trial.gateway.start()
    trial.influx.start()
    trial.drained()
    want("what is stored", sorted(trial.influx.values(trial.db)), taken)
    return len(taken)


def can_watch():
    """Whether strace is there, and may watch."""
    return shutil.which("strace") and not subprocess.run(["strace", "-o", os.devnull, "true"], stderr=subprocess.DEVNULL, check=False).returncode


def failing(trial, path, tell):
    """What a body is answered while no sync of this path succeeds, as strace has it."""
    told = trial.folder / "strace"
    words = ["strace", "-f", "-p", str(trial.gateway.process.pid), "-P", str(path), "-e", "trace=fsync", "-e", "inject=fsync:error=EIO"]
    with open(told, "wb") as log, subprocess.Popen(words, stdout=log, stderr=log) as watching:
        until("strace watches", lambda: " attached" in told.read_text())
        said = tell()
        watching.send_signal(signal.SIGINT)
    want(f"a sync of {path} that fails", " = -1 EIO" in told.read_text(), True)
    return said


def synced(make):
    """What the device does not have is not answered by 204: the file of refused lines, a file of the spool, and the names of both."""
    if not can_watch():
        return "left out"
    with make("synced", "-spool", "spool") as trial:
        spool = trial.spool()
        want("a refused line", failing(trial, trial.refused_path, lambda: trial.write("m n=1i 1\nm"))[0], 503)
        want("the name of the file of refused lines", failing(trial, trial.folder, lambda: trial.write("m n=2i 2\nm"))[0], 503)
        want("what is stored of them", trial.influx.rows("SELECT n FROM m", trial.db), [])
        trial.influx.end()
        want("a file of the spool", failing(trial, spool / f"{1:020}.part", lambda: trial.write("m n=3i 3"))[0], 503)
        want("what the spool has", list(spool.glob("*")), [])
        want("the name of a file of the spool", failing(trial, spool, lambda: trial.write("m n=4i 4"))[0], 503)
        want("once the device is well", trial.write("m n=5i 5"), (204, ""))
        trial.influx.start()
        trial.drained()
        want("what is stored then", trial.influx.values(trial.db), [5])
        return "done"


def full(make):
    """A disk is full, a file is as long as it may be, or the spool is."""
    counts = []
    with make("full_file", most_file=16384) as trial:
        counts.append(full_refusals(trial))
    with make("full_files", "-spool", "spool", most_file=16384) as trial:
        counts.append(full_spool(trial))
    with make("full_spool", "-spool", "spool", "-max-spool", "100000") as trial:
        counts.append(full_spool(trial))
    if os.path.ismount(DISK):
        with make("full_disk", "-rejected", f"{DISK}/rejected.jsonl") as trial:
            trial.refused_path = DISK / "rejected.jsonl"
            counts.append(full_refusals(trial))
            os.remove(trial.refused_path)
        with make("full_disk_spool", "-spool", f"{DISK}/spool") as trial:
            counts.append(full_spool(trial))
    return counts


TRIALS = [answers, bodies, bounds, hung, killed, kills, each_call, ended, synced, full, poisoned, portable, away]


def main():
    """Runs the trials, and says how long each took."""
    program, folder = sys.argv[1], Path(sys.argv[2])
    influx = Influx(folder)

    def make(name, *options, **more):
        return Trial(influx, folder, program, name, *(str(folder / name / each) if each == "spool" else each for each in options), **more)

    try:
        for trial in TRIALS:
            if trial.__name__ in (sys.argv[3:] or [trial.__name__]):
                began = time.monotonic()
                said = trial(make)
                print(f"gateway: {trial.__name__}: {said or 'done'}, {time.monotonic() - began:.1f} s", flush=True)
    except Fault as fault:
        print(f"gateway: {fault}")
        return 1
    finally:
        influx.end()
    return 0


if __name__ == "__main__":
    sys.exit(main())
