"""InfluxDB 1.x and VictoriaMetrics as servers of a check: they are started, ended and started again, lines are posted to them, and they are asked
what they have. Both listen on free ports of the loopback device, and have their data in a folder of the check."""

import collections
import contextlib
import http.client
import json
import re
import resource
import signal
import socket
import subprocess
import sys
import time
import urllib.error
import urllib.parse
import urllib.request
from pathlib import Path

CONFIGURATION = """reporting-disabled = true
bind-address = "127.0.0.1:{backup}"
[meta]
  dir = "{folder}/meta"
[data]
  dir = "{folder}/data"
  wal-dir = "{folder}/wal"
  query-log-enabled = false
[http]
  bind-address = "127.0.0.1:{port}"
  log-enabled = false
  auth-enabled = {auth}
[monitor]
  store-enabled = false
"""
OPENER = urllib.request.build_opener(urllib.request.ProxyHandler({}))
# A program that is ended ends its servers.
signal.signal(signal.SIGTERM, lambda *_: sys.exit(1))
# A connection that was not used for so many seconds is made anew: a server may have closed it.
MOST_IDLE = 20


class Fault(Exception):
    """What is not as it should be, in words."""


def free_ports(count):
    """Ports that nothing listens on."""
    with contextlib.ExitStack() as stack:
        sockets = [stack.enter_context(socket.create_server(("127.0.0.1", 0))) for _ in range(count)]
        return [each.getsockname()[1] for each in sockets]


def call(method, url, body=None, headers=None):
    """The status of an answer, its text and its headers; None if there is none."""
    try:
        with OPENER.open(urllib.request.Request(url, body, headers or {}, method=method), timeout=30) as answer:
            return answer.status, answer.read().decode(), answer.headers
    except urllib.error.HTTPError as refused:
        with refused:
            return refused.code, refused.read().decode(), refused.headers
    except (OSError, http.client.HTTPException):
        return None, "", {}


def until(what, condition, seconds=60):
    """Waits until a condition holds, and gives what it is then."""
    end = time.monotonic() + seconds
    while not (found := condition()):
        if time.monotonic() > end:
            raise Fault(f"not in {seconds} seconds: {what}")
        time.sleep(0.02)
    return found


class Program:
    """A program that listens on a port. Its files are of at most so many bytes, if that is said."""

    def __init__(self, port, words, log, most_file=None):
        self.port, self.words, self.log, self.most_file = port, list(map(str, words)), Path(log), most_file
        self.url = f"http://127.0.0.1:{port}"
        self.connection, self.used = http.client.HTTPConnection("127.0.0.1", port, timeout=600), 0
        self.start()

    def limit(self):
        if self.most_file is not None:
            resource.setrlimit(resource.RLIMIT_FSIZE, (self.most_file, self.most_file))

    def start(self):
        with open(self.log, "ab") as log:
            self.process = subprocess.Popen(self.words, stdout=log, stderr=log, preexec_fn=self.limit)
        until(f"{self.words[0]} listens", lambda: self.process.poll() is not None or call("GET", self.url + "/ping")[0])
        if self.process.poll() is not None:
            raise Fault(f"{self.words[0]} ended: {self.log.read_text(errors='replace')[-500:]}")

    def end(self, how=signal.SIGTERM):
        """Ends it, and gives its status."""
        self.connection.close()
        if self.process.poll() is None:
            self.process.send_signal(how)
        return self.process.wait(60)

    def start_again(self, how=signal.SIGTERM):
        self.end(how)
        self.start()

    def __enter__(self):
        return self

    def __exit__(self, *_):
        self.end()

    def peak(self):
        """The most memory that it took, in kB."""
        return int(Path(f"/proc/{self.process.pid}/status").read_text().split("VmHWM:")[1].split()[0])

    def ask(self, path, body=None, headers=None):
        """The status and the text of an answer, over one connection that is kept."""
        if time.monotonic() - self.used > MOST_IDLE:
            self.connection.close()
        self.connection.request("GET" if body is None else "POST", path, body, headers or {})
        answer = self.connection.getresponse()
        text, self.used = answer.read().decode("utf-8", "surrogateescape"), time.monotonic()
        return answer.status, text

    def write_path(self, db):
        return f"/write?db={db}&precision=ns"

    def write(self, db, text):
        """The status and the text of the answer to lines."""
        return self.ask(self.write_path(db), text)


# A point: its tags are sorted pairs, and its fields are pairs of a key and a value, in the order of their keys.
Point = collections.namedtuple("Point", "name tags fields at")


def in_order(fields):
    """Fields in the order of their keys."""
    return tuple(sorted(fields, key=lambda field: (field[0], str(field[1]))))


def is_now(nanoseconds):
    return abs(nanoseconds - time.time_ns()) < 600e9


def identifier(name):
    """A name as a query spells it."""
    return '"' + name.replace("\\", "\\\\").replace('"', '\\"').replace("\n", "\\n") + '"'


def points_of(series):
    """The points of series that a query gave."""
    for each in series:
        tags = tuple(sorted((key, value) for key, value in each.get("tags", {}).items() if value))
        for at, *values in each["values"]:
            yield Point(each["name"], tags, in_order(pair for pair in zip(each["columns"][1:], values) if pair[1] is not None), at)


class Influx(Program):
    """InfluxDB 1.x. With credentials it takes no other, once they are those of a user."""

    def __init__(self, folder, **credentials):
        self.credentials = credentials
        port, backup = free_ports(2)
        (folder / "influxd").mkdir()
        words = {"port": port, "backup": backup, "folder": folder / "influxd", "auth": "true" if credentials else "false"}
        (folder / "influxd.conf").write_text(CONFIGURATION.format(**words))
        super().__init__(port, ["influxd", "-config", folder / "influxd.conf"], folder / "influxd.log")

    def results(self, text, db=""):
        """The result of each statement of a query."""
        words = urllib.parse.urlencode({"q": text, "db": db, "epoch": "ns"})
        path = f"/query?{urllib.parse.urlencode(self.credentials)}"
        answer = json.loads(self.ask(path, words, {"Content-Type": "application/x-www-form-urlencoded"})[1])
        return answer.get("results", [answer])

    def query(self, text, db=""):
        """The series that a query of one statement gives."""
        return self.results(text, db)[0].get("series", [])

    def points(self, text, db):
        """The points that a query gives."""
        return list(points_of(self.query(text, db)))

    def types(self, db):
        """The type of each field, by its measurement and its key."""
        return {(series["name"], key): kind for series in self.query("SHOW FIELD KEYS", db) for key, kind in series["values"]}


def milliseconds(at):
    """A time as VictoriaMetrics keeps it."""
    return None if at is None else at // 1000000 if at >= 0 else -(-at // 1000000)


# A number of VictoriaMetrics: the names of measurement and field with `_` between them, the labels, the value, and the time in milliseconds.
Sample = collections.namedtuple("Sample", "name tags value at")


def samples_of(point):
    """What VictoriaMetrics has of a point, if it reads what that says. Of a string it keeps 0."""
    return [Sample(f"{point.name}_{key}", point.tags, 0 if isinstance(value, str) else value, milliseconds(point.at)) for key, value in point.fields]


def is_near(wanted, found):
    """Whether a number is kept, but for its last digits."""
    value = found.value == wanted.value or abs(found.value - wanted.value) <= 1e-11 * abs(wanted.value)
    return value and (wanted.name, wanted.tags, wanted.at) == (found.name, found.tags, found.at)


class Victoria(Program):
    """VictoriaMetrics. The name of a database is the label `db`, and what is older than it keeps is dropped."""

    def __init__(self, folder):
        (port,) = free_ports(1)
        words = [f"-httpListenAddr=127.0.0.1:{port}", f"-storageDataPath={folder / 'victoria'}", "-retentionPeriod=100y", "-memory.allowedBytes=64MB"]
        super().__init__(port, ["victoria-metrics", *words], folder / "victoria.log")
        self.asked = 0

    def lines(self, match):
        """What is stored of series of such a label `db`, a line each. The question is another one each time, as answers are kept."""
        self.asked += 1
        self.ask("/internal/force_flush")
        words = {"match[]": f'{{db{match},none!="{self.asked}"}}', "start": "0", "end": str(2**33)}
        return self.ask(f"/api/v1/export?{urllib.parse.urlencode(words)}")[1].split("\n")[:-1]

    @staticmethod
    def samples(line, is_label, is_arrival=is_now):
        """The samples of such a line, without the label `db` if `is_label` says that it is one of the check. A time of arrival is none."""
        series = json.loads(re.sub(r"\+?Inf\b(?=[],])", "Infinity", line))
        labels = {key: value for key, value in series["metric"].items() if key != "db" or not is_label(value)}
        name = labels.pop("__name__", "")
        times = [None if is_arrival(at * 1000000) else at for at in series["timestamps"]]
        return [Sample(name, tuple(sorted(labels.items())), *each) for each in zip(series["values"], times)]


SERVERS = {"influx": Influx, "victoria": Victoria}
