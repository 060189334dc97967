#!/usr/bin/env python3
"""Posts lines that are portable to a server, and asks whether it has each as the strict reader reads it: then, after a kill -9, and after a
clean restart. checks/servers.sh calls it.

    checks/servers/lines.py FOLDER READER..

FOLDER: has for each READER, `influx` or `victoria`, a file of this name that checks/golang/lines_test.go wrote, and is the place for the data of
the servers. A line that comes right after another one may be of the same series, in another spelling. Each line is posted in a request of its
own, over one connection, and then in batches of 1,000; and its points are asked for by its names.
"""

import json
import signal
import sys
import time
from collections import Counter
from itertools import islice
from pathlib import Path

import client
from client import Point, identifier, in_order, is_near, points_of, samples_of

# The lines have times before this one, so a later time is that of their arrival.
LATEST = 1700000000000000000
BATCH = 1000
# So many lines are asked for in one request.
ASKED = 50
# Both ways of posting. Each batch, or so many lines of one request each, have a database of InfluxDB.
WAYS = ("one", "batch")


def value_of(shown):
    """A value as lines_test.go shows it."""
    if shown.startswith('"'):
        return shown[1:-1]
    if shown in ("true", "false"):
        return shown == "true"
    return int(shown[:-1]) if shown[-1] in "iu" else float(shown)


def in_tens(what, items, count):
    """The items, while it is told how many of them were done."""
    for place, item in enumerate(items, 1):
        yield item
        if place * 10 // count != (place - 1) * 10 // count and place != count:
            print(f"servers: {what}: {place} of {count}", file=sys.stderr, flush=True)


def split(items, size):
    """The items by so many."""
    left = iter(items)
    while part := list(islice(left, size)):
        yield part


def read(path):
    """The lines of a file: their texts and their points."""
    made = []
    with open(path, encoding="utf-8") as file:
        for line in file:
            each = json.loads(line)
            fields = tuple((key, value_of(shown)) for key, shown in each["Fields"])
            made.append((each["Text"], Point(each["Name"], tuple(sorted(map(tuple, each["Tags"]))), in_order(fields), each["At"])))
    return made


class Asked:
    """A server, and how often it answered by each status."""

    def __init__(self, server):
        self.server = server
        self.answers = Counter()

    def write(self, name, texts):
        """Posts lines, and counts the status. What is said of lines that are refused is told."""
        text = "\n".join(texts) + "\n"
        status, told = self.server.write(name, text.encode())
        self.answers[status] += 1
        if status != 204:
            print(f"servers: {status} for {text[:200]!r}: {told[:300]}", file=sys.stderr)


class Influx(Asked):
    """InfluxDB 1.x: each thousand lines have a database."""

    def create(self, way, count):
        for place in range(0, count, BATCH):
            self.server.query(f'CREATE DATABASE "{way}{place // BATCH}"')

    def name(self, way, place):
        return f"{way}{place // BATCH}"

    def missing(self, way, lines):
        """Of each line that is not there as it is read: its text, and what is there."""
        for place, part in enumerate(in_tens(f"asked for, {way}", split(lines, BATCH), -(-len(lines) // BATCH))):
            name = f"{way}{place}"
            types = self.server.types(name)
            yield from unasked({one for one, _ in types} - {point.name for _, point in part})
            for some in split(part, ASKED):
                yield from self.missing_of(name, types, some)

    def missing_of(self, name, types, lines):
        """The same of a few lines."""
        points = dict.fromkeys(point.name for _, point in lines)
        asked = [f"SELECT * FROM {identifier(one)} GROUP BY *" for one in points]
        asked += [f"SELECT {fields_of(one, lines)} FROM {identifier(one)} GROUP BY *" for one in points]
        found = [list(points_of(each.get("series", []))) for each in self.server.results(";".join(asked), name)]
        by_name = {one: (whole, named) for one, whole, named in zip(points, found, found[len(points):])}
        for text, point in lines:
            whole, named = by_name[point.name]
            has_types = all(types.get((point.name, key)) == TYPES[type(value)] for key, value in point.fields)
            if not has_types or not has_once(point, whole) or not has_once(point, named):
                yield text, whole


def unasked(names):
    """What is there of no line, as lines that are not there."""
    return [(f"what no line has: {name}", None) for name in names]


TYPES = {float: "float", int: "integer", str: "string", bool: "boolean"}


def fields_of(name, lines):
    """The fields of a measurement in such lines, as a query names them."""
    keys = dict.fromkeys(key for _, point in lines if point.name == name for key, _ in point.fields)
    return ", ".join(f"{identifier(key)}::field" for key in keys)


def is_value(wanted, found):
    """Whether a value of InfluxDB's answer is this one. A float may be told as digits of no end, or as an integer."""
    if isinstance(wanted, float):
        return isinstance(found, (int, float)) and float(found) == wanted
    return type(wanted) is type(found) and wanted == found


def is_point(wanted, found):
    at = found.at > LATEST if wanted.at is None else found.at == wanted.at
    values = dict(found.fields)
    is_whole = len(values) == len(wanted.fields) and all(key in values and is_value(value, values[key]) for key, value in wanted.fields)
    return at and is_whole and (wanted.name, wanted.tags) == (found.name, found.tags)


def has_once(wanted, points):
    return sum(is_point(wanted, point) for point in points) == 1


class Victoria(Asked):
    """VictoriaMetrics: a way is a label of each series, if a line has no tag `db`. Of a string some number is there, or none."""

    def create(self, way, count):
        pass

    def name(self, way, place):
        return way

    def series(self, match):
        """The samples of all series of such a label, by the name and the tags, of which the label is none if it is a way."""
        made = {}
        for line in self.server.lines(match):
            for sample in self.server.samples(line, WAYS.__contains__, LATEST.__lt__):
                made.setdefault((sample.name, sample.tags), []).append(sample)
        return made

    def missing(self, way, lines):
        """Of each line that is not there as it is read: its text, and what is there."""
        stored, own, known = self.series(f'="{way}"'), self.series('!~"one|batch"'), set()
        for text, point in lines:
            has_label = "db" in dict(point.tags)
            for wanted, (_, value) in zip(samples_of(point), point.fields):
                known.add((wanted.name, wanted.tags))
                samples = (own if has_label else stored).get((wanted.name, wanted.tags), [])
                is_there = [True] if isinstance(value, str) else [is_near(wanted, each) for each in samples]
                if sum(is_there) not in ((1, 2) if has_label else (1,)):
                    yield text, samples
                    break
        yield from unasked((stored | own).keys() - known)


def post(asked, lines):
    """Posts the lines in both ways."""
    for way in WAYS:
        asked.create(way, len(lines))
    for place, (text, _) in enumerate(in_tens("posted one by one", lines, len(lines))):
        asked.write(asked.name("one", place), [text])
    for place, part in enumerate(split(lines, BATCH)):
        asked.write(asked.name("batch", place * BATCH), [text for text, _ in part])
    told = ", ".join(f"{count} of {status}" for status, count in sorted(asked.answers.items()))
    print(f"servers: {len(lines)} lines, one by one and in batches of {BATCH}: answers: {told}", flush=True)
    return set(asked.answers) == {204}


def ask(asked, lines, when):
    """Asks for the lines of both ways."""
    found = [(way, *each) for way in WAYS for each in asked.missing(way, lines)]
    for way, text, stored in found[:10]:
        print(f"servers: {way}: {text[:300]!r} is not there: {str(stored)[:600]}", file=sys.stderr)
    print(f"servers: {when}: of {len(lines)} lines, in each way, {len(found)} are not there as the strict reader reads them", flush=True)
    return not found


READERS = {"influx": Influx, "victoria": Victoria}


def search(folder, reader):
    """Posts lines to a server, asks for them, and asks again after each restart. VictoriaMetrics writes what it took to its files some seconds
    later, which is waited for before it is killed."""
    lines = read(folder / reader)
    data = folder / f"{reader}_data"
    data.mkdir()
    with client.SERVERS[reader](data) as server:
        asked = READERS[reader](server)
        is_right = [post(asked, lines), ask(asked, lines, reader)]
        if reader == "victoria":
            time.sleep(15)
        server.start_again(signal.SIGKILL)
        is_right.append(ask(asked, lines, f"{reader}, killed and started again"))
        server.start_again()
        is_right.append(ask(asked, lines, f"{reader}, ended and started again"))
    return all(is_right)


def main(words):
    if len(words) < 2:
        print(__doc__, file=sys.stderr)
        return 2
    try:
        return 0 if all([search(Path(words[0]), reader) for reader in words[1:]]) else 1
    except client.Fault as fault:
        print(f"servers: {fault}", file=sys.stderr)
        return 1


if __name__ == "__main__":
    sys.exit(main(sys.argv[1:]))
