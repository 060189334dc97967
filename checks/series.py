#!/usr/bin/env python3
"""Whether lp_series tells what Python reckons by itself of the same lines.

    checks/series.py RELAY SERIES FILE..

RELAY and SERIES: the programs lp_relay and lp_series. Of each FILE the lines that can be read are those that the relay lets out as they came,
in each dialect. Python reads their names by the rules of docs/FORMAT.md, and counts them. What `--json` tells must be the same; `--key` must
give each line after its key, but for those with a name that is not admitted; and `--shard` must give each line by the FNV-1a hash of its key.
With so few series as to be too many (`--max-series`) the totals must stay, and each series that is kept must have all of its points.
"""

import functools
import json
import re
import subprocess
import sys

DIALECTS = [[], ["--strict"], ["--newline-delimited"]]
SHARDS = 3
FEW = [1, 5]

ANY = rb"\\[\s\S]"
MEASUREMENT = re.compile(rb"(?:[^ \t\n\0,\\]|" + ANY + rb")+")
TAG = re.compile(rb",((?:[^ \t\n=\\]|" + ANY + rb")+)=((?:[^ \t\n,\\]|" + ANY + rb")+)")
FIELD = re.compile(rb"((?:[^ \t\n=\\]|" + ANY + rb")+)=(\"(?:[^\"\\]|" + ANY + rb")*\"|-?[0-9][0-9.eE+-]*[iu]?|[A-Za-z]+)")
REST = re.compile(rb",?(?: +(-?[0-9]+))? *\n")
BLANK = re.compile(rb"(?:[ \t\n]|#[^\n]*)*")
TYPES = {b'"': "string", b"t": "boolean", b"T": "boolean", b"f": "boolean", b"F": "boolean"}
ORDER = ["float", "integer", "unsigned", "string", "boolean"]


def logical(text, known):
    return re.sub(rb"\\([" + re.escape(known) + rb"])", rb"\1", text) if b"\\" in text else text


def type_of(value):
    return TYPES.get(value[:1]) or {b"i": "integer", b"u": "unsigned"}.get(value[-1:], "float")


def escaped(name, known):
    return re.sub(rb"([" + re.escape(known) + rb"])", rb"\\\1", name)


def key_of(measurement, tags):
    tags = sorted(tags, key=lambda tag: tag[0])
    return escaped(measurement, b", \\") + b"".join(b"," + escaped(key, b",= \\") + b"=" + escaped(value, b",= \\") for key, value in tags)


def hash_of(text):
    """FNV-1a of 64 bits."""
    return functools.reduce(lambda so_far, byte: (so_far ^ byte) * 1099511628211 % 2**64, text, 14695981039346656037)


def is_admitted(name, is_measurement=False):
    bad = not name or b"\t" in name or b"\n" in name or name.endswith(b"\\")
    return not (bad or is_measurement and (b"\0" in name or name.startswith(b"#")))


def lines_of(text):
    """Of each line that went out as it came: the piece, the line itself, its measurement, tags, fields and time."""
    at = 0
    while at < len(text):
        start = BLANK.match(text, at).end()
        name = MEASUREMENT.match(text, start)
        measurement, end, tags, fields = logical(name[0], b", \\"), name.end(), [], []
        while tag := TAG.match(text, end):
            tags.append((logical(tag[1], b",= \\"), logical(tag[2], b",= \\")))
            end = tag.end()
        end = re.compile(rb" +").match(text, end).end()
        while field := FIELD.match(text, end):
            fields.append((logical(field[1], b",= \\"), type_of(field[2])))
            end = field.end()
            if text[end:end + 1] != b"," or not FIELD.match(text, end + 1):
                break
            end += 1
        rest = REST.match(text, end)
        yield text[at:rest.end()], text[start:rest.end()], measurement, tags, fields, rest[1]
        at = rest.end()


def run(*words):
    return subprocess.run(words, stdout=subprocess.PIPE, stderr=subprocess.DEVNULL, check=False).stdout


def counted(text, lines):
    """What `--json` must tell."""
    times = [int(re.sub(rb"^(-?)0+(?=[0-9])", rb"\1", time)) for *_, time in lines if time is not None]
    measurements, tag_values, keys = {}, {}, set()
    for _, _, measurement, tags, fields, _ in lines:
        key = key_of(measurement, tags)
        keys.add(key)
        of = measurements.setdefault(measurement.decode(), {"points": 0, "series": set(), "fields": {}})
        of["points"] += 1
        of["series"].add(key)
        for name, kind in fields:
            of["fields"].setdefault(name.decode(), set()).add(kind)
        for name, value in tags:
            tag_values.setdefault(name.decode(), set()).add(value)
    return {
        "bytes": len(text), "lines": text.count(b"\n") + (not text.endswith(b"\n") and text != b""),
        "points": len(lines), "without_time": len(lines) - len(times),
        "least_time": min(times, default=None), "greatest_time": max(times, default=None),
        "series": len(keys), "points_beyond": 0,
        "measurements": {name: {"points": of["points"], "series": len(of["series"]),
                                "fields": {field: sorted(kinds, key=ORDER.index) for field, kinds in of["fields"].items()}}
                         for name, of in measurements.items()},
        "tag_values": {name: len(values) for name, values in tag_values.items()},
    }


def refused_of(relay, *words):
    """How many items were refused for each kind of fault, as the relay's summary tells it."""
    told = subprocess.run([relay, "--check", "--verbatim", "--faults", "json", "--summary", *words], stderr=subprocess.PIPE, check=False).stderr
    return json.loads(told.splitlines()[-1])["summary"]["kinds"]


def differs(what, given, wanted):
    if given != wanted:
        at = next((at for at, (a, b) in enumerate(zip(given, wanted)) if a != b), min(len(given), len(wanted))) if isinstance(given, bytes) else 0
        sys.exit(f"series: {what} gives\n{given[at:at + 300] if at or isinstance(given, bytes) else given}\nand not\n"
                 f"{wanted[at:at + 300] if at or isinstance(given, bytes) else wanted}")


def compare_few(series, most, lines, wanted, words):
    """With so few series the totals stay, and the first series that come are kept, with all of their points."""
    what = f"--max-series {most} {' '.join(words)}"
    few = json.loads(run(series, "--json", "--max-series", str(most), *words))
    del few["refused"], few["items_refused"]
    totals = ["bytes", "lines", "points", "without_time", "least_time", "greatest_time"]
    differs(what, [few[key] for key in totals], [wanted[key] for key in totals])
    kept = set(list(dict.fromkeys(key_of(line[2], line[3]) for line in lines))[:most])
    within = [line for line in lines if key_of(line[2], line[3]) in kept]
    none = dict.fromkeys(totals, 0)
    differs(what, {**few, **none}, {**counted(b"", within), "points_beyond": len(lines) - len(within), **none})


def compare(relay, series, name):
    with open(name, "rb") as file:
        text = file.read()
    for dialect in DIALECTS:
        lines = list(lines_of(run(relay, "--verbatim", *dialect, name)))
        what = f"{' '.join(dialect)} {name}"
        wanted = counted(text, lines)
        told = json.loads(run(series, "--json", *dialect, name))
        refused, items_refused = told.pop("refused"), told.pop("items_refused")
        differs(f"--json {what}", told, wanted)
        differs(f"the refused items of --json {what}", refused, refused_of(relay, *dialect, name))
        differs(f"their number of --json {what}", items_refused, sum(refused.values()))
        for most in FEW:
            compare_few(series, most, lines, wanted, [*dialect, name])
        for shard in range(SHARDS):
            mine = b"".join(line[0] for line in lines if hash_of(key_of(line[2], line[3])) % SHARDS == shard)
            differs(f"--shard {shard}/{SHARDS} {what}", run(series, "--shard", f"{shard}/{SHARDS}", *dialect, name), mine)
        if dialect == ["--newline-delimited"]:
            keyed = b"".join(key_of(measurement, tags) + b"\t" + line for _, line, measurement, tags, fields, _ in lines
                             if is_admitted(measurement, True) and all(is_admitted(part) for tag in tags for part in tag)
                             and all(is_admitted(field) for field, _ in fields))
            differs(f"--key {name}", run(series, "--key", name), keyed)
    return len(lines), wanted["series"]


def main():
    relay, series, *names = sys.argv[1:]
    told = [compare(relay, series, name) for name in names]
    print(f"series: {len(told)} files, of {sum(lines for lines, _ in told)} lines and {sum(of for _, of in told)} series, as Python counts them")


main()
