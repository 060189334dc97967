"""What readers in use make of the texts below, and of what lp_relay writes of them, rebuilt, verbatim and canonical: the tables of
docs/INTEROP.md. measure.py compares them with the page, where they are between two marks."""

import json
import re
import subprocess
from dataclasses import dataclass
from pathlib import Path

from client import Fault, is_now

PAGE = Path(__file__).resolve().parents[2] / "docs" / "INTEROP.md"
BEGIN, END = "<!-- what checks/interop.sh measured -->", "<!-- the end of it -->"

# The texts, as the page spells them: SIGNS for bytes that are not seen, `a×9` for nine `a`, and `[FF]` for that byte.
SIGNS = {"⏎": "\n", "⇥": "\t", "␀": "\0", "␍": "\r", "␣": " "}
SAME = [
    r"cpu,host=A,region=west usage=64i 1590488773254420000",
    r"m,b=2,a=1 f=1",
    r"a\ b,c\ d=e\ f g\ h=1",
    r"a\,b,c\,d=e\,f g\,h=1",
    r"m,c\=d=e\=f g\=h=1",
    r"größe,stadt=köln wert=1",
    r'm,t="a" f=1',
    r"m f=-1.5e3,g=1E+2",
    r"m f=007i,g=-0i,h=007,i=-0",
    r"m f=9223372036854775807i,g=-9223372036854775808i",
    r"m a=t,b=T,c=true,d=True,e=TRUE,f=f,g=F,h=false,i=False,j=FALSE",
    r'm s=""',
    r'm s="a \"b\" c"',
    r'm s="C:\\Windows"',
    r'm s="C:\Windows"',
    r'm f=1,s="a⏎b"',
    r'm s="a,b=c d",f=1',
    r"␣m f=1",
    r"m␣␣f=1",
    r"m f=1␣␣5",
    r"⇥m f=1",
    r"⏎⏎m f=1⏎⏎",
    r"# comment⏎m f=1",
    r"m f=1 -1",
    r"m f=1 0",
    r"m f=1 9223372036854775806",
    r"m f=1 -9223372036854775806",
    r"m#x f=1",
    r'"m" f=1',
    r'm,t="x⏎n f=1',
]
REFUSED = [
    r"m",
    r"m,t=v",
    r"m f",
    r"m f=",
    r"m f=a",
    r"m =1",
    r"m,t= f=1",
    r"m,=v f=1",
    r"m, f=1",
    r",t=v f=1",
    r"m f=1 a",
    r"m f=1i2",
    r'm f="a',
    r"m f=9223372036854775808i",
    r"m f=1 9223372036854775808",
    r"m f=1 1.5",
    r"m f=1 5 6",
    r"m f=1, g=2",
    r"m f=1,g",
    r"m,a=1,b= f=1",
    r"m f=NaN",
    r"m f=+1",
    r"m f=tRUE",
    r"m\ f=1",
    r"m,t=a\ f=1",
    r'm s="a\"',
    "m f=1\\",
]
OTHER = [
    r"m,path=C:\Windows f=1",
    r"m,path=C:\\Windows f=1",
    r"C:\temp f=1",
    r"m\\\,x f=1",
    r"m\\\ x f=1",
    r"m,t=a\\\,b f=1",
    r"m a\b=1",
    r"m\=x f=1",
    r'm\"x f=1',
    r'm f\"g=1',
    r"m,t=a\\ f=1",
    r"m\\,t=a f=1",
    r"m f\\=1",
    r"power,lonely,meter=m0077 watts=1",
    r"m,,t=v f=1",
    r"m,t=a=b f=1",
    r"m f,g=1",
    r"m f=1,",
    r"m f=1,,g=2",
    r"m,t=v,t=w f=1",
    r"m f=1,f=2",
    r"m f=1u",
    r"m f=1e400",
    r"m f=1.",
    r"m f=.5,g=-.5",
    r"m f=1 9223372036854775807",
    r"m f=1 -9223372036854775807",
    r"m f=1 -9223372036854775808",
    r"m time=1 5",
    r"m f=1,time=2 5",
    r"m,time=x f=1 5",
    r"m,t=a×70000 f=1",
    r"m f=1␣",
    r"m f=1 5␍⏎n f=2 6␍",
    r'm s="a"␍⏎n s="b"␍',
    r'm f="abc"def',
    r"m⇥n f=1",
    r"m,t=a⇥b f=1",
    r"m␀n f=1",
    r"m,t=[FF] f=1",
    r"m\⏎x f=1",
    r"m,t=a\⏎b f=1",
    r"w\⇥ f=1",
    r'# it a="⏎m b=1i',
    r'# it a="⏎m b=1i⏎n c=2i',
    r"# c\⏎m f=1",
    r"m,path=C:\Windows f=1 5⏎m f⏎n,t=v f=2 6",
    r'm a="x⏎n b=1i⏎o c=1i',
    r"m f=1\⏎n g=2",
]


def raw(text):
    """The bytes that a text of the table stands for."""
    for sign, char in SIGNS.items():
        text = text.replace(sign, char)
    text = re.sub(r"(.)×(\d+)", lambda found: found[1] * int(found[2]), text)
    head, *rest = text.split("[FF]")
    return head.encode() + b"".join(b"\xff" + part.encode() for part in rest)


def spelled(text):
    """A text as the table spells it, as code."""
    text = re.sub(r"(.)\1{99,}", lambda found: f"{found[1]}×{len(found[0])}", text, flags=re.S)
    for sign, char in SIGNS.items():
        if char != " ":
            text = text.replace(char, sign)
    text = re.sub(r"[\udc80-\udcff]", lambda found: f"[{ord(found[0]) - 0xDC00:X}]", text)
    text = re.sub(r"^ | $| (?= )|(?<= ) ", "␣", text).replace("|", r"\|")
    return f"`{text}`" if text else "nothing"


@dataclass
class Reading:
    """What a reader made of a text: its points, and what it says of the rest."""

    points: list
    faults: list


def point(name, tags, fields, at):
    """A point to compare: a field is a key, the name of its type and its value. Neither tags nor fields have an order."""
    values = [(key, kind, float(value) if kind == "float" else value) for key, kind, value in fields]
    return (name, tuple(sorted(tags)), tuple(sorted(values)), at)


def shown_value(kind, value):
    """A value as the table shows it, spelled as in a line, but without escapes."""
    if kind == "string":
        return spelled(f'"{value}"')
    if kind == "float":
        return spelled("%.15g" % value)
    return spelled(str(value) + {"integer": "i", "unsigned": "u", "boolean": ""}[kind])


def shown_series(name, tags):
    """A name and its tags as the table shows them."""
    return spelled(name) + (" with " if tags else "") + ", ".join(f"{spelled(key)} = {spelled(value)}" for key, value in tags)


def shown_point(made):
    """A point as the table shows it."""
    name, tags, fields, at = made
    text = shown_series(name, tags) + ": " + ", ".join(f"{spelled(key)} = {shown_value(kind, value)}" for key, kind, value in fields)
    return text if at is None else f"{text} at {at}"


# What lp_relay makes of a text. Each reader gives what it read, and the place after it.


def name_at(text, at, ends):
    """A name or the body of a string: up to one of `ends` that no backslash comes before."""
    made = ""
    while text[at] not in ends:
        at += text[at] == "\\"
        made += text[at]
        at += 1
    return made, at


def value_at(text, at):
    """The type and the text of a value."""
    if text[at] == '"':
        value, at = name_at(text, at + 1, '"')
        return "string", value, at + 1
    end = re.compile("[, \n]").search(text, at).start()
    value = text[at:end]
    kinds = {"i": "integer", "u": "unsigned", "e": "boolean"}
    kind = kinds.get(value[-1], "float")
    return kind, value.rstrip("iu") if kind in ("integer", "unsigned") else value, end


def pairs_at(text, at, read):
    """Pairs with a comma between two: each key, and what `read` gives at its value."""
    made = []
    while True:
        key, at = name_at(text, at, "=")
        *value, at = read(text, at + 1)
        made.append((key, *value))
        if text[at] != ",":
            return made, at
        at += 1


def written_points(text):
    """The points of lines that lp_relay wrote. There each backslash escapes the byte after it."""
    made, at = [], 0
    while at < len(text):
        name, at = name_at(text, at, ", ")
        tags, stamp = [], None
        if text[at] == ",":
            tags, at = pairs_at(text, at + 1, lambda text, at: name_at(text, at, ", "))
        fields, at = pairs_at(text, at + 1, value_at)
        if text[at] == " ":
            end = text.index("\n", at)
            stamp, at = int(text[at:end]), end
        made.append(point(name, tags, fields, stamp))
        at += 1
    return made


def relayed(program, text, *options):
    """What lp_relay writes of a text, and the fault lines."""
    ran = subprocess.run([program, *options], input=text, capture_output=True, check=False)
    if ran.returncode not in (0, 1):
        raise Fault(f"lp_relay of {text[:99]} ends with status {ran.returncode}: {ran.stderr.decode()}")
    return ran.stdout, ran.stderr.decode()


def shown_relay(text, written, faults):
    """What the table says of what lp_relay made of a text."""
    parts = []
    if written:
        parts.append("as it is" if written in (text, text + b"\n") else spelled(written.removesuffix(b"\n").decode()))
    found = re.findall(r"^item (\d+): (.*?)\n(?=item \d+: |\Z)", faults, re.M | re.S)
    parts += [f"refused: {spelled(told)}" if len(found) == 1 and not written else f"item {at} refused: {spelled(told)}"
              for at, told in found]
    return "; ".join(parts)


# The ways in which lp_relay writes lines, and their options.
REBUILT, VERBATIM, STRICT, BOTH = "rebuilt", "`--verbatim`", "`--strict`", "`--strict --verbatim`"
CANONICAL = "`--strict --canonical`"
WAYS = {REBUILT: [], VERBATIM: ["--verbatim"], STRICT: ["--strict"], BOTH: ["--strict", "--verbatim"],
        CANONICAL: ["--strict", "--canonical"]}


def relayed_by_all(program, text):
    """What lp_relay writes of a text in each way."""
    return {way: relayed(program, text, *options) for way, options in WAYS.items()}


def told_ways(text, ways, made):
    """The ways of which something is told, of what was made of a text in each: another way is as these are."""
    both_as = VERBATIM if made[STRICT] == made[REBUILT] else STRICT
    told = [way for way, other in [(VERBATIM, REBUILT), (STRICT, REBUILT), (BOTH, both_as)] if made[way] != made[other]]
    # Lines that are as they would be rebuilt go out, where all are; and none if some are not.
    rebuilt = ways[STRICT][0]
    if ways[CANONICAL][0] != (rebuilt if rebuilt in text + b"\n" else b""):
        told.append(CANONICAL)
    return [REBUILT, *told]


def shown_ways(text, ways):
    """What the table says of what lp_relay made of a text."""
    first, *others = told_ways(text, ways, ways)
    return "; ".join([shown_relay(text, *ways[first]), *(f"{way}: {shown_relay(text, *ways[way])}" for way in others)])


# What the readers make of a text.


def causes(fault):
    """The causes that InfluxDB gives, without the lines that it repeats."""
    found = re.findall(r"unable to parse '.*?': (.*?)(?: dropped=\d+)?(?=\n(?:unable|partial)|\Z)", fault, re.S)
    return found or ([fault] if fault else [])


class Influx:
    """A server of InfluxDB 1.x."""

    def __init__(self, server):
        self.server = server

    def points(self):
        """The points that are stored. A time of these minutes is none."""
        types = self.server.types("texts")
        for name, tags, fields, at in self.server.points("SELECT * FROM /.*/ GROUP BY *", "texts"):
            told = [(key, types[name, key], str(value).lower() if isinstance(value, bool) else str(value)) for key, value in fields]
            yield point(name, tags, told, None if is_now(at) else at)

    def read(self, text):
        self.server.query('DROP DATABASE "texts"')
        self.server.query('CREATE DATABASE "texts"')
        answer = self.server.write("texts", text)[1]
        faults = [f"refused: {spelled(cause)}" for cause in causes(json.loads(answer)["error"] if answer else "")]
        points = list(self.points())
        if not points:
            keys = [key for series in self.server.query("SHOW SERIES", "texts") for key, in series["values"]]
            faults += [f"the series {spelled(key)}, of which no query finds a field" for key in keys]
        return Reading(points, faults)


# The time that checks/interop.go gives to a point without one.
NO_TIME = 1234567890


class Parser:
    """The parser of InfluxDB 1.x alone."""

    def __init__(self, program):
        self.program = program

    def read(self, text):
        read = json.loads(subprocess.run([self.program], input=text, capture_output=True, check=True).stdout)
        points = []
        for found in read["Points"]:
            stamp = None if found["Time"] == NO_TIME else found["Time"]
            points.append(point(found["Name"], [tuple(tag) for tag in found["Tags"]], found["Fields"], stamp))
        return Reading(points, [f"refused: {spelled(cause)}" for cause in causes(read["Fault"])])


class Victoria:
    """A server of VictoriaMetrics. It keeps numbers, each under the name of its measurement and field. Times are not looked at."""

    def __init__(self, server):
        self.server = server
        self.count = 0

    def read(self, text):
        self.count += 1
        name = f"t{self.count}"
        answer = self.server.write(name, text)[1]
        samples = [each for line in self.server.lines(f'="{name}"') for each in self.server.samples(line, name.__eq__)]
        return Reading([(*each[:2], "%.12g" % (each.value + 0.0)) for each in samples], [f"refused: {spelled(answer)}"] if answer else [])


def stored_by_victoria(points):
    """What VictoriaMetrics makes of points, if it reads what they say."""
    numbers = {"true": 1, "false": 0}
    return [(f"{name}_{key}", tags, "%.12g" % (float(numbers.get(value, 0 if kind == "string" else value)) + 0.0))
            for name, tags, fields, _ in points for key, kind, value in fields]


def shown_number(made):
    """A number of VictoriaMetrics as the table shows it."""
    name, tags, value = made
    return f"{shown_series(name, tags)}: {spelled(value)}"


@dataclass
class Stored:
    """What a reader stores of a text, and of the lines of each way that writes some, as the table says it."""

    text: str
    lines: dict
    told: list

    def shown(self):
        """A cell: what is stored of the text, and what is stored of lines of which something is told, if it is something else."""
        others = [f"{way}: {what}" for way, what in self.lines.items() if way in self.told and what != self.text]
        return "; ".join([self.text, *others])


class Column:
    """A reader, what it stores of points that it reads as lp_relay does, and how the table shows what it stores."""

    def __init__(self, reader, wanted, shown):
        self.reader = reader
        self.wanted = wanted
        self.shown = shown
        self.known = {}

    def part(self, text, points, is_all=True):
        """What the reader makes of a text that says these points, and nothing else if `is_all`."""
        if text not in self.known:
            self.known[text] = self.reader.read(text)
        read, wanted = self.known[text], self.wanted(points)
        if wanted and sorted(read.points) == sorted(wanted) and not (is_all and read.faults):
            return SAME_POINT
        return "; ".join([self.shown(made) for made in sorted(read.points)] + read.faults) or "nothing"

    def stored(self, text, ways):
        """What the reader makes of a text, and of the lines that lp_relay writes of it in each way."""
        plain, strict = (written_points(ways[way][0].decode()) for way in (REBUILT, STRICT))
        lines = {way: self.part(ways[way][0], strict if "--strict" in WAYS[way] else plain) for way in WAYS if ways[way][0]}
        told = told_ways(text, ways, {way: written for way, (written, _) in ways.items()})
        return Stored(self.part(text, plain, not ways[REBUILT][1]), lines, told)


COLUMNS = {
    "influx": lambda place: Column(Influx(place), list, shown_point),
    "parser": lambda place: Column(Parser(place), list, shown_point),
    "victoria": lambda place: Column(Victoria(place), stored_by_victoria, shown_number),
}
SAME_POINT = "the same"
READERS = {"influx": "InfluxDB 1.x", "parser": "its parser alone", "victoria": "VictoriaMetrics"}
COUNTS = ["reader", "lines", "texts that give lines", "stored as without `lp_relay`", "stored as `lp_relay` reads them"]
HEADS = ["text", "`lp_relay` writes", "InfluxDB 1.x stores", "VictoriaMetrics stores"]
ALONE = "; its parser alone: "
PARTS = {
    "Texts that `lp_relay` and InfluxDB read the same": SAME,
    "Texts that both refuse": REFUSED,
    "Texts that they read otherwise": OTHER,
}


@dataclass
class Row:
    """A text as the table spells it, what the table says of the lines of lp_relay, and what each reader stores."""

    text: str
    relay: str
    stored: dict

    def shown(self, name):
        return self.stored[name].shown()

    def cells(self):
        influx, parser = self.shown("influx"), self.shown("parser")
        if parser != influx:
            influx += ALONE + parser
        return [self.text, self.relay, influx, self.shown("victoria")]


def row(program, columns, text):
    """The row of a text."""
    data = raw(text)
    ways = relayed_by_all(program, data)
    return Row(f"`{text}`", shown_ways(data, ways), {name: column.stored(data, ways) for name, column in columns.items()})


def must_be_in(part, made):
    """Refuses a row that is in another part of the page than it should be."""
    if "influx" not in made.stored:
        return
    stored = made.stored["influx"]
    if part is SAME and stored.shown() != SAME_POINT:
        raise Fault(f"InfluxDB does not read {made.text} as lp_relay does, but stores: {stored.shown()}")
    if part is REFUSED and not (made.relay.startswith("refused: ") and stored.text.startswith("refused: ")):
        raise Fault(f"{made.text} is not refused by both, but: {made.relay}; {stored.shown()}")
    if part is OTHER and stored.shown() == SAME_POINT:
        raise Fault(f"InfluxDB reads {made.text} as lp_relay does")


def counted(parts, name):
    """The rows of the counts of one reader."""
    stored = [made.stored[name] for rows in parts.values() for made in rows]
    made = []
    for way in WAYS:
        here = [(each.lines[way], each.text) for each in stored if way in each.lines]
        counts = [len(here), sum(what == text for what, text in here), sum(what == SAME_POINT for what, _ in here)]
        made.append([READERS[name], way, *map(str, counts)])
    return made


def table(heads, rows):
    """The lines of a table."""
    lines = ["| " + " | ".join(cells) + " |" for cells in [heads, *rows]]
    return [lines[0], "|" + "---|" * len(heads), *lines[1:]]


def measured(program, columns):
    """The rows of each part of the page."""
    made = {}
    for title, part in PARTS.items():
        made[title] = [row(program, columns, text) for text in part]
        for each in made[title]:
            must_be_in(part, each)
    return made


def page_text(parts, versions):
    """What is between the marks."""
    lines = table(["reader", "version"], [[READERS[name], version] for name, version in versions.items()])
    lines += ["", f"Of {sum(map(len, parts.values()))} texts:", ""]
    lines += table(COUNTS, [cells for name in versions for cells in counted(parts, name)])
    for title, rows in parts.items():
        lines += ["", f"### {title}", "", *table(HEADS, [made.cells() for made in rows])]
    return "\n".join(lines)


def parts_of_page(begin=BEGIN, end=END):
    """The page before a mark, between two marks, and after them."""
    text = PAGE.read_text(encoding="utf-8")
    if text.count(begin + "\n") != 1 or text.count("\n" + end) != 1:
        raise Fault(f"{PAGE.name} has not once each of the lines {begin} and {end}")
    before, rest = text.split(begin + "\n")
    between, after = rest.split("\n" + end)
    return before + begin + "\n", between, "\n" + end + after


def rows_of_page():
    """The rows of all tables of the page."""
    lines = parts_of_page()[1].splitlines()
    return [line.removeprefix("| ").removesuffix(" |").split(" | ") for line in lines if line.startswith("| ")]


def texts_of_page():
    """What the page says of each text: of the lines of lp_relay, and of what each reader stores."""
    made = {}
    for text, relay, influx, victoria in (cells for cells in rows_of_page() if cells[0].startswith("`") and len(cells) == 4):
        influx, _, parser = influx.partition(ALONE)
        made[text] = {"relay": relay, "influx": influx, "parser": parser or influx, "victoria": victoria}
    return made


def differences(parts, columns):
    """What differs from the page, in words."""
    page, found = texts_of_page(), []
    rows = [made for rows in parts.values() for made in rows]
    for text in sorted(set(page) - {made.text for made in rows}):
        found.append(f"{text} is on the page alone")
    for made in rows:
        if made.text not in page:
            found.append(f"{made.text} is not on the page")
            continue
        old = page[made.text]
        seen = [("`lp_relay`", old["relay"], made.relay)]
        seen += [(READERS[name], old[name], made.shown(name)) for name in columns]
        found += [f"{made.text}, {head}: the page has\n    {was}\nand here it is\n    {now}"
                  for head, was, now in seen if was != now]
    if found:
        return found
    page = rows_of_page()
    return [f"the page has not the row of counts\n    {' | '.join(cells)}"
            for name in columns for cells in counted(parts, name) if cells not in page]


def compare(parts, columns, versions):
    """Refuses what differs from the page, and tells of other versions."""
    page = {cells[0]: cells[1] for cells in rows_of_page() if len(cells) == 2}
    for name, version in versions.items():
        was = page.get(READERS[name], "no version")
        if was != version:
            print(f"interop: {READERS[name]}: the page was made with {was}, and here is {version}")
    found = differences(parts, columns)
    if found:
        raise Fault(f"docs/INTEROP.md differs in {len(found)} places:\n" + "\n".join(found)
                    + "\nrun checks/interop.sh --write RELAY")
    count = sum(map(len, parts.values()))
    names = ", ".join(["lp_relay", *(READERS[name] for name in versions)])
    print(f"interop: {count} texts are read as docs/INTEROP.md says: by {names}")
