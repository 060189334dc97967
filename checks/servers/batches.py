"""What servers store of a text and of the lines around it in one call, and what they have after a restart: the last tables of
docs/INTEROP.md, and the rows of portable_rows.txt. measure.py asks for what is measured before and after it starts the servers again, and
compares it with the page. No parser of VictoriaMetrics is asked."""

import json
import re
import subprocess
import sys
import time
from dataclasses import dataclass

import interop
from client import Fault, Point, identifier, in_order, is_near, is_now, samples_of
from interop import spelled

sys.path.insert(0, str(interop.PAGE.parents[1] / "checks"))
import portable

BEGIN, END = "<!-- what checks/interop.sh measured of batches -->", "<!-- the end of the batches -->"
# The lines before and after each text of the page, and the line after each of portable_rows.txt, whose time is that of most rows: points
# of one week are stored together.
BEFORE, AFTER = b"before z=1 5\n", b"after z=1 5\n"
AFTER_ROW = b"after z=1 1590488773254000000\n"
AROUND = ("after", "before")
LARGE = 1000000

# The texts, as the page spells them. A text that begins with another one, and ` then `, is posted after that. `{TEXT}×9` is nine times
# TEXT, with the number of each, from 0 on, in the place of an N. At a PAUSE, before the newline of a text, the call waits.
PAUSE = "⏸"
INFLUX = [
    r"m f=1 5⏎m f=t 6",
    r"m f=1 5 then m f=2 6⏎m f=t 7",
    r"m f=1,f=t 5",
    r"m f=1i,f=1 5",
    r"m f=1,f=t 1590488773254420000",
    r"m{,tN=v}×99 f=1 5",
    r"m{,tN=v}×100 f=1 5",
    r"m{,tN=v}×101 f=1 5",
    r"m{,tN=v}×200 f=1 5",
    r"m{,tN=v}×400 f=1 5",
    r"{m f=1 N⏎}×999998",
    r"{m f=1 N⏎}×999999",
    r"m f=1 -1 then {m f=1 N⏎}×1000001",
    r'{m s="x×8333319" N⏎}×3',
    r'{m s="x×8333320" N⏎}×3',
    r"m f=1u 5",
    r"m,t=v,t=w f=1 5",
    r"m,a,b=v f=1 5",
    r"m time=1 5",
    r"m ␀f=1 5",
    r'm\"x f=1 5',
    r"a␍b f=1 5",
    r"m f␍g=1 5",
    r"_series f=1 5",
    r"_name f=1 5",
    r"m _name=1 5",
    r"m _tagKey=1 5",
    r"m,t=a#!~#b f=1 5",
    r"m#!~#x f=1 5",
    r"m,t=a#!~ f=1 5",
    r"m,t=a#!~b f=1 5",
    r"m,t=a f#!~#g=1 5",
]
VICTORIA = [
    r'm s="⏎o b=7⏎" 5',
    r'm s="⏎o b=7 1590488773254420000⏎" 5',
    r'm f=1,s="a⏎o b=7 5⏎b" 5',
    r'm s="a␍b" 5',
    r'm s="12" 5',
    r'm s="inf" 5',
    r'm s="nan" 5',
    r'm k"=1 5',
    r'm k"=1,l=2 5',
    r"m k'=1,l=2 5",
    r'm s="x×262136" 5⏸',
    r'm s="x×262137" 5⏸',
    r'm s="x×600000" 5',
    r"m{,tN=v}×29 f=1 5",
    r"m{,tN=v}×30 f=1 5",
    r"m{,uN=v}×31 f=1 5",
    r"m,k×256=v f=1 5",
    r"m,k×257=v f=1 5",
    r"m,t=v×16385 f=1 5",
    r"m×16383 f=1 5",
    r"m,__name__=x f=1 5",
    r"m,db=x f=1 5",
    r"m_a b=1 5⏎m a_b=2 5",
    r"m f=1 0",
    r"m f=1 -1000000",
    r"m f=9007199254740993i 5",
    r"m f=0.1234567890123456 5",
    r"m f=5e-324 5",
]
# Of these lp_relay is asked in the dialect in which each newline ends a line, too.
STRINGS = VICTORIA[:4]
TEXTS = {"influx": INFLUX, "victoria": VICTORIA}
WAYS = {"influx": interop.BOTH, "victoria": interop.STRICT}


def raw(text):
    """The bytes that a text of the tables stands for."""
    def each(found):
        return "".join(found[1].replace("N", str(place)) for place in range(int(found[2])))

    return interop.raw(re.sub(r"\{([^{}]*)\}×(\d+)", each, text))


def shown_text(text):
    """A text as the tables show it."""
    return ", then ".join(f"`{part}`" for part in text.split(" then "))


# What is stored, and what is wanted: points of a name, sorted tags, sorted fields and a time.


def typed(kind, value):
    """A value of a line that lp_relay wrote."""
    if kind == "float":
        return float(value)
    return value == "true" if kind == "boolean" else value if kind == "string" else int(value)


def written(lines):
    """The points of lines that lp_relay wrote."""
    found = interop.written_points(lines.decode())
    return [Point(name, tags, in_order((key, typed(kind, value)) for key, kind, value in fields), at) for name, tags, fields, at in found]


def typed_field(name, kind, value):
    """A field of a line that the oracle of portable.py read."""
    texts = {"f": float, "b": lambda text: text[:1] in b"tT", "s": lambda text: portable.logical(text, b'"\\').decode()}
    return portable.key_of(name).decode(), texts.get(kind, int)(value)


def wanted_of(text):
    """The point of a text that the oracle reads as one line, or `None`."""
    found = portable.read(text)
    if not found:
        return None
    line = found[1]
    tags = [(portable.key_of(key).decode(), portable.key_of(value).decode()) for key, value in line.tags]
    fields = [typed_field(*each) for each in line.fields]
    return Point(portable.logical(line.measurement, b", \\").decode(), tuple(sorted(tags)), in_order(fields), line.time)


def is_value(wanted, found):
    """Whether a value is this one, of the same type. InfluxDB's answers have no type for numbers."""
    types = [bool, str]
    return wanted == found and all(isinstance(wanted, one) == isinstance(found, one) for one in types)


def is_point(wanted, found):
    """Whether a point of InfluxDB is this one."""
    at = is_now(found.at) if wanted.at is None else wanted.at == found.at
    pairs = [one[0] == other[0] and is_value(one[1], other[1]) for one, other in zip(wanted.fields, found.fields)]
    return wanted[:2] == found[:2] and at and len(wanted.fields) == len(found.fields) and all(pairs)


def shown_series(name, tags):
    """A name and its tags as the tables show them. Many tags are counted."""
    return f"{spelled(name)} with {len(tags)} of its tags" if len(tags) > 9 else interop.shown_series(name, tags)


def shown_point(made):
    """A point of InfluxDB as the tables show it."""
    name, tags, fields, at = made
    values = [spelled(f'"{value}"' if isinstance(value, str) else str(value).lower()) for _, value in fields]
    text = ", ".join(f"{spelled(key)} = {value}" for (key, _), value in zip(fields, values))
    return f"{shown_series(name, tags)}: {text}" + ("" if at == 5 or is_now(at) else f" at {at}")


@dataclass
class Stored:
    """What a server answered, what it stored of a text, and the names of the lines around it that it stored. `note` is what is wrong
    with points that are right."""

    status: int
    answer: str
    points: list
    count: int
    around: list
    note: str = ""

    def shown_answer(self):
        found = [spelled(cause) for cause in interop.causes(self.answer)] if self.answer else []
        return ": ".join([str(self.status), *found])

    def shown_around(self):
        return {AROUND: "both", ("before",): "the first", ("after",): "the second", (): "none"}[tuple(self.around)]


def answer_of(server, name, *chunks):
    """The status and the text of an answer, as curl tells it. After each chunk that another one follows, the call waits."""
    words = ["curl", "-sS", "-m", "300", "-w", "\\n%{http_code}", server.url + server.write_path(name)]
    words += ["--data-binary", "@-"] if len(chunks) == 1 else ["-X", "POST", "-T", "-"]
    with subprocess.Popen(words, stdin=subprocess.PIPE, stdout=subprocess.PIPE, stderr=subprocess.DEVNULL) as curl:
        for chunk in chunks[:-1]:
            curl.stdin.write(chunk)
            curl.stdin.flush()
            time.sleep(0.5)
        told = curl.communicate(chunks[-1])[0]
    text, _, status = told.decode("utf-8", "surrogateescape").rpartition("\n")
    return int(status), text


EVERYTHING = "SELECT * FROM /.*/ GROUP BY *"


class Influx:
    """A server of InfluxDB 1.x. Each text has a database."""

    def __init__(self, server):
        self.server = server

    def count(self, name):
        """How many points a text has, if its measurement is `m`."""
        return sum(max(series["values"][0][1:]) for series in self.server.query("SELECT count(*) FROM m", name))

    def is_named(self, name, point):
        """Whether queries that name the measurement and the fields find a point."""
        whole = self.server.points(f"SELECT * FROM {identifier(point.name)} GROUP BY *", name)
        keys = ", ".join(f"{identifier(key)}::field" for key, _ in point.fields)
        named = self.server.points(f"SELECT {keys} FROM {identifier(point.name)}", name)
        return len(whole) == 1 and [each.fields for each in named] == [point.fields]

    def stored(self, name, is_large):
        """What is stored of a text, without the answer."""
        found = self.server.points("SELECT z FROM before, after" if is_large else EVERYTHING, name)
        around = sorted({each.name for each in found if each.name in AROUND and each.fields == (("z", 1),)})
        points = [each for each in found if each.name not in AROUND or dict(each.fields).keys() not in ({"z"}, {"_name"})]
        is_named = len(points) != 1 or self.is_named(name, points[0])
        count = self.count(name) if is_large else len(points)
        return Stored(0, "", points, count, around, "" if is_named else "which no query finds by its name")

    def post(self, name, *texts):
        """Posts texts, the last with the lines around it, and tells what is stored."""
        self.server.query(f'CREATE DATABASE "{name}"')
        answers = [answer_of(self.server, name, text) for text in texts]
        status, answer = answers[-1]
        if status >= 400:
            # What is stored apart from what was refused may come after the answer.
            time.sleep(0.1)
        made = self.stored(name, len(texts[-1]) > LARGE)
        made.status = status
        made.answer = json.loads(answer)["error"] if answer.startswith("{") else answer.strip()
        return made


def order(sample):
    return sample.name, sample.tags, str(sample.value), sample.at or -1


def shown_sample(sample):
    """A number of VictoriaMetrics as the tables show it."""
    at = {0: "", None: " at the time of arrival"}.get(sample.at, f" at {sample.at} ms")
    return f"{shown_series(sample.name, sample.tags)}: {spelled('%.17g' % sample.value if isinstance(sample.value, float) else str(sample.value))}{at}"


class Victoria:
    """A server of VictoriaMetrics. Each text has a database, whose name is a label."""

    def __init__(self, server):
        self.server = server
        self.seen = set()

    def unnamed(self):
        """The new series that have no label of a database, or one that a text gave."""
        found = set(self.server.lines('=~"|x"'))
        new, self.seen = found - self.seen, self.seen | found
        return new

    def until_next(self, name):
        """The series of a text, and those of the lines around it. The line after it is waited for."""
        for _ in range(20):
            found = self.server.lines(f'="{name}"')
            if any('"__name__":"after_z"' in line for line in found):
                break
            time.sleep(0.1)
        around = [line for line in found if re.search('"__name__":"(after|before)_z"', line)]
        return [line for line in found if line not in around], around

    def post(self, name, *chunks):
        """Posts a text with the lines around it in one call, and tells what is stored."""
        status, answer = answer_of(self.server, name, *chunks)
        lines, around = self.until_next(name)
        unnamed = self.unnamed()
        points = [sample for line in [*lines, *unnamed] for sample in self.server.samples(line, name.__eq__)]
        words = re.search(r"too long line: more than \d+ bytes|$", answer)[0] or answer[:200]
        note = "without the label of its database" if unnamed else ""
        names = sorted(json.loads(line)["metric"]["__name__"].removesuffix("_z") for line in around)
        return Stored(status, words, sorted(points, key=order), len(points), names, note)


# The tables of the page.


@dataclass
class Carried:
    """The lines of the parts of a text that lp_relay lets out before a server: as they are. And the points that it reads."""

    parts: list
    points: list

    def is_large(self):
        return len(self.parts[-1]) > LARGE


def carried(relay, reader, text):
    """What goes out of a text. Of a large one no points are told."""
    parts = [raw(part) for part in text.removesuffix(PAUSE).split(" then ")]
    lines = [interop.relayed(relay, part, *interop.WAYS[WAYS[reader]]) for part in parts]
    for part, (line, faults) in zip(parts, lines):
        if faults or line.removesuffix(b"\n") != part.removesuffix(b"\n"):
            raise Fault(f"lp_relay {WAYS[reader]} does not let out {text} as it is")
    made = Carried([line for line, _ in lines], [])
    if not made.is_large():
        made.points = written(b"".join(interop.relayed(relay, part, "--strict")[0] for part in parts))
    return made


def shown_stored(made, points, is_same, shown):
    """What is stored, as a cell."""
    if not made.points:
        return "nothing"
    text = interop.SAME_POINT if is_same(made.points, points) else "; ".join(map(shown, made.points))
    return f"{text}, {made.note}" if made.note else text


def is_all(found, wanted):
    """Whether InfluxDB has these points."""
    return len(found) == len(wanted) and all(map(is_point, sorted(wanted, key=str), sorted(found, key=str)))


def influx_cell(made, lines):
    """What InfluxDB stores of lines, as a cell."""
    if not lines.is_large():
        return shown_stored(made, lines.points, is_all, shown_point)
    count = sum(part.count(b"\n") for part in lines.parts)
    return "all of it" if made.count == count else f"{made.count} points" if made.count else "nothing"


def is_every(found, wanted):
    """Whether VictoriaMetrics has the numbers of these points."""
    return found == sorted((sample for point in wanted for sample in samples_of(point)), key=order)


def victoria_cell(made, lines):
    """What VictoriaMetrics stores of lines, as a cell."""
    return shown_stored(made, lines.points, is_every, shown_sample)


CELLS = {"influx": influx_cell, "victoria": victoria_cell}


def row(server, relay, reader, text, name):
    """The row of a text, whose last part is posted with lines around it."""
    lines = carried(relay, reader, text)
    *parts, last = lines.parts
    chunks = [BEFORE + last.removesuffix(b"\n"), b"\n" + AFTER] if text.endswith(PAUSE) else [BEFORE + last + AFTER]
    made = server.post(name, *parts, *chunks)
    return [shown_text(text), made.shown_answer(), CELLS[reader](made, lines), made.shown_around()]


def rows_of(server, relay, reader):
    return [row(server, relay, reader, text, f"page{place}") for place, text in enumerate(TEXTS[reader])]


def strings_row(relay, text):
    """What lp_relay writes of a text in the dialect in which each newline ends a line."""
    data = raw(text)
    return [shown_text(text), interop.shown_relay(data, *interop.relayed(relay, data, "--newline-delimited"))]


def after_restart(server, relay, text, name, cells):
    """The cell of what InfluxDB has of a text after a restart."""
    lines = carried(relay, "influx", text)
    now = influx_cell(server.stored(name, lines.is_large()), lines)
    return "as before" if now == cells[2] else now


def restarted(server, relay, rows):
    """The rows of InfluxDB with that cell."""
    return [[*cells, after_restart(server, relay, text, f"page{place}", cells)]
            for place, (text, cells) in enumerate(zip(INFLUX, rows, strict=True))]


# The rows of portable_rows.txt.


def word_of(made, point, is_same):
    """The word for what a server made of a text. A text that is not a line has no point."""
    after = "" if "after" in made.around else "+"
    if not made.points:
        return ("refused" if 400 <= made.status < 500 else "dropped" if made.status == 204 else "panic") + after
    if point is None:
        return "taken" + after
    return ("other" if not is_same(made, point) else "unnamed" if made.note else "same") + after


def is_one(made, point):
    """Whether InfluxDB has this point alone."""
    return len(made.points) == 1 and is_point(point, made.points[0])


def is_kept(made, point):
    """Whether VictoriaMetrics has each number of this point once, and of each string some number or none."""
    texts = {f"{point.name}_{key}" for key, value in point.fields if isinstance(value, str)}
    wanted = sorted((each for each in samples_of(point) if each.name not in texts), key=order)
    found = [each for each in made.points if each.name not in texts]
    names, stored = ([each.name for each in some] for some in (samples_of(point), made.points))
    is_sound = not made.note and len(set(names)) == len(names) and sorted(names) == sorted(stored)
    return is_sound and all(each.tags == point.tags for each in made.points) and all(map(is_near, wanted, found))


SAME = {"influx": is_one, "victoria": is_kept}


def words_of(server, reader):
    """The word for what a server makes of each row."""
    texts = [each.text() for each in portable.rows()]
    stored = [server.post(f"row{place}", text + b"\n" + AFTER_ROW) for place, text in enumerate(texts)]
    return [word_of(made, wanted_of(text), SAME[reader]) for made, text in zip(stored, texts)]


def word_after(server, name, text, before):
    """The word for a row once the server was started again. What it answered is as before."""
    made = server.stored(name, False)
    made.status = {"refused": 400, "panic": 500}.get(before.rstrip("+"), 204)
    now = word_of(made, wanted_of(text), is_one)
    return before if now == before else "restart" if before == "same" else f"{before}, then {now}"


def words_after(server, words):
    """The words for all rows once InfluxDB was started again."""
    return [word_after(server, f"row{place}", row.text(), word)
            for place, (row, word) in enumerate(zip(portable.rows(), words, strict=True))]


KINDS = {"float": float, "integer": int, "unsigned": int, "string": str, "boolean": lambda value: value == "true"}


def parsed_point(read):
    """A point that the parser of InfluxDB read."""
    fields = [(key, KINDS[kind](value)) for key, kind, value in read["Fields"]]
    at = time.time_ns() if read["Time"] == interop.NO_TIME else read["Time"]
    return Point(read["Name"], tuple(sorted(map(tuple, read["Tags"]))), in_order(fields), at)


def word_of_parser(program, text):
    """The word for what the parser of InfluxDB alone makes of a text."""
    ran = subprocess.run([program], input=text, capture_output=True, check=False)
    if ran.returncode:
        return "panic"
    read = json.loads(ran.stdout)
    points = [parsed_point(each) for each in read["Points"]]
    return word_of(Stored(400 if read["Fault"] else 204, "", points, len(points), ["after"]), wanted_of(text), is_one)


# What is measured, and the tables of it.

COLUMNS = {"influx": "i server", "parser": "i parser", "victoria": "v server"}
WORDS = ["same", "unnamed", "other", "restart", "refused", "dropped", "panic", "taken", "+"]
TITLES = {"influx": "Texts among other lines, in InfluxDB 1.x", "victoria": "Texts among other lines, in VictoriaMetrics"}


def before_restart(relay, servers, parser):
    """What is measured before the restart, of these servers and of a parser, if there is one."""
    state = {"relay": relay, "tables": {}, "words": {}, "strings": [strings_row(relay, text) for text in STRINGS]}
    for reader, server in servers.items():
        asked = ASKED[reader](server)
        state["tables"][reader] = rows_of(asked, relay, reader)
        state["words"][reader] = words_of(asked, reader)
    if parser:
        state["words"]["parser"] = [word_of_parser(parser, row.text()) for row in portable.rows()]
    if "victoria" in servers:
        state["series"] = sorted(servers["victoria"].lines('!="none"'))
    return state


ASKED = {"influx": Influx, "victoria": Victoria}


def add_restart(state, servers):
    """Adds what is measured after the restart. VictoriaMetrics must have what it had."""
    if "influx" in servers:
        asked = Influx(servers["influx"])
        state["tables"]["influx"] = restarted(asked, state["relay"], state["tables"]["influx"])
        state["words"]["influx"] = words_after(asked, state["words"]["influx"])
    if "victoria" in servers and sorted(servers["victoria"].lines('!="none"')) != state["series"]:
        raise Fault("VictoriaMetrics has other series after a restart")


def counted(words):
    """How many rows have each word. A `+` is a word beside another one."""
    return [str(sum(word == "+" and made.endswith("+") or made.rstrip("+") == word for made in words)) for word in WORDS]


def tables_of(state):
    """The tables of each reader by their titles."""
    heads = ["text", "answer", "stored of it", "stored of the lines around it"]
    made = {TITLES[reader]: interop.table(heads + ["after a restart"] * (reader == "influx"), rows)
            for reader, rows in state["tables"].items()}
    made["Strings of more lines"] = interop.table(["text", "`lp_relay --newline-delimited` writes"], state["strings"])
    counts = [[interop.READERS[reader], *counted(words)] for reader, words in state["words"].items()]
    made["Texts on both sides of a border"] = interop.table(["reader", *WORDS[:-1], "the line after it lost"], counts)
    return made


def page_text(state):
    """What is between the marks."""
    return "\n" + "\n\n".join(f"### {title}\n\n" + "\n".join(lines) for title, lines in tables_of(state).items()) + "\n"


def other_rows(page, lines):
    """What the page has otherwise of the rows of a table, in words."""
    was = {line.split(" | ")[0]: line for line in page}
    for line in lines:
        if line not in page:
            yield f"the page has\n    {was.get(line.split(' | ')[0])}\nand here it is\n    {line}"


def other_words(reader, words):
    """What portable_rows.txt has otherwise, in words."""
    for row, word in zip(portable.rows(), words, strict=True):
        if row.told[COLUMNS[reader]] != word:
            yield f"{row.cell[:80]} is `{word}` by {interop.READERS[reader]}, and portable_rows.txt has `{row.told[COLUMNS[reader]]}`"


def compare(state):
    """Refuses what differs from the page, or from portable_rows.txt."""
    page, tables = interop.parts_of_page(BEGIN, END)[1].splitlines(), tables_of(state)
    found = [fault for lines in tables.values() for fault in other_rows(page, lines)]
    if len(state["words"]) == len(COLUMNS):
        heads = {line.split(" | ")[0] for lines in tables.values() for line in lines}
        found += [f"the page alone has\n    {line}" for line in page if line.startswith("| ") and line.split(" | ")[0] not in heads]
    found += [fault for reader, words in state["words"].items() for fault in other_words(reader, words)]
    if found:
        raise Fault("\n".join([*found, "the tables of docs/INTEROP.md are written by checks/interop.sh --write RELAY"]))
    count = sum(map(len, state["tables"].values()))
    print(f"batches: {count} texts among other lines are stored, and kept over a restart, as docs/INTEROP.md says, and "
          f"{len(list(portable.rows()))} as portable_rows.txt says: by {', '.join(interop.READERS[name] for name in state['words'])}")
