#!/usr/bin/env python3
"""Whether `lp_relay --faults json` writes JSON, as Python reads it, and says in it what fault lines say: over hostile texts, the
items and texts of the objects are, byte for byte, the fault lines of `--faults raw`, but for what is cut of a text of more than 200 bytes;
their lines and offsets, of text and piece, and the length of the piece are those that section 3 of docs/FORMAT.md gives, by which the text
is split here too; the kind of each fits its text; where reading stopped there is what the text says of it; and `--summary` counts them by
their kinds. With `--faults json+text` the objects are the same, and have the bytes of their pieces.

    checks/objects.py RELAY..

RELAY: a built lp_relay, or a command that runs it, as `rt try --` in the folder of its crate.
"""

import base64
import collections
import json
import random
import re
import sys
from pathlib import Path

import relay_runs

sys.path.insert(0, str(Path(__file__).resolve().parent.parent / "tables"))
import fault_table

# What the text of each kind begins with.
KINDS = {fault.kind: fault.front for fault in fault_table.KINDS}

# Kinds of items in which reading does not stop.
NO_STOPS = {fault.kind for fault in fault_table.KINDS if not fault.number} - {"not_utf8"}

# Kinds whose text ends in what is at the stop, between quotes.
NUMBERS = {fault.kind for fault in fault_table.KINDS if fault.carries == "number"}

# Lines of each kind, and parts that break strings of JSON.
LINES = [
    b",t=u a=1i", b"m", b"m ", b"m a=9223372036854775808i", b"m a=18446744073709551616u", b"m a=1i 9223372036854775808",
    b"m a=1i x", b"m, a=1i", b"w\\\t a=1i", b"m  a=1i", b"m a=\xff", b"m a=1i", b"# c", b" # \"c\n\"x", b"m\\", b"",
    b"m a=1i " + b"y" * 90, b"m,t=v,u=w\\\\ a=1i", b"m,t=v,k\\\\=w a=1i", b"m,t a=1i", b"m a=1i,b=18446744073709551616u", b"m s=\"a\nb\",v=9i9",
    b" \tm,t=v", b"#\\\n  m a=", b"m a=1i " + "ü".encode() * 90, b"m a=1i  " + "ü".encode() * 90, b"m a=1i " + b"\1" * 145,
]
PARTS = [bytes([b]) for b in range(256)] + [
    b"\xed\xa0\x80", b"\\u0000", b"\\\"", b"\"}", b"{\"", b"\x7f", b"\r",
] + [mark.encode() for mark in "ü\x80\x9f\xa0\u061c\u200d\u200e\u200f\u2027\u2028\u202e\u202f\u2066\u2069\U0001f600"]

# The characters that are escaped in a string of JSON: a quote, a backslash, control characters, and those that separate lines or set the
# direction of text.
ESCAPED = re.compile("[\"\\\\\0-\x1f\x7f-\x9f\u061c\u200e\u200f\u2028-\u202e\u2066-\u2069]")

# What tells that a text is cut.
CUT = re.compile(r"\.\. \[(\d+) bytes\]\Z")

# So many texts are relayed, each with some of these words.
TEXTS = 20
WORDS = [[], ["--strict"], ["--newline-delimited"], ["--canonical"], ["--verbatim", "--max-line", "70"],
         ["--verbatim", "--portable", "all"]]


def text_of(rng):
    """Pieces of each kind, and bytes of all kinds after the last value of some."""
    lines = []
    for _ in range(rng.randrange(200, 400)):
        line = rng.choice(LINES)
        if rng.random() < 0.7:
            line += b" " + b"".join(rng.choice(PARTS) for _ in range(rng.randrange(1, 12)))
        lines.append(line)
    return b"\n".join(lines) + rng.choice([b"", b"\n", b"\\"])


def tail_end(text, at):
    """Where a piece ends whose tail begins there."""
    balance, is_quoted, is_escaped = 0, False, False
    for place in range(at, len(text)):
        byte = text[place:place + 1]
        if not is_escaped and byte == b"\"" and (is_quoted or balance > 0):
            is_quoted = not is_quoted
        elif not is_escaped and not is_quoted:
            if byte == b"\n":
                return place
            balance += (byte == b"=") - (byte == b",")
        is_escaped = byte == b"\\" and not is_escaped
    return len(text)


def piece_end(text, start, words):
    """Where the piece ends that begins there."""
    if "--newline-delimited" in words or "--strict" in words and text[start:].lstrip(b" \t").startswith(b"#"):
        return text.find(b"\n", start) if b"\n" in text[start:] else len(text)
    head = re.compile(rb"(?:[^ \n\\]|\\.|\\\Z)*", re.DOTALL).match(text, start).end()
    return tail_end(text, head) if text[head:head + 1] == b" " else head


def items_of(text, words):
    """Where each item begins: its piece, and its text after blanks and comments, if the piece is UTF-8 and not too long; and its piece."""
    limit = int(words[words.index("--max-line") + 1]) if "--max-line" in words else 1 << 24
    items, start = [], 0
    while start <= len(text):
        end = piece_end(text, start, words)
        piece = text[start:end]
        front = re.match(rb"(?:[ \t\n]|#[^\n]*)*", piece).end()
        if len(piece) > limit or not is_utf8(piece):
            items.append((start, start, piece))
        elif front < len(piece):
            items.append((start, start + front, piece))
        start = end + 1
    return items


def is_utf8(piece):
    try:
        piece.decode()
    except UnicodeDecodeError:
        return False
    return True


def faults_of(relay, text, *words):
    return b"".join(line for line in relay.run(words, text).err.splitlines(True) if not line.startswith((b"checked: ", b"run=")))


def place_of(told, text):
    """How many bytes come before the stop."""
    starts = [0] + [at + 1 for at, byte in enumerate(text) if byte == ord("\n")]
    return starts[told["stop_line"] - 1] + told["stop_column"] - 1


def stops_rightly(told, text):
    """Whether the stop is where the kind of the fault says, in the text of the item or at its end."""
    kind, begin, at = told["kind"], told["offset"], place_of(told, text)
    if kind == "not_utf8":
        return is_utf8(text[begin:at]) and not any(is_utf8(text[begin:at + n]) for n in range(1, 5))
    end = text.find(b"\n", at) if b"\n" in text[at:] else len(text)
    if not begin <= at <= len(text) or end < at:
        return False
    if kind == "measurement_value_invalid":
        return at == begin
    if kind in NUMBERS:
        return text[at:].startswith(told["text"].encode().split(b"'")[1])
    if kind == "cannot_parse_entire_line":
        rest, is_cut = CUT.subn("", told["text"])
        rest = rest.encode().split(b"'", 1)[1][:None if is_cut else -1]
        if is_cut:
            return text[at:].startswith(rest)
        return text[at:].startswith(rest) and text[at + len(rest):][:1] in (b"", b"\n")
    if kind == "ends_with_backslash":
        return b"\\" in text[at:end]
    if kind == "generic_parsing_error":
        return at > begin and text[at:at + 1] != b" "
    return at > begin


def whole_text(told, text):
    """The text of a fault, also if its object has a part of it, and whether it is that part that is to be told."""
    cut = CUT.search(told["text"])
    if not cut:
        return told["text"], len(told["text"].encode()) <= 200
    shown = told["text"][:cut.start()]
    at = place_of(told, text)
    begin = KINDS[told["kind"]]
    whole = begin.encode() + text[at:at + int(cut[1]) - len(begin) - 1] + b"'"
    front = whole[:200].decode(errors="ignore")
    return whole.decode(), int(cut[1]) > 200 and shown == front


def members(told, piece, limit):
    """The members that an object is to have, in order, and the value of that which tells the length of its piece."""
    stop = [] if told["kind"] in NO_STOPS else ["stop_line", "stop_column"]
    is_long = told["kind"] == "too_long"
    names = ["item", "line", "offset", "piece_line", "piece_offset", "longer_than" if is_long else "length", "kind", "text"] + stop
    return names, limit if is_long else len(piece)


def piece_of(told):
    """The piece that an object has, and the name of that member."""
    name = list(told)[-1]
    return (base64.b64decode(told[name], validate=True) if name.endswith("_base64") else told[name].encode()), name


def compare_pieces(relay, text, words, objects, items, limit):
    """The objects with pieces are the same, and have the bytes of their pieces."""
    lines = faults_of(relay, text, "--faults", "json+text", *words).split(b"\n")[:-1]
    if len(lines) != len(objects):
        raise relay_runs.Wrong(f"there are {len(lines)} objects with pieces, not {len(objects)}, over {text!r}")
    for line, told in zip(lines, objects):
        both = json.loads(line.decode())
        piece, name = piece_of(both)
        wanted = items[told["item"] - 1][2]
        is_long = told["kind"] == "too_long"
        if is_long:
            wanted = wanted[:limit]
        if name != ("piece_start" if is_long else "piece") + ("" if is_utf8(wanted) else "_base64") or piece != wanted:
            raise relay_runs.Wrong(f"{line!r} has not the piece {wanted!r}")
        if not name.endswith("_base64") and spelled(both[name]) not in line:
            raise relay_runs.Wrong(f"{line!r} has not its piece as it is to be spelled")
        del both[name]
        if both != told:
            raise relay_runs.Wrong(f"{line!r} is another object with its piece")


def spelled(text):
    """The string of JSON of a text."""
    return ('"' + ESCAPED.sub(lambda found: "\\" + found[0] if found[0] in '"\\' else f"\\u{ord(found[0]):04x}", text) + '"').encode()


def compare(relay, text, words):
    """How many objects there are, if they say what the fault lines say."""
    objects, items = [], items_of(text, words)
    limit = int(words[words.index("--max-line") + 1]) if "--max-line" in words else 1 << 24
    texts = []
    for line in faults_of(relay, text, "--faults", "json", *words).split(b"\n")[:-1]:
        told = json.loads(line.decode())
        names, length = members(told, items[told["item"] - 1][2], limit)
        if list(told) != names or b'"text":' + spelled(told["text"]) not in line:
            raise relay_runs.Wrong(f"{line!r} is no object of a fault as it is to be spelled")
        if not told["text"].startswith(KINDS[told["kind"]]):
            raise relay_runs.Wrong(f"{line!r} has a kind that is not its own")
        places = [text[:at].count(b"\n") + 1 for at in items[told["item"] - 1][:2]]
        if (told["piece_offset"], told["offset"]) != items[told["item"] - 1][:2] or [told["piece_line"], told["line"]] != places:
            raise relay_runs.Wrong(f"{line!r} has a piece or a text that does not begin there, over {text!r}")
        if told[names[5]] != length:
            raise relay_runs.Wrong(f"{line!r} has a piece that is not so long, over {text!r}")
        if "stop_line" in names and not stops_rightly(told, text):
            raise relay_runs.Wrong(f"{line!r} tells a stop that is none, over {text!r}")
        whole, is_right = whole_text(told, text)
        if not is_right:
            raise relay_runs.Wrong(f"{line!r} has a text that is not cut as it is to be")
        objects.append(told)
        texts.append(whole)
    raw = "".join(f"item {told['item']}: {whole}\n" for told, whole in zip(objects, texts)).encode()
    if raw != faults_of(relay, text, "--faults", "raw", *words):
        raise relay_runs.Wrong(f"the texts are not those of the fault lines, over {text!r}")
    compare_pieces(relay, text, words, objects, items, limit)
    kinds = collections.Counter(told["kind"] for told in objects)
    counted = ", ".join(f"{kinds[kind]} {kind}" for kind in sorted(kinds))
    summary = faults_of(relay, text, "--summary", "--check", *words).splitlines()[-1].decode()
    if not summary.endswith(f" carried, {len(objects)} refused" + (f": {counted}" if counted else "")):
        raise relay_runs.Wrong(f"the summary {summary!r} does not count {counted}")
    told = json.loads(faults_of(relay, text, "--summary", "--check", "--faults", "json", *words).splitlines()[-1])["summary"]
    shown = ", ".join(f"{told['kinds'][kind]} {kind}" for kind in sorted(told["kinds"]))
    if list(told) != ["bytes", "lines", "items", "carried", "refused", "kinds"] or list(told["kinds"]) != sorted(told["kinds"]) or (
            f"{told['bytes']} bytes, {told['lines']} lines, {told['items']} items: {told['carried']} carried, {told['refused']} refused"
            + (f": {shown}" if shown else "")) != summary:
        raise relay_runs.Wrong(f"the summary {told} is not {summary!r}")
    lines = "".join(f"line {told['piece_line']}: {whole}\n" for told, whole in zip(objects, texts)).encode()
    if lines != faults_of(relay, text, "--faults", "raw", "--lines", *words):
        raise relay_runs.Wrong(f"the pieces are not on the lines that the fault lines name, over {text!r}")
    return len(objects)


def give_kinds(relay):
    """Each example of tables/faults.txt gives its fault."""
    for fault in fault_table.KINDS:
        for example, _ in fault.examples:
            text = example.encode().decode("unicode_escape").encode("latin-1")
            lines = faults_of(relay, text, "--faults", "json", *fault.words.split()).splitlines()
            if [json.loads(line)["kind"] for line in lines] != [fault.kind]:
                raise relay_runs.Wrong(f"{example} with {fault.words} gives {lines}, and not {fault.kind}")


def check(relay):
    give_kinds(relay)
    count = sum(compare(relay, text_of(random.Random(number)), WORDS[number % len(WORDS)]) for number in range(TEXTS))
    return f"{count} objects of faults, over {TEXTS} texts, are JSON and say what the fault lines say"


relay_runs.end_by(check, __doc__, None)
