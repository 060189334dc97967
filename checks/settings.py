#!/usr/bin/env python3
"""Relays a small text by each combination of the options of lp_relay that change what it writes, and compares the lines, the faults, the
refused pieces, the counts and the status with those that the table here gives: of each piece of the text it says, by the rules of
docs/FORMAT.md, what comes of it.

    checks/settings.py RELAY

RELAY: a built lp_relay. The 384 settings are: lines rebuilt, verbatim or canonical; each dialect, and the newline-delimited one with
--whole-lines; faults as lines, raw, or as objects without or with their pieces, by items or by lines; with and without --summary and
--refused. Each reads standard input and two files, and writes its lines to standard output, to a file, and nowhere: 2304 runs.
"""

import base64
import collections
import itertools
import json
from dataclasses import dataclass
from pathlib import Path

import relay_runs

LINES = {"rebuilt": [], "verbatim": ["--verbatim"], "canonical": ["--canonical"]}
DIALECTS = {"crate": [], "strict": ["--strict"], "newline-delimited": ["--newline-delimited"],
            "whole lines": ["--newline-delimited", "--whole-lines"]}
FAULTS = {"line": [], "raw": ["--faults", "raw"], "json": ["--faults", "json"], "json+text": ["--faults", "json+text"]}
NUMBERS = {"item": [], "line": ["--lines"]}
SUMMARY = {False: [], True: ["--summary"]}
REFUSED = {False: [], True: ["--refused", "refused"]}
PLACES = {"standard output": [], "file": ["--output", "lines"], "nowhere": ["--check"]}
INPUTS = {"standard input": [], "two files": ["one", "two"]}
LIMIT = 200


@dataclass(frozen=True)
class Fault:
    """What is wrong with an item: its kind, its text, and if the item is no line, how many bytes of it are read."""

    kind: str
    text: str
    read: int | None = None


@dataclass(frozen=True)
class Piece:
    """A piece, how many bytes come before its item, and by each form of lines the line that goes out of it, or the fault of the item.
    Without an item nothing comes of it."""

    came: bytes
    front: int = 0
    rebuilt: bytes | Fault | None = None
    verbatim: bytes | Fault | None = None
    canonical: bytes | Fault | None = None


def refused(came, kind, text, read=None, front=0):
    """A piece whose item is refused by each form."""
    fault = Fault(kind, text, read)
    return Piece(came, front, fault, fault, fault)


def trailing(came, rest, read, front=0):
    """A piece of which something is left after a line."""
    return refused(came, "cannot_parse_entire_line", f"Could not parse entire line. Found trailing content: '{rest}'", read, front)


def differing(came, rebuilt, part, front=0):
    """A piece whose line is rebuilt to another line, which first differs in a part of it."""
    return Piece(came, front, rebuilt, came, Fault("not_as_written", f"not as written: {part}"))


BACKSLASH = "Measurements, tag keys and values, and field keys may not end with a backslash"
GENERIC = "A generic parsing error occurred: TakeWhile1"
NOT_ADMITTED = Fault("name_not_admitted", "a name cannot be written again")

# Pieces of one line, that each dialect reads the same.
BEGIN = [
    Piece(b"m,t=x a=1i 7", 0, b"m,t=x a=1i 7", b"m,t=x a=1i 7", b"m,t=x a=1i 7"),
    Piece(b""),
    Piece(b" # c"),
    differing(b"  m  a=064i", b"m a=64i", "the spaces", front=2),
    Piece(b"w\\\t a=1i", 0, NOT_ADMITTED, b"w\\\t a=1i", NOT_ADMITTED),
    refused(b"x", "generic_parsing_error", GENERIC, 1),
    refused(b"m a=", "field_set_missing", "No fields were provided", 4),
    refused(b"\t,t=u a=1i", "measurement_value_invalid", "Invalid measurement was provided", 0, front=1),
    refused(b"m a=9223372036854775808i", "integer_value_invalid", "Unable to parse integer value '9223372036854775808'", 4),
    refused(b"m a=1i,b=18446744073709551616u", "uinteger_value_invalid",
            "Unable to parse unsigned integer value '18446744073709551616'", 9),
    refused(b"m a=1i  9223372036854775808", "timestamp_value_invalid", "Unable to parse timestamp value '9223372036854775808'", 8),
    refused(b"m,t=v,u=w\\\\ a=1i", "ends_with_backslash", BACKSLASH, 8),
    refused(b"m,t a=1i", "tag_set_malformed", "Tag Set Malformed", 3),
    refused(b"m a=\xff", "not_utf8", "the line is not UTF-8", 4),
    trailing(b"m a=1i " + b"y" * 190, " " + "y" * 190, 6),
    refused(b"m" * 201, "too_long", "the line is too long"),
    differing(b"m f=1.50,s=\"C:\\W\"", b"m f=1.50,s=\"C:\\\\W\"", "the value of field 2"),
    differing(b"C:\\W f=T", b"C:\\\\W f=true", "the measurement"),
]
# Pieces of two lines, and these lines as pieces.
OF_TWO_LINES = [
    trailing(b"\tm s=\"a\nb\",v=9i9", "9", 14, front=1),
    trailing("m a=1i \"ü\\\n\t\"".encode(), " \"ü\\\n\t\"", 6),
    refused(b"\tm s=\"a\n" + b"a" * 192 + b"\"", "too_long", "the line is too long"),
    Piece(b"m,k=\\\\v s=\"a\nb\" -5", 0, *3 * [b"m,k=\\\\v s=\"a\nb\" -5"]),
]
OF_ONE_LINE = [
    refused(b"\tm s=\"a", "field_set_missing", "No fields were provided", 4, front=1),
    refused(b"b\",v=9i9", "generic_parsing_error", GENERIC, 8),
    trailing("m a=1i \"ü\\".encode(), " \"ü\\", 6),
    refused(b"\t\"", "generic_parsing_error", GENERIC, 1, front=1),
    refused(b"\tm s=\"a", "field_set_missing", "No fields were provided", 4, front=1),
    refused(b"a" * 192 + b"\"", "generic_parsing_error", GENERIC, 193),
    refused(b"m,k=\\\\v s=\"a", "field_set_missing", "No fields were provided", 10),
    refused(b"b\" -5", "field_set_missing", "No fields were provided", 5),
]
# Pieces with a comma after the only field, a comment with a quote and one with a backslash at its end, and a last one that no newline ends.
STRICT_END = [
    trailing(b"m a=1i,", ",", 6),
    Piece(b"# a=\""),
    Piece(b"m b=1i", 0, b"m b=1i", b"m b=1i", b"m b=1i"),
    Piece(b"# c=\""),
    Piece(b"# \\"),
    Piece(b" m b=2i", 1, b"m b=2i", b" m b=2i", b"m b=2i"),
    refused(b"y", "generic_parsing_error", GENERIC, 1),
]
PIECES = {
    "crate": BEGIN + OF_TWO_LINES + [
        differing(b"m a=1i,", b"m a=1i", "the comma after the fields"),
        trailing(b"# a=\"\nm b=1i\n# c=\"", "\n# c=\"", 6, front=6),
        Piece(b"# \\\n m b=2i", 5, b"m b=2i", b"# \\\n m b=2i", b"m b=2i"),
        refused(b"y", "generic_parsing_error", GENERIC, 1),
    ],
    "strict": BEGIN + OF_TWO_LINES + STRICT_END,
    "newline-delimited": BEGIN + OF_ONE_LINE + STRICT_END,
}
TEXT = b"\n".join(piece.came for piece in PIECES["crate"])
# The bytes after the last newline are not read.
PIECES["whole lines"] = PIECES["newline-delimited"][:-1]
WHOLE_LINES = TEXT[:TEXT.rindex(b"\n") + 1]


@dataclass(frozen=True)
class Settings:
    """What the options ask for."""

    lines: str
    dialect: str
    faults: str
    number: str
    summary: bool
    refused: bool
    place: str
    inputs: str
    limit: int = LIMIT

    def words(self):
        """The options and the files, as the words of a command."""
        return [*LINES[self.lines], *DIALECTS[self.dialect], *FAULTS[self.faults], *NUMBERS[self.number], *SUMMARY[self.summary],
                *REFUSED[self.refused], "--max-line", str(self.limit), *PLACES[self.place], *INPUTS[self.inputs]]


class Wanted:
    """What is to come of a relay of some pieces by some settings; of those of its dialect, if none are given."""

    def __init__(self, settings, pieces=None):
        self.settings = settings
        self.pieces = PIECES[settings.dialect] if pieces is None else pieces
        self.lines, self.refused = bytearray(), bytearray()
        self.faults = []
        self.items = 0
        self.kinds = collections.Counter()
        names = INPUTS[settings.inputs] or [None]
        for name in names:
            self.read(name)
        self.summary = self.counts(len(names)) if settings.summary else None

    def read(self, name):
        """Adds what comes of one input."""
        offset, line = 0, 1
        for piece in self.pieces:
            made = getattr(piece, self.settings.lines)
            self.items += made is not None
            if isinstance(made, bytes):
                self.lines += made + b"\n"
            elif made is not None:
                self.refuse(name, piece, made, offset, line)
            offset += len(piece.came) + 1
            line += piece.came.count(b"\n") + 1

    def refuse(self, name, piece, fault, offset, line):
        """Adds a fault, and its piece, which begins there."""
        text, kept, limit = fault.text, piece.came, self.settings.limit
        length = {"length": len(kept)}
        if fault.kind == "too_long":
            text += f": its first {limit} bytes are kept" if self.settings.refused else ""
            kept, length = kept[:limit], {"longer_than": limit}
        self.kinds[fault.kind] += 1
        self.refused += kept + b"\n"
        if self.settings.faults.startswith("json"):
            made = {"file": name} if name else {}
            self.faults.append(made | {"item": self.items} | fault_members(piece, fault, text, length, offset, line))
            if self.settings.faults == "json+text":
                self.faults[-1] |= piece_members(kept, fault.kind)
            return
        told = f"{self.settings.number} {self.items if self.settings.number == 'item' else line}: {text}".encode()
        if self.settings.faults == "line":
            told = (f"{name}: " if name else "").encode() + on_one_line(told)
        self.faults.append(told)

    def counts(self, inputs):
        """The last line, of so many inputs."""
        refused_items = self.kinds.total()
        is_whole = self.settings.dialect == "whole lines"
        size, lines = (len(WHOLE_LINES), WHOLE_LINES.count(10)) if is_whole else (len(TEXT), TEXT.count(10) + 1)
        if self.settings.faults.startswith("json"):
            told = {"bytes": inputs * size, "lines": inputs * lines, "items": self.items}
            told |= {"carried": self.items - refused_items, "refused": refused_items, "kinds": dict(sorted(self.kinds.items()))}
            return json.dumps({"summary": told}, separators=(",", ":")).encode()
        kinds = ", ".join(f"{self.kinds[kind]} {kind}" for kind in sorted(self.kinds))
        return (f"{inputs * size} bytes, {inputs * lines} lines, {self.items} items: "
                f"{self.items - refused_items} carried, {refused_items} refused: {kinds}").encode()


def fault_members(piece, fault, text, length, offset, line):
    """The other members of the object of a fault, in their order, of a piece that begins there."""
    made = {"line": line + piece.came[:piece.front].count(b"\n"), "offset": offset + piece.front, "piece_line": line, "piece_offset": offset}
    made |= length | {"kind": fault.kind, "text": cut(text)}
    if fault.read is not None:
        read = piece.came[:piece.front + fault.read]
        made |= {"stop_line": line + read.count(b"\n"), "stop_column": len(read) - read.rfind(b"\n")}
    return made


def cut(text):
    """The text of an object: of more than 200 bytes the characters that end within the first 200, and how many it has."""
    told = text.encode()
    return text if len(told) <= 200 else f"{told[:200].decode(errors='ignore')}.. [{len(told)} bytes]"


def piece_members(came, kind):
    """The member that has a piece, or its first bytes."""
    name = "piece_start" if kind == "too_long" else "piece"
    try:
        return {name: came.decode()}
    except UnicodeDecodeError:
        return {name + "_base64": base64.b64encode(came).decode()}


def on_one_line(told):
    """A fault line as one line that ASCII prints, of which 200 bytes are told."""
    marks = {9: "\\t", 10: "\\n", 13: "\\r", 92: "\\\\"}
    text = "".join(marks.get(byte, chr(byte) if 32 <= byte < 127 else f"\\x{byte:02x}") for byte in told[:200])
    return (text + (f".. [{len(told)} bytes]" if len(told) > 200 else "")).encode()


def lost(settings, what, wanted, got):
    """Ends the check."""
    raise relay_runs.Wrong(f"with the words {' '.join(settings.words())} {what} should be\n{str(wanted)[:3000]}\nand here is\n{str(got)[:3000]}")


def compare_faults(settings, wanted, err):
    """Compares the faults and the counts."""
    lines = err.split(b"\n")[:-1]
    if wanted.summary is not None and (not lines or lines.pop() != wanted.summary):
        lost(settings, "the last line", wanted.summary, err[-300:])
    if settings.faults.startswith("json"):
        faults = [list(each.items()) for each in wanted.faults]
        told = [list(json.loads(line).items()) for line in lines]
    else:
        faults, told = b"\n".join(wanted.faults), b"\n".join(lines)
    if told != faults:
        lost(settings, "the faults", faults, told)


def compare(relay, folder, settings):
    """Runs the relay by some settings, and compares all that it gives."""
    for name in ("lines", "refused"):
        (folder / name).unlink(missing_ok=True)
    done = relay.run(settings.words(), TEXT, [1], cwd=folder)
    wanted = Wanted(settings)
    places = {"standard output": (wanted.lines, None), "file": (b"", wanted.lines), "nowhere": (b"", None)}
    out, lines = places[settings.place]
    written = {path.name: path.read_bytes() for path in folder.iterdir() if path.name not in INPUTS["two files"]}
    files = {"lines": lines, "refused": wanted.refused if settings.refused else None}
    files = {name: text for name, text in files.items() if text is not None}
    if done.out != out:
        lost(settings, "standard output", out, done.out)
    if written != files:
        lost(settings, "the files", files, written)
    compare_faults(settings, wanted, done.err)


def check(relay):
    texts = {name: b"\n".join(piece.came for piece in pieces) for name, pieces in PIECES.items()}
    if texts.pop("whole lines") + b"\n" != WHOLE_LINES or set(texts.values()) != {TEXT}:
        raise relay_runs.Wrong("the pieces of the dialects are not those of one text")
    with relay_runs.folder() as name:
        folder = Path(name)
        for file in INPUTS["two files"]:
            (folder / file).write_bytes(TEXT)
        for words in itertools.product(LINES, DIALECTS, FAULTS, NUMBERS, SUMMARY, REFUSED, PLACES, INPUTS):
            compare(relay, folder, Settings(*words))
    return f"one text is relayed as its table says, with each combination of options, in {relay.runs} runs"


if __name__ == "__main__":
    relay_runs.end_by(check, __doc__)
