"""The messages of the programs, from tables/messages.txt, whose head says what its fields mean.

Made of them are the tables of messages in docs/FORMAT.md, and the lists of messages in the man pages. Each text is compared with the code
that displays it, and with its definition if it has one. A text that was changed in the table is brought, by `tables/generate.py --write`, to
the code, the definition, and the checks and pages that quote it.
"""

import re
from typing import NamedTuple

import records
from pages import mdoc
from records import TOP, Fault, Place, read

DATA = "tables/messages.txt"
FIELDS = "message", "from", "kind", "programs", "when", "example"
STATUSES = {"refused": "2, nothing is read", "failed": "2", "notice": "no failure", "line": "1"}
NAME = r"\{\w*\}"
# Where the variants of an enumeration are displayed: the file, and the functions or the `impl`; and the definition of their texts.
WRONG, REFUSALS, NOTICES, RUNS = (f"crates/{path}.rt" for path in (
    "lp_words/src/wrong", "lp_words/src/refusals", "lp_endings/src/speaking", "lp_rebuild/src/program"))
DISPLAYED = {"Wrong": (WRONG, r"fn show_one<|impl<'a> fmt::Display for Wrong<"),
             "Refusal": (REFUSALS, r"impl<'a> fmt::Display for Refusal<"),
             "Notice": (NOTICES, r"impl<'a> fmt::Display for Notice<"), "RunFault": (RUNS, r"impl fmt::Display for RunFault ")}
DEFINED = {"Refusal": ("crates/lp_words/specs/Refusals.antt", "refusal_text"),
           "RunFault": ("crates/lp_rebuild/specs/Running.antt", "run_fault_text")}
LAST_LINE = "crates/lp_programs/src/relays.rt"
# The crates that programs share.
SHARED = "lp_words", "lp_places", "lp_endings", "lp_files", "lp_inputs", "lp_programs"
# What quotes messages: checks whole ones, and these files also parts of so many words at least.
CHECKS = ("checks/runs/*.txt", "checks/program_cases.py", "checks/batch_files.py", "checks/ranges.py", "checks/posting.sh",
          "checks/tables.py", "checks/tables/relays.tsv")
PAGES, LEAST = ("tables/bugs.tsv", "crates/*/must-fail/*.edit", "docs/OPERATING.md", "docs/INTEROP.md", "docs/SCALING.md", "README.md"), 4


class Text(NamedTuple):
    """A text in a file: what it is displayed for, its literals in a row, and the part of the file that they stand in."""

    path: str
    source: str
    text: str
    start: int
    end: int


def messages():
    """The records, each with its fields as texts."""
    found = [{field: " ".join(lines) for field, lines in record.items()} for record in records.records(DATA, FIELDS)]
    for message in found:
        if missing := [field for field in FIELDS if not message.get(field)]:
            raise Fault(f"{DATA}: {message}: there is no {missing[0]}")
        if message["kind"] not in ("words", *STATUSES):
            raise Fault(f"{DATA}: {message['message']}: there is no such kind: {message['kind']}")
        shown = re.sub(r"\\\{\w+\\\}", ".+", re.escape(message["message"]))
        if not re.fullmatch(shown + ("(: .*)?" if message["from"].startswith("RunFault") else ""), message["example"]):
            raise Fault(f"{DATA}: {message['message']}: the example is not of that form: {message['example']}")
    return found


def bare(text):
    """A text without names."""
    return re.sub(NAME, "", text)


def literals(code):
    """The literals of a piece of code, or of a definition."""
    return [text.replace('\\"', '"').replace("\\\\", "\\") for text in re.findall(r'"((?:[^"\\]|\\.)*)"', code)]


def shown_by(arm, code):
    """What an arm of this code shows, in a row. If it calls `show_value`, what that writes before the last name comes first."""
    frame = re.search(r'^fn show_value<.*?write!\(f, "([^"]*)\{\w+\}"\)', code, re.M | re.S) if "show_value(" in arm else None
    return (frame[1] if frame else "") + "".join(literals(arm.replace("show_values(values", '"{values}"')))


def displayed(name):
    """The texts by which the variants of an enumeration are displayed."""
    path, heads = DISPLAYED[name]
    code = read(path)
    for head in re.finditer(rf"^(?:{heads})", code, re.M):
        end = code.index("\n}\n", head.start())
        arms = [*re.finditer(rf"^ +(?:{name}::(\w+)|(_)|\w+)(?:\([^)]*\))? => ", code[:end], re.M)]
        arms = [arm for arm in arms if arm.start() > head.start() and (arm[1] or arm[2])]
        for arm, after in zip(arms, [*(arm.start() for arm in arms[1:]), end]):
            if text := shown_by(code[arm.start():after], code):
                yield Text(path, f"{name} {arm[1] or 'Other'}", text, arm.start(), after)


def defined(name):
    """The texts of the variants of an enumeration by their definition."""
    path, head = DEFINED[name]
    code = read(path)
    cases = [*re.finditer(rf"^{head} \(?(\w+).*?=\s((?:.|\n(?! *\n|{head} ))*)", code, re.M)]
    for case in cases:
        yield Text(path, f"{name} {case[1]}", "".join(literals(case[2])), case.start(2), case.end(2))


def errors():
    """The texts of errors that the code makes, and the last line of a run of which some faults were not told."""
    for path in sorted(str(path.relative_to(TOP)) for crate in SHARED for path in TOP.glob(f"crates/{crate}/src/*.rt")):
        code = read(path)
        for made in re.finditer(r"(?:\bpacked|Error::new)\(\s*(?:ErrorKind::\w+,\s*)?(\"[^\"]*\"|\w+)", code):
            if made[1].isupper():
                made = re.search(rf"^const {made[1]}: &str = (\"[^\"]*\");", code, re.M)
            if made and made[1].startswith('"'):
                yield Text(path, "error", literals(made[1])[0], made.start(1), made.end(1))
    code = read(LAST_LINE)
    for made in re.finditer(r'eprintln!\(rt; ("\{\w+\} [^"]*")', code):
        yield Text(LAST_LINE, "line", literals(made[1])[0], made.start(1), made.end(1))


def texts():
    """All texts in code and definitions."""
    shown = [text for name in DISPLAYED for text in displayed(name)]
    return [*shown, *(text for name in DEFINED for text in defined(name)), *errors()]


def own_text(message):
    """What of a message stands in the code: of one that an error has, what comes after the last name."""
    return re.split(NAME + ": ", message["message"])[-1] if message["from"] == "error" else message["message"]


def unlike(found):
    """Each text that is not as a message has it, with that message, or none if there is none; and each message that no text is."""
    wanted = [(message["from"], own_text(message), message) for message in found if message["from"] != "system"]
    seen, others = set(), []
    for text in texts():
        same = [message for source, own, message in wanted if source == text.source and bare(own) == bare(text.text)]
        seen.update(id(message) for message in same)
        if not same:
            others.append(text)
    left = [(source, message) for source, _, message in wanted if id(message) not in seen]
    for text in others:
        fits = [message for source, message in left if source == text.source]
        fits = fits or [message for source, _, message in wanted if source == text.source and source not in ("error", "line")]
        yield text, fits[0] if len({message["message"] for message in fits}) == 1 else None
    sources = {text.source for text in others}
    yield from ((None, message) for source, message in left if source not in sources)


def problems():
    """What is wrong with texts that are written by hand."""
    for text, message in unlike(messages()):
        if text and message:
            yield f"{text.path}: {text.source} is\n    {text.text}\nand should be\n    {own_text(message)}"
        elif text:
            yield f"{DATA} has no message of {text.path}, {text.source}: {text.text}"
        else:
            yield f"no code says the message of {DATA}: {message['message']}"


def changed_words(old, new, part):
    """What differs between two texts, with a word before and after it if they have such and a part of a file has these words once."""
    old, new = (re.findall(r"\S+\s*|\s+", text) for text in (old, new))
    front = next((at for at, (a, b) in enumerate(zip(old, new)) if a != b), min(len(old), len(new)))
    back = next((at for at, (a, b) in enumerate(zip(old[front:][::-1], new[front:][::-1])) if a != b), min(len(old), len(new)) - front)
    for before, after in ((1, 1), (0, 1), (1, 0), (0, 0)):
        start, end = max(front - before, 0), max(back - after, 0)
        words = "".join(old[start:len(old) - end]).strip(), "".join(new[start:len(new) - end]).strip()
        if words[0] and part.count(words[0]) == 1:
            return words
    return "", ""


def segments(text, message, part):
    """The segments between names of a text and of the message that it should be, where they differ."""
    wanted = [piece for piece in re.split(NAME, own_text(message)) if piece]
    has = [piece for literal in literals(part) for piece in re.split(NAME, literal) if piece]
    if len(has) != len(wanted):
        has = [piece for piece in re.split(NAME, text.text) if piece]
    if len(has) != len(wanted):
        raise Fault(f"{text.path}: {text.source} has other names than its message: change it by hand")
    return [(old, new) for old, new in zip(has, wanted) if old != new]


def brought(text, message):
    """The file of a text, with the text as its message has it."""
    whole = read(text.path)
    part = whole[text.start:text.end]
    for old, new in segments(text, message, part):
        if part.count(old) != 1:
            old, new = changed_words(old, new, part)
        if not old:
            raise Fault(f"{text.path}: {text.source}: change it by hand")
        part = part.replace(old, new)
    return whole[:text.start] + part + whole[text.end:]


def quoted(text):
    """How a message is quoted in a check: a name of an option is one, or a variable, and any other name is of any bytes. A name that comes first
    begins after a mark."""
    def pattern(piece):
        return r"(-[\w-]+|\$\w+)" if piece in ("{option}", "{other}") else r'([^"\n]*?)' if piece.startswith("{") else re.escape(piece)

    begin = r"(?:(?<=[\"':}])|(?<=[!:] ))" if text.startswith("{") else ""
    return begin + "".join(map(pattern, re.split(rf"({NAME})", text)))


def requoted(whole, old, new, others):
    """The text of a check in which each quotation of a message is as the message is now, unless another message that is longer is meant."""
    def changed(found):
        front = whole[max(found.start() - 1, 0):found.end()]
        if any(len(bare(other)) > len(bare(old)) and re.search(quoted(other), front) for other in others):
            return found[0]
        names = [*found.groups(), ""]
        return "".join(piece + name for piece, name in zip(re.split(NAME, new), names))

    return re.sub(quoted(old), changed, whole)


def begin_changed(whole, old, new):
    """The text of a check in which each quotation of the beginning of a message, of two words at least, is as the message is now."""
    return re.sub(rf"(?<=[\"' ]){re.escape(old)}", lambda _: new, whole) if len(old.split()) > 1 else whole


def bring():
    """Brings each text that was changed in the table to the code, the definition, and to what quotes it."""
    changes, known = [], texts()
    for text, message in [pair for pair in unlike(messages()) if all(pair)]:
        names = re.findall(NAME, own_text(message))
        pieces = [piece for piece in re.split(NAME, text.text)]
        if len(pieces) == len(names) + 1:
            changes.append(("".join(piece + name for piece, name in zip(pieces, [*names, ""])), own_text(message)))
        text = next(again for again in texts() if (again.path, again.source, again.text) == (text.path, text.source, text.text))
        (TOP / text.path).write_text(brought(text, message), encoding="utf-8")
    for is_check, path in ((pattern in CHECKS, path) for pattern in CHECKS + PAGES for path in TOP.glob(pattern)):
        whole = path.read_text(encoding="utf-8")
        text = whole
        for old, new in dict(changes).items():
            parts = [part for part in zip(re.split(NAME, old), re.split(NAME, new)) if part[0] != part[1]]
            if is_check:
                text = requoted(text, old, new, [other.text for other in known])
                begin = [part for part in parts if part[0] == re.split(NAME, old)[0]]
                text = begin_changed(text, *begin[0]) if begin else text
            for part, other in parts:
                text = text.replace(part.strip(" :"), other.strip(" :")) if len(part.split()) >= LEAST else text
        if text != whole:
            path.write_text(text, encoding="utf-8")


def row(message):
    """The row of a message in docs/FORMAT.md."""
    status = [STATUSES[message["kind"]]] if message["kind"] in STATUSES else []
    return f"| {' | '.join([f'`' + message['example'] + '`', message['when'], *status])} |"


def entry(message, program):
    """What a man page says of a message."""
    name = "" if message["kind"] == "line" else f"{program}: "
    shown = (name + message["example"]).replace("\\", "\\e").replace('"', "\\(dq")
    return [f'.It "{shown}"', *mdoc([message["when"]])]


def of_page(found, program):
    """The list of messages in the man page of a program."""
    told = [message for message in found if message["kind"] != "words" and program in message["programs"].split()]
    return [line for message in told for line in entry(message, program)]


def places():
    """Each stretch that lists messages."""
    found = messages()
    listed = [message for message in found if message["programs"] != "lp_rebuild"]
    words, others = ([row(message) for message in listed if (message["kind"] == "words") == is_words] for is_words in (True, False))
    begin, end = '.\\" [messages]', '.\\" [end]'
    return [
        Place("docs/FORMAT.md", ("| message | if | status |", "|---"), "", others),
        Place("docs/FORMAT.md", ("| message after the name of the program | if |", "|---"), "", words),
        *(Place(f"man/{program}.1", (begin,), end, of_page(found, program)) for program in ("lp_relay", "lp_series", "lp_rebuild")),
    ]
