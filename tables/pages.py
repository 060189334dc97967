"""The stretches of the man pages that are made from the tables of options, and the examples in them.

Texts of a table are plain, with `code` between backticks; a line that begins with a full stop is a line of mdoc(7), and stays.
"""

import re
import textwrap

from options import ALONE, DIALECTS, FIRST, forms, programs
from records import Place

WIDTH = 78
SENTENCE = re.compile(r"(?<=[.!?]) (?=[A-Z`])")
SPAN = re.compile(r"`([^`]+)`([.,;:)]*)")
BEGIN, END = '.\\" [options]', '.\\" [end]'


def escaped(text):
    """A text as it stands in a line of mdoc."""
    text = text.replace("\\", "\\e")
    return f"\\&{text}" if text.startswith((".", "'")) else text


def macro_of(code):
    """The line of mdoc for what stands between backticks: an option, another page, a value that the user chooses, or other text."""
    option = re.fullmatch(r"--([a-z][a-z-]*)(?: ([a-z0-9+]+))?", code)
    if option:
        return f".Fl -{option[1]}" + (f" Cm {option[2]}" if option[2] else "")
    if page := re.fullmatch(r"(\w+)\((\d)\)", code):
        return f".Xr {page[1]} {page[2]}"
    if value := re.fullmatch(r"([A-Z]+)(\.\.)?", code):
        return f".Ar {value[1].lower()}" + (r" Ns ..\&" if value[2] else "")
    text = escaped(code).replace('"', '\\(dq')
    return f'.Ql "{text}"' if " " in text else f".Ql {text}"


def lines_of(text):
    """The lines of mdoc for a text without such lines. Each sentence begins a line."""
    for sentence in SENTENCE.split(text):
        at = 0
        for span in SPAN.finditer(sentence):
            yield from wrapped(sentence[at:span.start()])
            yield " ".join([macro_of(span[1]), *span[2]])
            at = span.end()
        yield from wrapped(sentence[at:])


def wrapped(text):
    """A text without code in lines."""
    return [escaped(line) for line in textwrap.wrap(text.strip(), WIDTH, break_on_hyphens=False)]


def mdoc(lines):
    """The lines of mdoc for the lines of a field."""
    held = []
    for line in [*lines, "."]:
        if not line.startswith("."):
            held.append(line)
            continue
        yield from lines_of(" ".join(held))
        held = []
        if line != ".":
            yield line


def listed(words, last):
    """Options, and other pages, in a row: the last two with this word between them."""
    lines = [macro_of(word) for word in words]
    for at in range(len(lines) - 2):
        lines[at] += " ,"
    return [*lines[:-1], *([last] if len(lines) > 1 else []), *lines[-1:]]


def odds_of_page(option, known):
    """How an option goes with others, as a man page says it."""
    needed = option.get("needs")
    if needed:
        yield from ("This option needs", f"{macro_of(needed)} .")
    for unless in dict.fromkeys(option.rivals.values()):
        others = [word for word, text in option.rivals.items() if text == unless and word in known]
        if others:
            lines = ["Cannot be combined with", *listed(others, "or")]
            if unless:
                lines[-1] += " ,"
                lines += ["except with", macro_of(unless)]
            yield from (*lines[:-1], lines[-1] + " .")
    if option.get("place") == FIRST:
        yield from ("This option comes first, or after", *listed(DIALECTS, "or")[:-1], listed(DIALECTS, "or")[-1] + " .")
    if option.get("place") == ALONE:
        yield "No other argument can be given with it."


def example_of(option, program):
    """The lines of an option's example. One of lp_relay that lp_rebuild has too is an example of that."""
    lines = option.lines.get("example", [])
    return [line.replace("lp_relay", program.name) for line in lines] if program.name == "lp_rebuild" else lines


def entry(option, program):
    """What the man page of a program says of an option."""
    known = {other.word for other in program.options}
    yield ".It " + " , ".join(option.of_page(word) for word in option.words())
    for field in ("does", "default", "man"):
        yield from mdoc(option.lines.get(field, []))
    example = example_of(option, program)
    if example:
        yield from (".Pp", "For example:", ".Bd -literal -offset indent", *map(escaped, example), ".Ed")
    last = [*mdoc(option.lines.get("errors", [])), *odds_of_page(option, known)]
    others = [word for word in option.get("see also").split() if word in known or "(" in word]
    if others:
        lines = listed(others, "and")
        last += ["See also", *lines[:-1], lines[-1] + " ."]
    yield from ([".Pp"] if example and last else []) + last


def synopsis(program):
    """The forms of the call of a program, as its page has them."""
    def way(each, is_alone):
        return each[0].of_page() if is_alone else " ".join(f"Oo {option.of_page()} Oc" for option in each)

    for firsts, others, lasts in forms(program):
        yield ".Nm"
        if firsts:
            yield "." + " | ".join(option.of_page() for option in firsts)
        for ways in others or []:
            yield ".Op " + " | ".join(way(each, len(each) == 1) for each in ways)
        yield from (f".{option.of_page()}" for option in lasts)
        if program.takes_files and others is not None:
            yield ".Op Ar"


def places_of(program):
    """Each stretch of a program's man page that lists its options. In that of lp_relay those that are other tasks have a list of their own."""
    page, parts = f"man/{program.name}.1", [program.options]
    if program.name == "lp_relay":
        parts = [program.ordinary(), [option for option in program.options if option not in program.ordinary()]]
    yield Place(page, (BEGIN,), END, list(synopsis(program)))
    for number, part in enumerate(parts, 2):
        yield Place(page, (BEGIN,) * number, END, [line for option in part for line in entry(option, program)])


def places():
    """Each stretch of the man pages that lists options."""
    return [place for program in programs() for place in places_of(program)]


def examples():
    """The examples of all options, each in lines that begin with one that names the program and the option."""
    for program in programs():
        for option in program.options:
            if example := example_of(option, program):
                yield [f"# {program.name} {option.word}", *example]


def unknown_options(found):
    """The options that texts of the tables name, and that no program has."""
    known = {option.word for program in found for option in program.options}
    for option in (option for program in found for option in program.options):
        told = " ".join(option.get(field) for field in ("does", "default", "man", "errors"))
        named = {word for span in SPAN.finditer(told) for word in span[1].split() if word.startswith("--")}
        named |= {word for word in option.get("see also").split() if "(" not in word}
        yield from (f"the record of {option.word} names {word}, which is no option" for word in sorted(named - known))


def problems():
    """What is wrong with texts of the tables, and with the examples before they are run: checks/readme.sh runs them."""
    yield from unknown_options(programs())
    for head, *lines in examples():
        commands, (_, program, word) = [line for line in lines if line.startswith("$ ")], head.split()
        if lines[0] not in commands or not any(program in line and word in line for line in commands):
            yield f"the example of {head[2:]} does not run it"
        if long := [line for line in lines if len(line) > WIDTH]:
            yield f"the example of {head[2:]} has a line of more than {WIDTH} characters: {long[0]}"
