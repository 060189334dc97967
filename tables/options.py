"""The options of the programs, from tables/options.txt and tables/series_options.txt. The head of the first says what the fields mean.

Made of them here are the usage and the help in the code, with the lists of options that have values, exclude each other or need another
one; the tables of options in docs/FORMAT.md; the usage in docs/OPERATING.md; and the lists of options in examples/parts.sh. The code and
the definitions of the words are written by hand, since they are proved: they must know just these options. Each option of lp_relay, and
each word of a few that comes after one, must be told in CHANGELOG.md, and in a check that runs lp_relay.
"""

import re
import textwrap
from dataclasses import dataclass
from typing import NamedTuple

import records
from records import TOP, Fault, Place, read

DATA, SERIES = "tables/options.txt", "tables/series_options.txt"
FIELDS = ("option", "short", "values", "not with", "unless", "needs", "place", "usage after", "in parts", "does", "default", "man", "example",
          "errors", "see also", "often", "brief", "format", "lp_rebuild")
SHARED = "short", "values", "does", "default", "brief"  # what a record of lp_series takes from that of lp_relay
DIALECTS = "--strict", "--newline-delimited"
FORM, FIRST, ALONE = "a form", "first or after a dialect", "alone"
PLACES_TOLD = {"": "", FORM: "", FIRST: f", first or after `{'` or `'.join(DIALECTS)}`", ALONE: ", alone"}  # as docs/FORMAT.md has them
COLUMN, HELP_WIDTH, CODE_WIDTH = 21, 79, 100
USAGE_WIDTH = {"lp_relay": 96, "lp_rebuild": 96, "lp_series": 104}

# The files with code and definitions of each program's words.
CODE = {"lp_relay": ("crates/lp_relay_program/src/words.rt", "crates/lp_relay_program/specs/Words.antt"),
        "lp_rebuild": ("crates/lp_rebuild/src/program.rt", "crates/lp_rebuild/specs/Running.antt"),
        "lp_series": ("crates/lp_series_program/src/words.rt", "crates/lp_series_program/specs/Words.antt")}
# Where each option of lp_relay is told by hand: this page, and one of these checks.
TOLD = ("CHANGELOG.md",)
CHECKS = "runs/lp_relay_*.txt", "apart.sh", "objects.py", "settings.py", "batch_files.py", "ranges.py"
# What relays a file in parts, and the names of its lists of options, by what the field `in parts` has.
PARTS, LISTS = "examples/parts.sh", {"each": "of_parts", "files": "of_files", "numbers": "of_numbers", "ranges": "of_ranges", "run": "of_runs"}
OPTION = re.compile(r"(--[a-z][a-z-]*)(?: ([A-Z./]+))?")
WORD = re.compile(r'"(-[a-zA-Z]|--[a-z][a-z-]*)"')


@dataclass
class Option:
    """A record of the file."""

    word: str
    argument: str
    lines: dict  # the lines of each field that it has
    rivals: dict  # the options with which it cannot be given, also by their records, each with the words with which it can

    def get(self, field):
        return " ".join(self.lines.get(field, []))

    def words(self):
        return [self.word, *self.lines.get("short", [])]

    def spelled(self):
        """As the usage has it."""
        argument = self.get("values").replace(" ", "|") or self.argument
        return f"{self.word} {argument}".strip()

    def of_page(self, word=""):
        """As a man page has it, by its word or its short one."""
        values, argument = self.get("values").replace(" ", " | "), self.argument.lower()
        return f"Fl {(word or self.word)[1:]}" + (f" Cm {values}" if values else f" Ar {argument}" if argument else "")


class Program(NamedTuple):
    """A program and its options."""

    name: str
    options: list
    takes_files: bool

    def placed(self, place):
        """Its options with this place."""
        return [option for option in self.options if option.get("place") == place]

    def ordinary(self):
        """Its options that come in any order."""
        return [option for option in self.options if option.get("place") in ("", FORM)]


def option_of(path, lines, shared):
    """The option of a record. What the record lacks it takes from an option of the same name, if that is one of these."""
    told = " ".join(lines.get("option", []))
    other = shared.get(told)
    if other:
        told = f"{told} {other.argument}".strip()
        lines = {**{field: other.lines[field] for field in SHARED if field in other.lines}, **lines}
    head = OPTION.fullmatch(told)
    if not head or not lines.get("does"):
        raise Fault(f"{path}: this is no option, or it has no line `does`: {told or lines}")
    if " ".join(lines.get("place", [])) not in PLACES_TOLD:
        raise Fault(f"{path}: {head[1]}: there is no such place: {lines['place'][0]}")
    return Option(head[1], head[2] or "", lines, {})


def loaded(path, shared):
    """The options of a file."""
    found = [option_of(path, lines, shared) for lines in records.records(path, FIELDS)]
    words = [word for option in found for word in option.words()]
    if twice := [word for word in words if words.count(word) > 1]:
        raise Fault(f"{path}: {twice[0]} is there twice")
    known = {option.word: option for option in found if option.get("place") in ("", FORM)}
    for option in found:
        if option.get("needs") and option.get("needs") not in known:
            raise Fault(f"{path}: {option.word} needs {option.get('needs')}, which is no option that comes in any order")
        for other in option.get("not with").split():
            if option.word not in known or other not in known:
                raise Fault(f"{path}: {option.word} is not with {other}: not both are options that come in any order")
            option.rivals[other] = known[other].rivals[option.word] = option.get("unless")
    return found


def programs():
    """Each program with its options."""
    relays = loaded(DATA, {})
    rebuilds = [option for option in relays if option.lines.get("lp_rebuild")]
    series = loaded(SERIES, {option.word: option for option in relays})
    return [Program("lp_relay", relays, True), Program("lp_rebuild", rebuilds, False), Program("lp_series", series, True)]


def group_of(option, known):
    """The ways of which one is taken, each of options, if this one is given or not: it alone; or one, or those at odds with it."""
    rivals = [word for word in option.rivals if word in known]
    hub = max((known[word] for word in (option.word, *rivals)), key=lambda other: len(other.rivals.keys() & known))
    others = [other for other in known.values() if other.word in hub.rivals]
    if not others or any(len(other.rivals.keys() & known) > 1 for other in others):
        return [[option]]  # Brackets cannot say more.
    ways = [[hub], others]
    return ways if len(others) > 1 else sorted(ways, key=lambda way: list(known).index(way[0].word))


def groups(found):
    """Options in the order of the usage, in groups of which each has its ways."""
    known, ordered = {option.word: option for option in found}, []
    for option in found:
        if not any(option in way for ways in ordered for way in ways):
            ordered.append(group_of(option, known))
    for option in [option for option in found if option.lines.get("usage after")]:
        ways = next(ways for ways in ordered if any(option in way for way in ways))
        ordered.remove(ways)
        before = [ways for ways in ordered if any(known.get(option.get("usage after")) in way for way in ways)]
        if not before:
            raise Fault(f"{DATA}: {option.word} cannot come in the usage after {option.get('usage after')}")
        ordered.insert(ordered.index(before[0]) + 1, ways)
    return ordered


def forms(program):
    """Each form of a program's call: the options that begin it, of which one is given, and which it needs; and the groups of the others."""
    plain, dialects = program.placed(""), [option for option in program.options if option.word in DIALECTS]
    yield [], groups(plain), []
    for option in program.placed(FORM):
        yield [option], groups([other for other in plain if other.word not in option.rivals]), []
    for option in program.placed(FIRST):
        yield [], groups(dialects), [option]
    if program.placed(ALONE):
        yield program.placed(ALONE), None, []


def usage_parts(program):
    """Each form of the call of a program, in parts that are not broken."""
    def way(each, is_alone):
        return each[0].spelled() if is_alone else " ".join(f"[{option.spelled()}]" for option in each)

    for firsts, others, lasts in forms(program):
        parts = [" | ".join(option.spelled() for option in firsts)] if firsts else []
        parts += ["[" + " | ".join(way(each, len(each) == 1) for each in ways) + "]" for ways in others or []]
        parts += [option.spelled() for option in lasts]
        yield parts + (["[FILE..]"] if program.takes_files and others is not None else [])


def usage(program):
    """The usage of a program."""
    lines, name = [], program.name
    for parts in usage_parts(program):
        line = ("       " if lines else "usage: ") + name
        for part in parts:
            if len(line) + 1 + len(part) > USAGE_WIDTH[name]:
                lines.append(line)
                line = " " * (7 + len(name))
            line += f" {part}"
        lines.append(line)
    return lines


def brief(option):
    """What the short help, zsh and fish say of an option, without the full stop."""
    text = option.get("brief") or re.split(r"[:.;]", option.get("does").replace("`", ""))[0]
    if set(text) & set("'\"[]$`\\"):
        raise Fault(f"completion cannot say this of {option.word}: {text}")
    return text


def any_of(words):
    """Words of which one is taken."""
    return " or ".join(part for part in (", ".join(words[:-1]), words[-1]) if part)


def by_words(text, option):
    """A sentence without its full stop, with the words of which one comes after the option, if there are several."""
    values = option.get("values").split()
    return text + (f": {any_of(values)}." if len(values) > 1 else ".")


def said(option):
    """What the help says of an option: what it does, what happens without it, and how it goes with others."""
    texts = [by_words(option.get("does").rstrip("."), option), option.get("default")]
    for unless in dict.fromkeys(option.rivals.values()):
        rivals = any_of([word for word, other in option.rivals.items() if other == unless])
        texts.append(f"Cannot be combined with {rivals}" + (f", except with {unless}." if unless else "."))
    texts += [f"Needs {option.get('needs')}."] if option.get("needs") else []
    return " ".join(text for text in texts if text).replace("`", "")


def help_lines(found, tell):
    """What the help says of options, by a function of each."""
    for option in found:
        argument = option.get("values") if len(option.get("values").split()) == 1 else option.argument
        head = ", ".join([f"  {option.word} {argument}".rstrip(), *option.words()[1:]])
        if len(head) > COLUMN - 1:
            yield head
            head = ""
        for line in textwrap.wrap(tell(option), HELP_WIDTH - COLUMN, break_long_words=False, break_on_hyphens=False):
            yield head.ljust(COLUMN) + line
            head = ""


def rows(program):
    """The rows of the options in docs/FORMAT.md."""
    for option in program.options:
        head = " or ".join(f"`{word} {option.argument}".rstrip() + "`" for word in option.words())
        if option.lines.get("not with"):
            head += ", not with " + " or ".join(f"`{word}`" for word in option.get("not with").split())
            head += f", but with `{option.get('unless')}`" if option.get("unless") else ""
        rebuild = [option.get("lp_rebuild") or "wrong"] if program.name == "lp_relay" else []
        cells = head + PLACES_TOLD[option.get("place")], *rebuild, option.get("format") or option.get("does")
        yield f"| {' | '.join(cells)} |"


def as_code(lines):
    """Lines as a constant of the code has them."""
    return "\n".join(lines).replace("\\", "\\\\").replace('"', '\\"').split("\n")


def usage_constant(lines):
    """A usage as a constant of the code, as `rt fmt` lays it out."""
    text = '"' + "\n".join(as_code(lines)) + '";'
    whole = f"pub const USAGE: &str = {text}".split("\n")
    return whole if len(whole[0]) <= CODE_WIDTH else ["pub const USAGE: &str =", *f"    {text}".split("\n")]


def valued(found):
    """The options that have a value after them, as a constant of the code."""
    words = [word for option in found if option.argument for word in option.words()]
    return ["pub(crate) const VALUED: &[&str] = &[", *(f'    "{word}",' for word in words), "];"]


def odds(found):
    """The options that exclude each other, as a constant of the code."""
    pairs = [(option.word, other, option.get("unless")) for option in found for other in option.get("not with").split()]
    return pairs_constant("ODDS", 3, pairs)


def needs(found):
    """The options that need another one, as a constant of the code."""
    return pairs_constant("NEEDS", 2, [(option.word, option.get("needs")) for option in found if option.get("needs")])


def pairs_constant(name, width, pairs):
    """Words that go together as a constant of the code, as `rt fmt` lays out several."""
    words = ["(" + ", ".join(f'"{word}"' for word in pair) + ")," for pair in pairs]
    kind = ", ".join(["&str"] * width)
    return [f"pub(crate) const {name}: &[({kind})] = &[", *(f"    {pair}" for pair in words), "];"]


def places_of_code(program):
    """Each stretch of a program's code that lists its options."""
    code, found = CODE[program.name][0], program.options
    yield Place(code, ("/// How the program is called",), "", usage_constant(usage(program)))
    if program.placed(ALONE):
        yield Place(code, ("pub const HELP", ""), "", as_code(help_lines(found, said)))
        yield Place(code, ("/// Options that have a value after them",), "", valued(found))
    if program.name == "lp_relay":
        often = [option for option in found if option.lines.get("often")]
        yield Place(code, ("pub const SHORT_HELP", ""), "", as_code(help_lines(often, lambda option: by_words(brief(option), option))))
        yield Place(code, ("/// Options that exclude each other",), "", odds(found))
        yield Place(code, ("/// Options, each with one that it needs",), "", needs(found))


def lists_of_parts(found):
    """The lists of options in what relays a file in parts. The options of each part that take a word have a list of their own."""
    lists = {name: [] for name in ("of_parts", "with_words", *LISTS.values())}
    for option in (option for option in found if option.get("place") != ALONE):
        if option.get("in parts") not in LISTS:
            raise Fault(f"{DATA}: {option.word}: `in parts` is none of {', '.join(LISTS)}: {option.get('in parts')}")
        name = LISTS[option.get("in parts")]
        lists["with_words" if name == "of_parts" and option.argument else name] += option.words()
    return [f"{name}=' {' '.join(words)} '" for name, words in lists.items()]


def places():
    """Each stretch that lists options."""
    found = programs()
    relay, _, series = found
    return [
        *(place for program in found for place in places_of_code(program)),
        Place("docs/FORMAT.md", ("| arguments of a program", "| none |"), "| files, also before these", list(rows(relay))),
        Place("docs/FORMAT.md", ("| arguments of `lp_series`", "|---"), "| files, also before these", list(rows(series))),
        Place(PARTS, ("# The options of a relay, as tables/generate.py writes them", "#"), "", lists_of_parts(relay.options)),
        Place("docs/OPERATING.md", ("<!-- the usage of lp_relay -->", "```text"), "```", usage(relay)),
    ]


def told(path, text):
    """The words of options that a file of code or definitions has between quotes, without its comments."""
    comment = r"^ *//.*\n" if path.endswith(".rt") else r"^ *--.*\n"
    text = re.sub(r"^pub const (USAGE|HELP|SHORT_HELP): &str =\s.*?\";\n", "", text, flags=re.M | re.S)
    return set(WORD.findall(re.sub(comment, "", text, flags=re.M)))


def at_odds(text):
    """The fields that the definition of options at odds names, also by the definition of what fault lines name."""
    bodies = re.findall(r"^(?:are_at_odds|are_opposed|names_lines|is_relay|asks_to_count) given =(.*?)\n\n", text, re.M | re.S)
    return set(re.findall(r"given\.(\w+)", "".join(bodies)))


def words_at_odds(found):
    """The options of which each cannot be given with some other one, and those by which they can."""
    return {word for option in found for other, unless in option.rivals.items() for word in (other, *unless.split()[:1])}


def differences(program):
    """Where the code or the definitions of a program and its records have other options, or others that exclude each other."""
    if program.placed(ALONE):
        fields = {word.strip("-").replace("-", "_") for word in words_at_odds(program.options)}
        path = CODE[program.name][1]
        others = sorted(fields ^ at_odds(read(path)))
        yield from (f"{path}: are_at_odds and the table of {program.name} differ in {name}" for name in others)
    wanted = {word for option in program.options for word in option.words()}
    for path in CODE[program.name]:
        has = told(path, read(path))
        yield from (f"{path} has no {word}" for word in sorted(wanted - has))
        yield from (f"{path} has {word}, and the table of {program.name} does not" for word in sorted(has - wanted))


def differences_of_series(found):
    """Where the code and the records of lp_series have other options that exclude each other. The order is that in which messages name them."""
    code = CODE["lp_series"][0]
    listed = read(code).partition("const ODDS")[2].partition("];")[0]
    has = {frozenset(pair) for pair in re.findall(r'\("(--[a-z-]+)", "(--[a-z-]+)", ""\)', listed)}
    wanted = {frozenset((option.word, other)) for option in found for other in option.rivals}
    yield from (f"{code}: ODDS and {SERIES} differ in {' and '.join(sorted(pair))}" for pair in has ^ wanted)


def untold(found):
    """The options, and the words of a few after one, that are told by hand in some page or in no check."""
    texts = {path: read(path) for path in TOLD}
    texts["checks of lp_relay"] = "".join(path.read_text() for name in CHECKS for path in TOP.glob(f"checks/{name}"))
    for option in found:
        for place, text in texts.items():
            for word in (option.word, *option.get("values").split()):
                if not re.search(rf"(?<![\w-]){re.escape(word)}(?![\w-])", text) and (place != "CHANGELOG.md" or word == option.word):
                    yield f"no word of {word}{f', of {option.word}' if word != option.word else ''}, in {place}"


def problems():
    """What is wrong with texts that are written by hand."""
    found = programs()
    relay, _, series = (program.options for program in found)
    for program in found:
        yield from differences(program)
    yield from (*untold(relay), *differences_of_series(series))
