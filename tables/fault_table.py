"""The faults of lines: the stretches that are made from tables/faults.txt, and what files that are written by hand must have of it."""

import re
import textwrap

from records import TOP, Place, read, records

OBJECTS, COUNTS = "crates/lp_faults/specs/Objects.antt", "crates/lp_conditions/specs/KindCounts.antt"
FIELDS = ["name", "variant", "kind", "number", "reader", "carries", "text", "meaning", "where", "carried", "hint", "example", "words"]


class FaultOf:
    """A fault: the fields of its record, and what follows from them."""

    def __init__(self, record):
        for field in FIELDS:
            setattr(self, field, "\n".join(record.get(field, [])))
        self.examples = [line.partition("\t")[::2] for line in record.get("example", [])]
        self.rows = [line.split(" | ") for line in record.get("where", [])]
        self.number = int(self.number or 0)
        self.kind = self.kind or self.name
        self.upper = self.kind.upper()
        # The variant of the kinds of lp_relay and of Go, and the variant of all other code.
        self.camel = "".join(word[0].upper() + word[1:] for word in self.kind.split("_"))
        self.variant = self.variant or self.camel
        # What the code calls the text that the fault carries, and what comes before and after it in words.
        self.member = {"number": "value", "rest": "trailing_content", "key": "tag_key"}.get(self.carries, "")
        self.front, _, self.back = self.text.partition("{}")
        if not self.number:
            self.front = self.text.split("`")[1].partition("N is")[0]
        self.meant = self.meaning[:-1]
        self.of_its_range = re.sub("the range of `.64`", "its range", self.meaning)
        self.of_64 = "u64" if "`u64`" in self.meaning else "i64"
        # How the rows of checks/tables/answers.tsv name it.
        self.row = {"rest": "rest", "kind": "TakeWhile1"}.get(self.carries, self.variant)


ALL = [FaultOf(record) for record in records("tables/faults.txt", FIELDS)]
NUMBERED = [fault for fault in ALL if fault.number]
OF_LINES = NUMBERED[1:]
OF_READERS = OF_LINES + [fault for fault in ALL if fault.reader]
KINDS = sorted((fault for fault in ALL if fault not in NUMBERED[:1]), key=lambda fault: fault.kind)
# The definitions list the faults that carry nothing first.
DEFINED = [fault for shape in ("kind", "number", "rest") for fault in OF_LINES if (fault.carries or "kind") == shape]
WIDTH = 100  # of a line of Rattle


def each(shape, faults=OF_LINES, **shapes):
    """The lines for each fault: of a text with its members, or of another one, for what it carries. A function gives the text too."""
    def text(fault):
        chosen = shapes.get(fault.carries, shape)
        return chosen(fault) if callable(chosen) else chosen.format_map(vars(fault))

    return [line for fault in faults for line in text(fault).split("\n")]


def each_kind(shape, faults=KINDS):
    """The lines for each fault, whatever it carries."""
    return [line for fault in faults for line in shape.format_map(vars(fault)).split("\n")]


def laid(one, *others, width=WIDTH):
    """A function that gives the first of these texts whose lines are short enough, or the last one."""
    def text(fault):
        filled = [shape.format_map(vars(fault)) for shape in (one, *others)]
        return next((text for text in filled if all(len(line) <= width for line in text.split("\n"))), filled[-1])

    return text


def wrapped(words, indent="    "):
    """Words with commas, in lines of at most 140 characters."""
    lines = textwrap.wrap(", ".join(word.replace(" ", "\0") for word in words) + ",", 140, initial_indent=indent, subsequent_indent=indent)
    return [line.replace("\0", " ") for line in lines]


def of_imports():
    """The stretches that import or hand on the names of faults: the last line with a front imports the names that the lines before it do not."""
    readings = "use Rattle.influxdb_line_protocol.specs.format.Readings.{"
    names, kinds = [fault.name for fault in OF_LINES], [fault.camel for fault in KINDS]
    for path, front, wanted in (("crates/lp_offsets/specs/Numbers.antt", readings, names), ("crates/lp_c/specs/Messages.antt", readings, names),
                                *((path, "use Rattle.lp_conditions.specs.declared.kinds.Kind.TheVariants.{", kinds) for path in (OBJECTS, COUNTS))):
        lines = read(path).split("\n")
        *others, last = (number for number, line in enumerate(lines) if line.startswith(front))
        known = re.findall(r"\w+", " ".join(lines[number] for number in others))
        yield Place(path, (front,) * len(others), lines[last + 1], [front + ", ".join(sorted({*wanted} - {*known})) + "}"])
    handed = ["Side", "above", "below", "Fault", *(fault.name for fault in DEFINED), "Text", "Read", "Reading", "miss", "fatal", "reads", "◌>>=◌",
              "◌otherwise◌", "or_fault"]
    front = "pub use Readings.{"
    yield Place("crates/lp_format/specs/format.antt", ("unfoldable pub use Escapes",), "pub use Names", [
        front + line.rstrip(",") + "}" for line in textwrap.wrap(", ".join(handed), 140 - len(front))])


def of_specs():
    """The stretches of definitions."""
    names = {shape: " ".join(fault.name for fault in DEFINED if (fault.carries or "kind") == shape) for shape in ("kind", "number", "rest")}
    yield Place("crates/lp_format/specs/format/Readings.antt", ("pub data Fault",), "", [
        f"  {names['kind']} : Fault", f"  {names['number']} : Side → List ℕ → Fault", f"  {names['rest']} : List ℕ → Fault"])
    yield Place("crates/lp_format/specs/code/Light.antt", ("abbrev pub carries_no_text",), "carries_no_text other", each(
        "carries_no_text ({name} side text) = false", [fault for fault in DEFINED if fault.member], rest="carries_no_text ({name} text) = false"))
    yield Place("crates/lp_values/specs/code/Faults.antt", ("abbrev pub fault_text",), "", each(
        'fault_text format.{name} = codes "{text}"', DEFINED, number='fault_text (format.{name} side value) = codes "{front}" ++ value ++ codes "{back}"',
        rest='fault_text (format.{name} rest) = codes "{front}" ++ rest ++ codes "{back}"'))
    yield Place("crates/lp_values/specs/code/Outcomes.antt", ("abbrev pub fault_of",), "fault_of other", each(
        "fault_of error.{variant} = Some format.{name}", kind="fault_of (error.{variant} kind) = Some format.{name}",
        number="fault_of (error.{variant} source value) = Some (format.{name} (side source) (string_bytes value))",
        rest="fault_of (error.{variant} rest) = Some (format.{name} (string_bytes rest))"))
    yield Place("crates/lp_values/specs/code/SpelledParts.antt", ("abbrev pub spelled_fault",), "", each(
        "spelled_fault fault.{variant} = format.{name}", kind="spelled_fault (fault.{variant} kind) = format.{name}",
        number="spelled_fault (fault.{variant} source value) = format.{name} (side source) value.now",
        rest="spelled_fault (fault.{variant} rest) = format.{name} rest.now"))
    yield Place(COUNTS, ("abbrev pub kind_name",), "", each_kind('kind_name {camel} = codes "{kind}"'))
    yield Place(OBJECTS, ("abbrev pub fault_kind",), "", each(
        "fault_kind fault.{name} = {camel}", number="fault_kind (fault.{name} side value) = {camel}", rest="fault_kind (fault.{name} rest) = {camel}"))
    numbers = "crates/lp_offsets/specs/Numbers.antt"
    yield Place(numbers, ("abbrev pub fault_number", "fault_number FaultKind.None"), "", each("fault_number FaultKind.{variant} = {number}", NUMBERED))
    yield Place(numbers, ("abbrev pub fault_seen",), "", each(
        "fault_seen {name} = bare_fault FaultKind.{variant}", number="fault_seen ({name} side text) = number_fault FaultKind.{variant} side text",
        rest="fault_seen ({name} rest) = record {{ kind = FaultKind.{variant}; side = side.Neither; text = rest }}"))
    messages, asked = "crates/lp_c/specs/Messages.antt", "    else if number == fault_number FaultKind.{variant} then "
    yield Place(messages, ("message_by number text =", "    if number"), "", [*each(
        asked + "fault_text {name}", OF_LINES[:-1], number=asked + "fault_text ({name} above text)", rest=asked + "fault_text ({name} text)"),
        f"    else fault_text {OF_LINES[-1].name}"])
    yield Place(messages, ("pub record IsFaultNumber", "  pub some"), "", [f"  pub known : number ≤ fault_number FaultKind.{OF_LINES[-1].variant}"])


def of_reading():
    """The stretches of the code that reads and counts: lp_values and lp_relay."""
    errors, spelled, texts, kinds = ("crates/lp_values/src/error.rt", "crates/lp_values/src/spelled.rt", "crates/lp_values/src/fault_texts.rt",
                                     "crates/lp_conditions/src/kinds.rt")
    for path, marks, end, text in ((errors, ("pub enum Error {", "    DuplicateTag"), "    /// A request for memory", "String"),
                                   (spelled, ("pub enum SpelledFault",), "}", "&'a str")):
        yield Place(path, marks, end, each(
            "    /// {meaning}\n    {variant},", kind="    /// {meaning}\n    {variant} {{ kind: ErrorKind }},",
            number="    /// {meant}; `value` {carried}.\n    {variant} {{ source: OutOfRange, value: %s }}," % text,
            rest="    /// {meaning}\n    {variant} {{ trailing_content: %s }}," % text))
    copied = """            SpelledFault::{variant} {{ %s }} => match String::from_str(
%s
            ) {{
                Ok({member}) => Error::{variant} {{ %s }},
                Err(_) => Error::OutOfMemory,
            }},"""
    first = [fault for fault in DEFINED if not fault.carries] + [fault for fault in DEFINED if fault.carries]
    yield Place(spelled, ("    pub fn to_error", "        match self {"), "        }", each(
        "            SpelledFault::{variant} => Error::{variant},", first,
        kind="            SpelledFault::{variant} {{ kind }} => Error::{variant} {{ kind }},",
        number=copied % ("source, value", "                alloc, value,", "source, value"),
        rest=copied % ("trailing_content", "                alloc,\n                trailing_content,", "trailing_content")))
    kind = "            SpelledFault::{variant} {{\n                kind: ErrorKind::TakeWhile1,\n            }} => "
    bare, holds = "            SpelledFault::{variant} => ", "            SpelledFault::{variant} {{ %s }} => "
    written, split = 'write!(f, "%s"),', 'write!(\n                f,\n                "%s"\n            ),'
    block = '{{\n                write!(f, "%s")\n            }}'
    shown = "{front}{{{member}}}{back}"
    yield Place(texts, ("impl<'a> fmt::Display for SpelledFault", "        match self {"), "        }", each(
        laid(*(bare + how % "{text}" for how in (written, block, split))), kind=kind + written % "{text}",
        number=laid(*(holds % "source: _, value" + how % shown for how in (written, block, split))),
        rest=laid(*(holds % "trailing_content" + how % shown for how in (written, block, split)))))
    yield Place(texts, ("    let fault = match error {", "        Error::DuplicateTag"), "    }", each(
        "        Error::{variant} => SpelledFault::{variant},", kind="        Error::{variant} {{ kind }} => SpelledFault::{variant} {{ kind: *kind }},",
        number="        Error::{variant} {{ source, value }} => SpelledFault::{variant} {{\n            source: *source,\n"
               "            value: value.as_str(),\n        }},",
        rest="        Error::{variant} {{ trailing_content }} => SpelledFault::{variant} {{\n            trailing_content: trailing_content.as_str(),\n        }},"))
    yield Place(kinds, ("pub enum Kind {",), "}", each_kind("    /// {meaning}\n    {camel},"))
    yield Place(kinds, ("pub const KINDS",), "]", each_kind("    Kind::{camel},"))
    yield Place(kinds, ("    pub fn name", "        match self {"), "        }", each_kind('            Kind::{camel} => "{kind}",'))
    held = "        SpelledFault::{variant} {{ .. }} => Kind::{camel},"
    yield Place("crates/lp_faults/src/refusals.rt", ("fn kind_of", "    match fault {"), "    }",
                each("        SpelledFault::{variant} => Kind::{camel},", kind=held, number=held, rest=held))


def of_border():
    """The stretches of the code that callers in other languages meet: lp_offsets and lp_c."""
    one = "        SpelledFault::{variant}%s => (FaultKind::{variant}, %s, %s),"
    split = "        SpelledFault::{variant}%s => (\n            FaultKind::{variant},\n            %s,\n            %s,\n        ),"
    seen = {shape: laid(one % words, split % words) for shape, words in {
        "": ("", "Side::Neither", '""'), "number": (" {{ source, value }}", "side_of(source)", "value"),
        "rest": (" {{ trailing_content }}", "Side::Neither", "trailing_content")}.items()}
    yield Place("crates/lp_offsets/src/enums.rt", ("pub enum FaultKind {", "    None"), "}",
                each_kind("    /// {of_its_range}\n    {variant} = {number},", NUMBERED))
    yield Place("crates/lp_offsets/src/faults.rt", ("pub fn fault_seen", "    match fault {"), "    }", each(
        seen[""], number=seen["number"], rest=seen["rest"],
        kind="        SpelledFault::{variant} {{\n            kind: ErrorKind::TakeWhile1,\n        }} => (FaultKind::{variant}, Side::Neither, \"\"),"))
    yield Place("crates/lp_c/src/messages.rt", ("fn message_by", "    match number {"), "        _ =>", each(message, NUMBERED, **dict.fromkeys(
        ("key", "kind", "number", "rest"), message)))


def message(fault):
    """The arm of `message_by` in lp_c. A call whose arguments take more than 60 characters has one on each line."""
    def literal(text):
        return 'b"' + text.replace('"', '\\"') + '"'

    call, args = ("framed", [literal(fault.front), "text", literal(fault.back)]) if fault.member else ("bare", [literal(fault.text)])
    start = f"        {fault.number} => Some({call}("
    if len(", ".join(args)) <= 60:
        return f"{start}{', '.join(args)})),"
    return "\n".join([start, *(f"            {arg}," for arg in args), "        )),"])


def of_bindings():
    """The stretches of the header and of the packages."""
    widest = max(len(fault.upper) for fault in NUMBERED) + max(len(str(fault.number)) for fault in NUMBERED)
    carried = {"number": ": `fault_text` is the number", "rest": ": `fault_text` is the rest", "key": ": `fault_text` is the key"}
    header = [(fault, f"LP_{fault.upper} = {fault.number}{',' if fault is not NUMBERED[-1] else ''}") for fault in NUMBERED]
    yield Place("include/influxdb_line_protocol.h", ("enum lp_fault_kind {", "    LP_NONE"), "}", [
        f"    {text:{widest + 7}} /* {fault.of_its_range[0].lower()}{fault.of_its_range[1:-1]}{carried.get(fault.carries, '')} */" for fault, text in header])
    names = {fault: fault.camel.replace("Utf8", "UTF8") for fault in OF_READERS}
    go, wide = "bindings/go/errors.go", max(map(len, names.values()))
    yield Place(go, ("const (",), ")", [f'\t{name:{wide}} FaultKind = "{fault.kind}"' for fault, name in names.items()])
    yield Place(go, ("var faultKinds",), "}", wrapped(["2: " + names[OF_LINES[0]], *(names[fault] for fault in OF_LINES[1:])], "\t"))
    border = [fault for fault in NUMBERED if fault.carries != "kind"]
    yield Place("bindings/rust/src/border.rs", ("pub(crate) mod fault_kind {",), "}", each_kind("    pub(crate) const {upper}: u32 = {number};", border))
    held = "        fault_kind::{upper} => Error::{variant} {{ {member}: value }},"
    yield Place("bindings/rust/src/reading.rs", ("unsafe fn fault(", "    match line.fault {"), "        _ =>", each(
        "        fault_kind::{upper} => Error::{variant},", border, key=held, rest=held,
        number="        fault_kind::{upper} => {{\n            Error::{variant} {{ source: out_of_range(value.parse::<{of_64}>()), value }}\n        }}"))
    rust = "bindings/rust/src/error.rs"
    member = "    /// {of_its_range}\n    {variant} {{\n%s    }},"
    number = "        /// What the standard library says of it.\n        source: ParseIntError,\n        /// The number.\n        value: String,\n"
    yield Place(rust, ("    // The faults of lines.",), "    // The end of these.", each(
        "    /// {meaning}\n    {variant},", border[1:], number=member % number,
        rest=member % "        /// What is left.\n        trailing_content: String,\n"))
    arms = {holds: [f"            Self::{{variant}}{holds} => {how}" for how in (said + ",", "{{\n                " + said + "\n            }}")]
            for holds, said in (("", 'f.write_str("{text}")'), (" {{ value, .. }}", 'write!(f, "{front}{{{member}}}{back}")'),
                                (" {{ trailing_content }}", 'write!(f, "{front}{{{member}}}{back}")'))}
    bare, number, rest = (laid(*shapes, width=113) for shapes in arms.values())
    yield Place(rust, ("            // The faults of lines.",), "            // The end of these.", each(bare, border[1:], number=number, rest=rest))
    yield Place("bindings/rust/tests/answers.rs", ("fn fault(", "    match fault {"), "        Error::Generic", each(
        '        Error::{variant} => "{row}".into(),', border[1:], number='        Error::{variant} {{ source, value }} => number("{row}", source, value),',
        rest='        Error::{variant} {{ trailing_content }} => format!("{row} <{{trailing_content}}>"),'))
    items = "bindings/python/src/line_protocol/items.py"
    yield Place(items, ("class FaultKind", "    'FIELD_SET", '    """', ""), "", [
        f"    {fault.upper} = {fault.number or fault.reader}" for fault in [NUMBERED[0], *OF_READERS]])
    texts = {fault: f"{fault.front}{'{}' if fault.member else ''}{fault.back}" for fault in [NUMBERED[0], *OF_READERS]}
    yield Place(items, ("_MESSAGES = {",), "}", [f"    FaultKind.{fault.upper}: {quoted(text)}," for fault, text in texts.items()])
    yield Place("bindings/python/tests/test_answers.py", ("FAULTS = {",), "}", each_kind('    FaultKind.{upper}: "{row}",', OF_LINES))
    core = "bindings/js/core.js"
    yield Place(core, ("const FAULTS = [",), "]", wrapped(['""', *(f'"{fault.kind}"' for fault in NUMBERED)]))
    yield Place(core, ("const MESSAGES",), "}", [
        f"    {fault.kind}: text => `{fault.front}${{text}}{fault.back}`," if fault.member else f'    {fault.kind}: () => "{fault.front}",' for fault in OF_READERS])
    yield Place("bindings/js/index.d.ts", ("export type FaultKind =",), "", [
        f'    | "{fault.kind}"{";" if fault is OF_READERS[-1] else ""}' for fault in OF_READERS])
    yield Place("packaging/page/page.js", ("const MEANINGS = {",), "}", each_kind('    {kind}: "{hint}",', [fault for fault in OF_READERS if fault.hint]))


def of_checks():
    """The stretches of tests and checks."""
    yield Place("bindings/c/tests.h", ("static inline void put_fault", "    static const char"), "    }", wrapped(
        ['"no fault"', *(f'"{fault.row}"' for fault in NUMBERED)], "        "))
    rows = ["{}, {}".format(*('"' + text.replace('"', '\\"') + '"' for text in (fault.front, fault.back))) if fault.member
            else f'"{fault.front}", NULL' for fault in NUMBERED]
    yield Place("bindings/c/writing.c", ("static bool are_messages", "    static const struct"), "    };", [
        f"        {{ LP_{fault.upper}, {row} }}," for fault, row in zip(NUMBERED, rows)])
    yield Place("bindings/c/writing.c", ("static bool are_no_messages",), "    const lp_text", [f"    const uint32_t next = LP_{NUMBERED[-1].upper} + 1;"])
    yield Place("checks/page/answers.mjs", ("    const faults = {",), "    }", each_kind('        {kind}: "{row}",', OF_LINES))
    yield Place("checks/page/in_chromium.mjs", ("    const faults = {",), "    }", each_kind('        {row}: "{kind}",', OF_LINES))
    carrying = '    b"{row}": (b"{front}", b"{back}"),'
    yield Place("checks/tables.py", ("FAULTS = {",), "}", each('    b"{row}": (b"{front}", None),', number=carrying, rest=carrying))
    yield Place("checks/lp_checks.h", ("/* How many kinds",), "", [f"enum {{ LP_KINDS = {len(KINDS)} }};"])
    yield Place("checks/tables/answers.tsv", ("# The texts of faults are",), "", [
        f"fault\t{text}\t{fault.front}{carried}{fault.back}" for fault in OF_LINES for text, carried in fault.examples])
    def recounted(found):
        return f"{found[1]}: {len(re.findall(f'^{found[2]}	', read(f'checks/tables/{found[1]}'), re.M))} rows of {found[2]}"

    counts = re.sub(r"^(\S+): \d+ rows of (\w+)", recounted, read("checks/tables/counts.txt"), flags=re.M)
    yield Place("checks/tables/counts.txt", (), "", counts.rstrip("\n").split("\n"))


def shown(text):
    """A text with escapes as code of a page."""
    return "`" + re.sub(r"\\([\\t])", lambda escape: {"\\": "\\", "t": "⇥"}[escape[1]], text).replace("  ", "␣␣") + "`"


def of_pages():
    """The stretches of docs/FORMAT.md and of the manual."""
    letters = {"number": "V", "rest": "T"}
    said = {fault: f"`{fault.variant}`: `{fault.front}{letters.get(fault.carries, '')}{fault.back}`" if fault.number else fault.text for fault in KINDS}
    asked = {fault: shown(fault.examples[0][0]) + (f" with `{fault.words}`" if fault.words else "") for fault in KINDS}
    yield Place("docs/FORMAT.md", ("| `kind` | the fault", "|---"), "", [f"| `{fault.kind}` | {said[fault]} | {asked[fault]} |" for fault in ALL[1:]])
    rows = {}
    for fault in OF_LINES:
        for row, *cells in fault.rows:
            rows.setdefault(int(row), (*cells, []))[-1].append(fault)
    answers = {"kind": "`{variant}`, kind `{row}`", "rest": "`{variant}` with exactly the rest"}
    lines = []
    for row, (condition, stop, faults) in sorted(rows.items()):
        answer = answers.get(faults[0].carries, "`{variant}`").format_map(vars(faults[0])) if len(faults) == 1 else "its fault"
        lines.append(f"| {row} | {condition} | {answer} | {stop} |")
    yield Place("docs/FORMAT.md", ("| row | condition", "|---"), "", [*lines, f"| {len(rows) + 1} | else | Ok with what was read | the end of the text |"])
    yield Place("man/lp_relay.1", ('.\\" [kinds]',), '.\\" [end]', [
        line for fault in KINDS for line in (f".It Li {fault.kind}", *textwrap.wrap(fault.meaning.replace("`", ""), 78))])


def quoted(text):
    """A text as a string of Python."""
    return f"'{text}'" if '"' in text else f'"{text}"'


def places():
    """The stretches that are made from the table."""
    return [*of_imports(), *of_specs(), *of_reading(), *of_border(), *of_bindings(), *of_checks(), *of_pages()]


# Where the text of a fault that is no fault of a line, or of lp_relay alone, is written by hand.
BY_HAND = {
    "duplicate_tag": {
        "crates/lp_values/specs/code/Faults.antt": 'codes "{front}" ++ string_bytes key ++ codes "{back}"', "crates/lp_values/src/fault_texts.rt": "{front}{{tag_key}}{back}",
        "crates/lp_c/specs/Messages.antt": 'codes "{front}" ++ key ++ codes "{back}"', "bindings/rust/src/error.rs": "{front}{{tag_key}}{back}",
        "docs/FORMAT.md": "`{front}K{back}`"},
    "not_utf8": {OBJECTS: 'codes "{front}"', "bindings/go/errors.go": '= "{front}"'},
    "too_long": {"crates/lp_faults/specs/Relaying.antt": 'codes "{front}', "bindings/go/errors.go": '= "{front}"'},
    "name_not_admitted": {"crates/lp_rebuild/specs/Rebuilding.antt": 'codes "{front}"', "bindings/js/core.js": '"{front}"'},
}


def problems():
    """Each text that is written by hand in another way, and each file that must name each fault and does not, in words."""
    for fault in ALL:
        for path, shape in BY_HAND.get(fault.name, {}).items():
            text = shape.format_map(vars(fault))
            if text not in read(path).replace('\\"', '"'):
                yield f"{path} lacks: {text}"
    answers = "".join(read(f"crates/lp_format/specs/format/{name}.antt") for name in ("Lines", "Names", "Values"))
    yield from (f"crates/lp_format/specs/format has no line that gives the fault {fault.name}" for fault in OF_LINES if not re.search(
        rf"^(?!use ).*\b{fault.name}\b", answers, re.M))
