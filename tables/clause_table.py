"""The clauses of what is portable: the stretches that are made from tables/clauses.txt, and what files that are written by hand must have."""

import re
import textwrap

from records import Place, read, records

FIELDS = ["name", "text", "fault", "servers", "inside", "outside", "example", "server", "js", "proof", "measured"]
SERVERS = ["influx1", "victoria"]


class Clause:
    """A clause: the fields of its record, its number, and its name in other spellings."""

    def __init__(self, number, record):
        self.number, self.bit, self.measured = number, 1 << number, record["measured"]
        for field in FIELDS[:-1]:
            setattr(self, field, "\n".join(record.get(field, [])))
        self.snake = re.sub(r"(?<!^)([A-Z])", r"_\1", self.name).lower()
        self.upper = self.snake.upper()
        self.servers = self.servers.split()
        self.sentence = self.text[0].upper() + self.text[1:] + "."


ALL = [Clause(number, record) for number, record in enumerate(records("tables/clauses.txt", FIELDS))]
# All but the first one, which says that there is no line.
CLAUSES = ALL[1:]


def of(server):
    """The bits of the clauses that concern a server, in hexadecimal digits."""
    return f"0x{sum(clause.bit for clause in ALL if server in clause.servers):x}"


def each(line, clauses=CLAUSES):
    """The lines that a function gives for each clause."""
    return [part for clause in clauses for part in line(clause).split("\n")]


def arm(clauses, text):
    """An arm of a `match` over these clauses."""
    return [f"        {'| ' if place else ''}Clause::{clause.name}" for place, clause in enumerate(clauses[:-1])] + \
        [f"        | Clause::{clauses[-1].name} => {text},"]


def of_lp_portable():
    """The stretches of the crate lp_portable."""
    code, names, forms = "crates/lp_portable/src/broken.rt", "crates/lp_portable/specs/code/Clauses.antt", "crates/lp_portable/specs/format/Portable.antt"
    example = {clause: f" As in {clause.example}." if clause.example else "" for clause in CLAUSES}
    yield Place(code, ("pub enum Clause {",), "}", each(lambda c: f"    /// {c.sentence}\n    {c.name},"))
    yield Place(code, ("pub(crate) const CLAUSES",), "]", each(lambda c: f"    Clause::{c.name},"))
    yield Place(code, ("pub struct Broken {",), "}", each(lambda c: f"    /// {c.sentence}{example[c]}\n    pub {c.snake}: bool,"))
    yield Place(code, ("pub(crate) const NOTHING",), "}", each(lambda c: f"    {c.snake}: false,"))
    lone = {server: [clause for clause in CLAUSES if clause.servers == [server]] for server in SERVERS}
    both = [clause for clause in CLAUSES if clause.servers == SERVERS]
    yield Place(code, ("fn concerns(", "    match clause {"), "    }",
                arm(lone["influx1"], "!matches!(to, Servers::Victoria)") + arm(lone["victoria"], "!matches!(to, Servers::Influx1)") + arm(both, "true"))
    yield Place(code, ("    pub fn has(", "        match clause {"), "        }", each(lambda c: f"            Clause::{c.name} => self.{c.snake},"))
    count = len(CLAUSES)
    yield Place(code, ("    pub(crate) fn place", "        ensures value"), "    {", [f"        ensures within {{ result < {count} }}"])
    yield Place(code, ("    fn bit(", "        ensures value"), "    {", [f"        ensures within {{ result ≤ 2 ^ {count} }}"])
    yield Place("crates/lp_portable/src/sure.rt", ("fn bit_if(", "    ensures value"), "{", [f"    ensures within {{ result ≤ 2 ^ {count} }}"])
    yield Place("crates/lp_portable/proofs/broken/Broken/bits/Invariants.antt", ("  bits :",), "}", [f"  small : l.bits ≤ l.at * 2 ^ {count};"])
    wrapped = textwrap.wrap(" ".join(clause.snake for clause in CLAUSES), 140)
    yield Place(forms, ("pub data Clause",), "", [f"  {line} : Clause" for line in wrapped])
    for word, server in (("is_of_influx", "victoria"), ("is_of_victoria", "influx1")):
        yield Place(forms, (f"abbrev pub {word} ",), f"{word} other", each(lambda c: f"{word} {c.snake} = false", lone[server]))
    yield Place(names, ("abbrev pub clause_of",), "", each(lambda c: f"clause_of Clause.{c.name} = portable.{c.snake}"))
    yield Place(names, ("abbrev pub is_broken ",), "", each(lambda c: f"is_broken broken Clause.{c.name} = broken.{c.snake}"))
    yield Place("crates/lp_portable/proofs/Once.antt", ("listed :",), "",
                each(lambda c: f"listed format.{c.snake} = (Clause.{c.name}, {c.number - 1}, refl, omega arith, refl)"))
    same, given = "crates/lp_portable/proofs/SameBroken.antt", [f"h{place}" for place in range(len(CLAUSES))]
    yield Place(same, ("pub same_broken",), "    → x ≡ y", each(lambda c: f"    → x.{c.snake} ≡ y.{c.snake}"))
    yield Place("crates/lp_portable/proofs/portable/broken_in/Answers.antt", ("returns c = same_broken",), "", each(lambda c: f"    {c.proof or 'refl'}"))
    yield Place(same, ("    → x ≡ y",), "", [f"same_broken x y {' '.join(given)} =", f"    rw ({', '.join(given)}) refl"])


def of_messages():
    """The stretches of the crates that say a clause in words: lp_conditions and lp_c."""
    yield Place("crates/lp_conditions/specs/Portables.antt", ("abbrev pub clause_text",), "", each(lambda c: f'clause_text Clause.{c.name} = codes "{c.fault}"'))
    yield Place("crates/lp_conditions/src/portable.rt", ("fn clause_text", "    match"), "    }", each(lambda c: f'        Clause::{c.name} => "{c.fault}",'))
    yield Place("crates/lp_c/src/clause_messages.rt", ("fn message_by", "    match"), "        _", each(lambda c: f'        0x{c.bit:x} => Some("{c.text}"),', ALL))
    yield Place("crates/lp_c/specs/ClauseMessages.antt", ("clause_message bit =", "    if"), "    else []",
                each(lambda c: f'    else if bit == clause_bit Clause.{c.name} then codes "{c.text}"'))


def of_bindings():
    """The stretches of the header and of the packages."""
    header, python, rust, core = ("include/influxdb_line_protocol.h", "bindings/python/src/line_protocol/portable.py", "bindings/rust/src/portable.rs",
                                  "bindings/js/core.js")
    wide = max(len(clause.upper) for clause in ALL)
    yield Place(header, ("/* The clauses of what is portable",), "",
                each(lambda c: f"#define LP_CLAUSE_{c.upper:{wide}} {f'(UINT64_C(1) << {c.number})':19} /* {c.text} */", ALL))
    yield Place(header, ("/* The clauses that concern a server", " * server reads"), "", [f"#define LP_OF_{s.upper():8} UINT64_C({of(s)})" for s in SERVERS])
    yield Place("bindings/go/portable.go", ("// The clauses, in the order", "const ("), ")",
                each(lambda c: f"	// Clause{c.name}: {c.text}.\n	Clause{c.name}{'' if c.number else ' Clause = iota'}", ALL))
    yield Place(rust, ("// The clauses that concern each server",), "", [f"const OF_{s.upper()}: u64 = {of(s)};" for s in SERVERS])
    yield Place(rust, ("clauses! {",), "}", each(lambda c: f'    {c.name} = {c.number}, "{c.text}";'))
    yield Place(python, ("CLAUSES:",), "}", each(lambda c: f'    "{c.snake}": "{c.text}",'))
    yield Place(python, ("Servers = ", ""), "_MASKS", [f"_OF_{s.upper()} = {of(s)}" for s in SERVERS])
    yield Place(core, ("export const CLAUSES",), "]", each(
        lambda c: f'    ["{c.name}", {c.servers[0].upper() if len(c.servers) == 1 else "BOTH"}, "{c.text}"],', ALL))
    yield Place(core, ("    const broken = {",), "    }", each(lambda c: f"        {c.name}: {c.js},"))


def of_pages():
    """The stretches of docs/FORMAT.md and of the rows that were measured."""
    yield Place("docs/FORMAT.md", ("| clause | broken if", "|---"), "", each(
        lambda c: f"| `{c.name}` | {c.text} | `{c.fault}` | {c.inside} | {c.outside} | {c.server} |"))
    yield Place("checks/portable_rows.txt", ("# These rows are",), "# Further rows", [f"{c.name}\t{row}" for c in ALL for row in c.measured])


def places():
    """The stretches that are made from the table."""
    return [*of_lp_portable(), *of_messages(), *of_bindings(), *of_pages()]


def problems():
    """Each definition, proof and oracle that lacks a clause, in words."""
    for path, name in (("crates/lp_portable/specs/code/ByCode.antt", "      {0.snake} ="), ("crates/lp_portable/src/portable.rt", "        {0.snake}: "),
                       ("crates/lp_portable/specs/format/Portable.antt", "breaks limits text line names {0.snake} ="),
                       ("checks/portable.py", 'yield "{0.name}", ')):
        text = read(path)
        yield from (f"{path} lacks the clause {clause.name}" for clause in CLAUSES if name.format(clause) not in text)
    for path, text in (("crates/lp_conditions/specs/Portables.antt", f'told_text told.NoLine = codes "{ALL[0].fault}"'),
                       ("crates/lp_conditions/src/portable.rt", f'Verdict::NoLine => "{ALL[0].fault}"'),
                       ("crates/lp_c/specs/ClauseMessages.antt", f'if bit == no_line_bit then codes "{ALL[0].text}"'),
                       ("docs/FORMAT.md", f"the fault says `{ALL[0].fault}`")):
        if text not in read(path):
            yield f"{path} lacks: {text}"
