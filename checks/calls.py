#!/usr/bin/env python3
"""The public calls with their contracts: docs/CALLS.md is made of the code, and git does not keep it.

    checks/calls.py            exit status 1 if a new public call has no first sentence that can be read alone, or if docs/TRUST.md has not each
                               condition
    checks/calls.py --silent   prints each public call without a first sentence that can be read alone

`checks/documents.py --write calls` writes the page. A call is public if the root or a public module of a crate of ROOTS hands it on, or its
type and trait, or if it is `extern "C"` in `lp_c` or `lp_page`. The first sentence of a method of an impl is that of the trait's method, if
the method has no comment of its own.
"""

import re
import sys
from typing import NamedTuple

from clauses import bare, closing, function, members, one_line, surface
from documents import CALLS, LIBRARIES, PROGRAMS, RELAY, SHARED, TOP, Tree, handed_on
from reading import Definitions, worked

TRUST = "docs/TRUST.md"
CONDITIONS = "## Conditions"
# The crates that hand names on, the crates whose code these are in, and what each is for.
ROOTS = {
    "influxdb_line_protocol": (LIBRARIES[:LIBRARIES.index("influxdb_line_protocol") + 1], "The library"),
    "lp_rebuild": (["lp_rebuild"], "Rebuilding whole texts"),
    "lp_relay": (RELAY, "Relaying lines as they come"),
    "lp_series": (["lp_series"], "Counting series"),
    "lp_c": (["lp_c"], "Callers in C"),
    "lp_page": (["lp_page"], "Callers in JavaScript"),
}
FOREIGN = ["lp_c", "lp_page"]
# Crates whose public functions the page has too, though no library hands them on.
BESIDE = {"lp_influx": "A reader that reads as InfluxDB 1.x does", **dict.fromkeys(SHARED, "What the programs share"),
          "lp_relay_program": "The program of the relay", "lp_series_program": "The program that counts series"}
MOST_SILENT = 1  # so many public calls may lack a first sentence that can be read alone
GOES_ON = re.compile(r"(?:The same|So|And)\b")

HEAD = """\
# Calls

This page lists each public call that has a contract, and the functions of the programs that have none. A row has the first sentence of the
call's doc comment, and the labels of its clauses with the definitions that they cite. A prover has checked each clause for every input that
the call's conditions allow. `docs/TRUST.md` has what that means in plain words, and what it relies on; the list of definitions is
`docs/DEFINITIONS.md`. A clause without a label is `ensures`, and one that begins with `requires` is a condition.

`checks/documents.py --write calls` makes this page from the code.
"""


class Call(NamedTuple):
    words: set  # that name it
    name: str  # with the name of its type or trait
    clauses: list
    path: str
    comment: str


def without_types(name):
    """A name of a type or a method without the types in `<>`."""
    return re.sub(r"<(?:[^<>]|<[^<>]*>)*>", "", name)


def code_words(text):
    """The identifiers in `code` of a text."""
    return {word for span in re.findall(r"`([^`]+)`", text) for word in re.findall(r"[A-Za-z_]\w*", span)}


def comment_above(text, place):
    """The comment above a place of a file of code, in one line of text for each paragraph."""
    lines = []
    for line in reversed(text[:place].split("\n")[:-1]):
        if found := re.match(r" *///? ?(.*)", line):
            lines.append(found[1])
        elif not re.match(r" *#\[|.*\)\]$", line):
            break
    return "\n".join(reversed(lines))


def first_sentence(comment):
    """The first sentence of a comment, in one line."""
    paragraph = " ".join(re.split(r"\n\s*\n|\n```", comment)[0].split())
    sentence = re.match(r"(.*?[.!?])(?= |$)|.*", paragraph)[0].rstrip(":")
    return re.sub(r"\[(`[^`]*`)\](?:\([^)]*\))?", r"\1", sentence)


def functions_of(tree, path):
    """Each function of a file, and what an impl says of its type: its name, whether it is public, its clauses and its comment."""
    text = tree.text(path)
    code = bare(text)
    for name, is_public, what, place in members(code):
        if what == "fn":
            head, clauses, _ = function(code[place:])
            yield name, is_public, head, clauses, comment_above(text, place)
        else:
            yield name, is_public, "", [one_line(code[place:closing(code, code.index("{", place))])], ""


def calls_of(tree, crates, names, modules, with_methods=False):
    """The functions of crates that have one of these names, or whose type and trait have, or that are in one of these modules: if asked for
    so, methods of types that are not handed on too."""
    paths = tree.glob(*(f"crates/{crate}/src/**/*.rt" for crate in crates))
    hidden = {word for path in paths for word in re.findall(r"\b(?:struct|enum|trait) (\w+)", tree.text(path))} - names
    for path in paths:
        module = path.rpartition("/")[2].removesuffix(".rt")
        for name, is_public, head, clauses, comment in functions_of(tree, path):
            owner, _, method = name.rpartition("::")
            owners = set(re.findall(r"\w+", without_types(owner)))
            is_handed_on = owners & names and not owners & hidden if owner else method in names
            is_handed_on = is_handed_on or module in modules and (with_methods or not owner)
            if is_public and (is_handed_on or head and 'extern "C"' in head):
                yield bool(head), Call(owners & names | {method}, name, clauses, path, comment)


def calls_by_root(tree, with_methods=False):
    """Of each root its public calls, also a call without a clause of its own; and what impls say of its public types."""
    for root, (crates, _) in ROOTS.items():
        modules = re.findall(r"^pub mod (\w+);", tree.text(f"crates/{root}/src/lib.rt"), re.M)
        found = list(calls_of(tree, crates, set() if root in FOREIGN else handed_on(tree, root), set()))
        if root not in FOREIGN:
            found += [call for call in calls_of(tree, [root], set(), modules, with_methods) if call not in found]
        yield root, found


def calls_beside(tree, crate):
    """The public functions of a crate of BESIDE: those that its root hands on and those of its laws, or all of a crate of the programs."""
    names = handed_on(tree, crate)
    for path in tree.glob(f"crates/{crate}/src/**/*.rt"):
        for name, is_public, head, clauses, comment in functions_of(tree, path):
            if is_public and (crate in PROGRAMS or name in names or path.endswith("/laws.rt")):
                yield bool(head), Call({name}, name, clauses, path, comment)


def handed_on_calls(tree):
    """Every public call, also one without a clause of its own."""
    return [call for _, calls in calls_by_root(tree) for is_function, call in calls if is_function]


def sentences(tree):
    """The first sentence of each public call with a clause. A method of an impl without a comment has that of its trait, and nothing if the
    trait is one of std."""
    found = {}
    traits = {}
    for path in tree.glob("crates/*/src/**/*.rt"):
        for name, _, head, _, comment in functions_of(tree, path):
            owner, _, method = name.rpartition("::")
            if head and comment and owner and " for " not in owner:
                traits.setdefault((without_types(owner), method), first_sentence(comment))
    for call in handed_on_calls(tree):
        owner, _, method = call.name.rpartition("::")
        trait = without_types(owner.partition(" for ")[0]) if " for " in owner else ""
        found[call.path, call.name] = first_sentence(call.comment) or traits.get((trait, method), "")
    return found


def silent_calls(tree):
    """The public calls with a clause whose first sentence is missing, or cannot be read alone. A method of a trait of std needs none."""
    told = sentences(tree)
    ours = {name for path in tree.glob("crates/*/src/**/*.rt") for name in re.findall(r"\btrait (\w+)", tree.text(path))}
    for call in handed_on_calls(tree):
        trait = re.findall(r"\w+", without_types(call.name.partition(" for ")[0])) if " for " in call.name else []
        sentence = told[call.path, call.name]
        if call.clauses and (GOES_ON.match(sentence) or not sentence and (not trait or trait[-1] in ours)):
            yield f"{call.path}: {call.name}: {sentence or 'it has no comment'}"


def labels(definitions, call):
    """The labels of a call's clauses, each with the definitions that it cites."""
    for clause in call.clauses:
        head = re.match(r"(?:(requires)|ensures|ghost)\*?(?: (\w+))?", clause)
        bound = {word for names in re.findall(r"λ ([^.]*)\.|\(([\w ]+) :", clause) for word in " ".join(names).split()}
        cited = dict.fromkeys(f"`{place.name()}`" for place in definitions.named_in(clause, call.path) if place.name() not in bound)
        words = " ".join(word for word in (head and head[1], head and head[2]) if word) or "ensures"
        if words != "decreases":
            yield f"`{words}`" + (f" ({', '.join(cited)})" if cited else "")


def shown(name):
    """A name without the bounds of its trait."""
    return re.sub(r"^(\w+): [\w +]+", r"\1", name)


def table(*rows):
    return ["| " + " | ".join(cell.replace("|", "\\|") for cell in row) + " |" for row in rows]


def rows_of_calls(tree, definitions, calls):
    """A row for each call with a clause, and one for each impl that says something of a type."""
    told, impls = sentences(tree), {}
    for is_function, call in calls:
        if is_function and call.clauses:
            yield f"`{shown(call.name)}`", told.get((call.path, call.name)) or first_sentence(call.comment), "; ".join(labels(definitions, call))
        elif not is_function:
            impls.setdefault((call.path, call.name.rpartition("::")[0]), []).extend(labels(definitions, call))
    for (_, name), found in impls.items():
        yield f"`impl {shown(name)}`", "Says what the trait's clauses mean for this type.", "; ".join(found)


def functions_without_promise(tree):
    """The functions of the crates of programs without an `ensures`, but for the functions of an impl of a trait: the crate, the name and the
    first sentence of each."""
    for crate in PROGRAMS:
        for path in tree.glob(f"crates/{crate}/src/**/*.rt"):
            for name, _, head, clauses, comment in functions_of(tree, path):
                if head and " for " not in name and not any(line.startswith("ensures") for line in clauses):
                    yield f"`{without_types(name)}`", f"`{path.removeprefix('crates/')}`", first_sentence(comment)


def conditions(tree):
    """The public calls with a condition, and the condition."""
    for call in handed_on_calls(tree):
        for clause in call.clauses:
            if clause.startswith("requires"):
                yield call, clause


def page(tree):
    """The text of docs/CALLS.md."""
    definitions, lines = Definitions(tree), [*HEAD.splitlines()]
    beside = [(crate, list(calls_beside(tree, crate))) for crate in BESIDE]
    for root, calls in [*calls_by_root(tree, with_methods=True), *beside]:
        title = BESIDE.get(root) or ROOTS[root][1]
        lines += ["", f"## {title}, `{root}`", "", *table(("call", "what it does", "its clauses"), ("---",) * 3)]
        lines += table(*rows_of_calls(tree, definitions, calls))
    lines += ["", "## Conditions", "", "A caller must show each of these, and the prover asks for it at each call. All other public calls have none.", ""]
    lines += table(("call", "condition"), ("---",) * 2)
    lines += table(*((f"`{shown(call.name)}`", f"`{clause}`") for call, clause in conditions(tree)))
    lines += ["", "## Functions of the programs without a clause", ""]
    lines += ["No clause says what these functions give, because it lies in files, terminals or clocks, or because they only hand on. The checks test them.", ""]
    lines += table(("function", "file", "what it does"), ("---",) * 3)
    return "\n".join([*lines, *table(*functions_without_promise(tree))]) + "\n"


def wrong_conditions(tree):
    """The calls with a condition that the table of conditions of docs/TRUST.md does not have, and calls of that table that have none."""
    rows = tree.text(TRUST).partition(f"\n{CONDITIONS}\n")[2].partition("\n## ")[0].splitlines()
    told = {span: code_words(f"`{span}`") for row in rows if row.startswith("| `") for span in re.findall(r"`([^`]+)`", row.split("|")[1])}
    due = {call.name: call.words for call, _ in conditions(tree)}
    for name, words in due.items():
        if not any(words <= span for span in told.values()):
            yield f"{TRUST}: the table of conditions does not have {name}, which has a `requires`"
    for span, words in told.items():
        if not any(due_words <= words for due_words in due.values()):
            yield f"{TRUST}: the table of conditions has `{span}`, which has no `requires`"


def problems(tree):
    """What is wrong, in words."""
    silent = list(silent_calls(tree))
    if len(silent) > MOST_SILENT:
        yield (f"{len(silent)} public calls have no first sentence that can be read alone, where {MOST_SILENT} had none before: "
               "`checks/calls.py --silent` prints them")
    yield from wrong_conditions(tree)


def examples(tree):
    """How many relations the clauses of public calls name, and of how many a worked line has an example that they cover and one that they do
    not."""
    definitions = Definitions(tree)
    named = {place for _, calls in calls_by_root(tree, with_methods=True) for _, call in calls for clause in call.clauses
             for place in definitions.named_in(clause, call.path) if place.is_relation()}
    inside, outside = worked(tree, definitions)
    return len(named), len(named & inside & outside)


def main(words):
    tree = Tree(TOP)
    if words == ["--silent"]:
        print("\n".join(silent_calls(tree)))
        return 0
    if words:
        print(__doc__, file=sys.stderr)
        return 2
    found = list(problems(tree))
    calls = [call for call in handed_on_calls(tree) if call.clauses]
    print("\n".join(f"calls: {line}" for line in found) or f"calls: {CALLS} has {len(calls)} public calls, {len(list(silent_calls(tree)))} of which "
          "have no first sentence that can be read alone; their clauses name {} relations, {} with an example just outside".format(*examples(tree)))
    return 1 if found else 0


if __name__ == "__main__":
    sys.exit(main(sys.argv[1:]))
