#!/usr/bin/env python3
"""Whether shells complete the words of the programs as their options go together, after no option, after each one, and after each two.

    checks/shells.py SHELL..    of bash, zsh and fish; status 1 if one completes otherwise, which is printed
"""

import os
import subprocess
import sys
import tempfile
from itertools import combinations, permutations
from pathlib import Path

TOP = Path(__file__).resolve().parent.parent
sys.path.append(str(TOP / "tables"))
import completions
from options import ALONE, DIALECTS, FIRST, programs

BEFORE = "some.file", "some.other"  # files of the folder in which the shells are
BASH = """
for program in lp_rebuild lp_relay lp_series; do . "$1/bash/$program"; done
while IFS= read -r line; do
    IFS=' ' read -ra COMP_WORDS <<<"$line"
    [[ $line != *' ' ]] || COMP_WORDS+=('')
    COMP_CWORD=$((${#COMP_WORDS[@]} - 1))
    "_${COMP_WORDS[0]}"
    printf '%s\\n' "${COMPREPLY[@]}" ''
done
"""
FISH = """
for program in lp_rebuild lp_relay lp_series; source $argv[1]/fish/$program.fish; end
while read -l line
    complete -C $line | string replace -r '\\t.*' ''
    echo
end
"""


def by_bash(folder, text):
    return subprocess.run(["bash", "--norc", "-c", BASH, "bash", folder], input=text, text=True, check=True, stdout=subprocess.PIPE).stdout


def by_fish(folder, text):
    return subprocess.run(["fish", "-N", "-c", FISH, folder], input=text, text=True, check=True, stdout=subprocess.PIPE).stdout


def by_zsh(folder, text):
    with tempfile.TemporaryDirectory() as made:
        lines, answers = Path(made, "lines"), Path(made, "answers")
        lines.write_text(text, encoding="utf-8")
        subprocess.run(["zsh", "-f", TOP / "checks" / "completion.zsh", Path(folder, "zsh"), lines, answers], check=True)
        return answers.read_text(encoding="utf-8")


SHELLS = {"bash": by_bash, "zsh": by_zsh, "fish": by_fish}


def answered(shell, folder, lines):
    """What a shell completes, for each line."""
    found, words = [], set()
    for line in SHELLS[shell](folder, "".join(line + "\n" for line in lines)).split("\n")[:-1]:
        if line:
            words.add(line)
        else:
            found.append(words)
            words = set()
    return found


def value_of(option):
    """A word that can come after an option."""
    return option.get("values").split()[-1] if option.lines.get("values") else BEFORE[0] if option.argument == "FILE" else "7"


def as_given(option):
    """An option with what comes after it."""
    return [option.word, *([value_of(option)] if option.argument else [])]


def spellings(before):
    """Options with what comes after them, by their words, and by the short ones if one has one."""
    yield [word for option in before for word in as_given(option)]
    if any(option.lines.get("short") for option in before):
        yield [word for option in before for word in [option.words()[-1], *as_given(option)[1:]]]


def are_at_odds(one, other, given):
    """Whether an option cannot come after another one, and the rest that was given."""
    unless = one.rivals.get(other.word)
    return unless == "" or (unless is not None and unless not in " ".join(given))


def can_come(option, before):
    """Whether an option can come after these."""
    given = [word for other in before for word in as_given(other)]
    if any(other.get("place") in (FIRST, ALONE) for other in before) or option in before:
        return False
    if option.get("place") in (FIRST, ALONE):
        return not before or (option.get("place") == FIRST and len(before) == 1 and before[0].word in DIALECTS)
    return not any(are_at_odds(option, other, given) for other in before)


def is_call(words):
    """Whether these options can be given in this order."""
    return all(can_come(option, words[:at]) for at, option in enumerate(words))


def cases(program, found):
    """Lines whose last word is to be completed, each with what must come."""
    for before in [(), *((option,) for option in found), *combinations(found, 2), *with_unless(found)]:
        if is_call(before):
            for given in spellings(before):
                yield " ".join([program, *given, "--"]), {option.word for option in found if can_come(option, before)}
    for option in found:
        for word in option.words():
            if option.argument == "FILE":
                yield f"{program} {word} some.", set(BEFORE)
            elif option.argument:
                yield f"{program} {word} ", set(option.get("values").split())


def with_unless(found):
    """Three options of which one lets two others go together, and two of these."""
    texts = {unless for option in found for unless in option.rivals.values() if unless}
    lets = [option for option in found if " ".join(as_given(option)).startswith(tuple(texts))]
    return [words for words in permutations(found, 3) if words[1] in lets and any(words[0].rivals.values())]


def main(words):
    if not words or set(words) - SHELLS.keys():
        print(__doc__, file=sys.stderr)
        return 2
    wanted = [case for program in programs() for case in cases(program.name, program.options)]
    wanted += [(f"{program.name} some.", set(BEFORE) if program.takes_files else set()) for program in programs()]
    said = []
    with tempfile.TemporaryDirectory() as made, tempfile.TemporaryDirectory() as folder:
        completions.write(folder)
        os.chdir(made)
        for name in BEFORE:
            Path(name).touch()
        for shell in words:
            given = answered(shell, folder, [line for line, _ in wanted])
            if len(given) != len(wanted):
                said.append(f"{shell} answers {len(given)} of {len(wanted)} lines")
            said += [f"{shell} completes `{line}` by {sorted(came)}, and not by {sorted(must)}"
                     for (line, must), came in zip(wanted, given) if came != must]
    print("\n".join(f"shells: {line}" for line in said[:20]) or f"shells: {', '.join(words)}: {len(wanted)} completions each")
    return 1 if said else 0


if __name__ == "__main__":
    sys.exit(main(sys.argv[1:]))
