#!/usr/bin/env python3
"""Writes the completion of the programs' words for bash, zsh and fish.

    tables/completions.py FOLDER    writes FOLDER/bash/NAME, FOLDER/zsh/_NAME and FOLDER/fish/NAME.fish for each program

Each file is made of a template beside this script, tables/completion.SHELL, and of the options of the program. bin/install puts the files
where the shells look for them, and checks/shells.py compares what the shells complete with how the options go together.
"""

import re
import sys
from pathlib import Path

from options import ALONE, DIALECTS, FIRST, brief, programs
from records import read

FILES = {"bash": "bash/{}", "zsh": "zsh/_{}", "fish": "fish/{}.fish"}


def odds_of(option, found):
    """The words after which an option cannot come; and those after which it can if another one was given, by that one."""
    known = {other.word: other for other in found}
    rivals = [(word, unless) for other, unless in option.rivals.items() if other in known for word in known[other].words()]
    never = option.words() + [word for other in found if other.get("place") in (FIRST, ALONE) for word in other.words()]
    sometimes = {text: [word for word, unless in rivals if unless == text] for _, text in rivals if text}
    return never + [word for word, unless in rivals if not unless], sometimes


def cases_of_bash(program):
    """What bash completes after a word, as cases of the words before."""
    def case(those, more=""):
        return [f'*" {word} "{more}' for option in those for word in option.words()]

    alone, firsts = program.placed(ALONE), program.placed(FIRST)
    plain = [option for option in program.options if option.argument not in ("", "FILE") and not option.lines.get("values")]
    if ends := case(plain) + case(alone, "*"):
        yield f"    {' | '.join(ends)}) return ;;"
    for option in program.options:
        if option.lines.get("values"):
            words = " | ".join(case([option]))
            yield f'    {words}) mapfile -t COMPREPLY < <(compgen -W "{option.get("values")}" -- "$word"); return ;;'
    files = [option for option in program.options if option.argument == "FILE"]
    if takers := case(files) + case(firsts, "*"):
        yield f"    {' | '.join(takers)}) ;;"


def offers_of_bash(program):
    """What bash completes of the options."""
    known = {option.word: option for option in program.options}
    for option in program.ordinary():
        rivals = [(word, unless) for other, unless in option.rivals.items() if other in known for word in known[other].words()]
        others = [f'"{word} unless {unless}"' if unless else word for word, unless in rivals]
        yield "    " + " ".join([f"_{program.name}_offer", *option.words(), *others])
    firsts, alone = ([option.word for option in program.placed(place)] for place in (FIRST, ALONE))
    if firsts + alone:
        yield f'    [ "$given" != "  " ] || options+=({" ".join(firsts + alone)})'
    if firsts:
        after = " | ".join(f'" {word} "' for word in DIALECTS)
        yield f'    case $given in {after}) options+=({" ".join(firsts)}) ;; esac'


def stretches_of_bash(program):
    """What the template for bash lacks."""
    files = '    [ "${#COMPREPLY[@]}" != 0 ] || mapfile -t COMPREPLY < <(compgen -f -- "$word")'
    return {"options": offers_of_bash(program), "words": cases_of_bash(program), "files": [files] if program.takes_files else []}


def action_of_zsh(option):
    """What zsh completes after an option."""
    values = option.get("values")
    action = f"({values})" if values else "_files" if option.argument == "FILE" else " "
    return f":{option.argument}:{action}" if option.argument else ""


def specs_of_zsh(program):
    """The options as `_arguments` of zsh takes them. One that comes first or after a dialect takes all others away: a dialect does not."""
    firsts = [option.word for option in program.placed(FIRST)]
    for option in program.options:
        never, sometimes = odds_of(option, program.options)
        more = [f"$(_{program.name}_unless '{unless}' {' '.join(others)})" for unless, others in sometimes.items()]
        for word in option.words():
            words = [other for other in never if other != word and not (other in firsts and option.word in DIALECTS)]
            odds = {ALONE: "- *", FIRST: "-"}.get(option.get("place")) or " ".join(words + more)
            shown = "" if word == option.word else "!"
            yield f'    "{shown}({odds}){word}[{brief(option)}]{action_of_zsh(option)}"'
    if program.takes_files:
        yield "    '*:FILE:_files'"


def lines_of_fish(program):
    """The options as `complete` of fish takes them."""
    name = program.name
    if not program.takes_files:
        yield f"complete -c {name} -f"
    for option in program.options:
        never, sometimes = odds_of(option, program.options)
        never += [f'"{word} unless {unless}"' for unless, words in sometimes.items() for word in words]
        ask = f"__{name}_can {' '.join(never)}"
        if option.get("place") in (FIRST, ALONE):
            ask = " ".join([f"__{name}_is_first", *(DIALECTS if option.get("place") == FIRST else [])])
        values = option.get("values")
        after = f" -x -a '{values}'" if values else " -r -F" if option.argument == "FILE" else " -x" if option.argument else ""
        yield f"complete -c {name} -l {option.word[2:]} -d '{brief(option)}'{after} \\"
        follows = f"__{name}_follows {' '.join(option.words())}; or " if option.argument else ""
        yield f"    -n '{follows}{ask}'"


STRETCHES = {"bash": stretches_of_bash, "zsh": lambda program: {"options": specs_of_zsh(program)},
             "fish": lambda program: {"options": lines_of_fish(program)}}


def text_of(program, shell):
    """The completion of a program's words for a shell."""
    text = read(f"tables/completion.{shell}").replace("PROGRAM", program.name)
    for name, lines in STRETCHES[shell](program).items():
        text, count = re.subn(rf"^ *# \[{name}\]\n", lambda _, lines=lines: "".join(line + "\n" for line in lines), text, flags=re.M)
        if count != 1:
            raise Fault(f"tables/completion.{shell} has no line # [{name}], or several")
    return text


def write(folder):
    """Writes the completion of each program for each shell into a folder."""
    for shell, place in FILES.items():
        for program in programs():
            path = Path(folder, place.format(program.name))
            path.parent.mkdir(parents=True, exist_ok=True)
            path.write_text(text_of(program, shell), encoding="utf-8")


def main(words):
    if len(words) != 1 or words[0].startswith("-"):
        print(__doc__, file=sys.stderr)
        return 2
    try:
        write(words[0])
    except (Fault, OSError) as fault:
        print(f"completions: {fault}", file=sys.stderr)
        return 1
    return 0


if __name__ == "__main__":
    sys.exit(main(sys.argv[1:]))
