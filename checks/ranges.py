#!/usr/bin/env python3
"""Relays the ranges of a file one after another, and compares what they give with one relay of the file.

    checks/ranges.py RELAY [SEED]

RELAY: a built lp_relay. It walks each range between the cuts into 1, 2, 3, 5, 8 and 64 parts of files of 0 to 300 bytes, by the rules
of each dialect in turn: lines, refused pieces, and objects of faults with their offsets, but for the numbers of items and lines. The
cuts are compared with those of the same text through a pipe, and in the newline-delimited dialect with the newlines themselves. Then a
file becomes shorter while it is relayed. SEED: the number of the texts, which is told at the end.
"""

import os
import random
import re
import tempfile
from concurrent.futures import ThreadPoolExecutor

import relay_runs
from relay_runs import Wrong

PARTS = 1, 2, 3, 5, 8, 64
DIALECTS = [], ["--strict"], ["--newline-delimited"]
MEANT = ["m a=1i\n", "m,k=v f=2 5\n", "x\n", 'm s="a\nb"\n', 'm s="open\n', "# it's a=\"\n", "a\\\n b f=1i\n", "\xe9 f=1i\n", "\n", " ", '"', "\\", ",", "=", "y"]
NUMBERS = re.compile(rb'"item":\d+,"line":(\d+)|,"piece_line":\d+|"stop_line":\d+')


def text_of(chance, length):
    """A text of so many bytes: pieces that mean something, and bytes that are no text."""
    text = b""
    while len(text) < length:
        text += chance.choice(MEANT).encode() if chance.random() < 0.98 else b"\xff"
    return text[:length]


def without_numbers(objects):
    """The objects without the numbers of items and of lines, which begin anew in each range."""
    return NUMBERS.sub(b"", objects)


def relayed(relay, dialect, folder, words):
    """The lines, the refused pieces and the objects of a relay of these words."""
    refused = os.path.join(folder, "refused")
    ended = relay.run([*dialect, "--faults", "json", "--max-line", "40", "--refused", refused, "--replace", *words])
    with open(refused, "rb") as file:
        return ended.out, file.read(), without_numbers(ended.err)


def even_cut(text, place):
    """The cut for a place where each newline ends a line."""
    found = text.find(b"\n", max(place, 1) - 1)
    return found + 1 if found >= 0 else text.rfind(b"\n") + 1


def walk(relay, number, seed):
    """Compares all ranges of the file of so many bytes: how many they are."""
    text = text_of(random.Random(f"{seed} {number}"), number)
    dialect = DIALECTS[number % 3]
    ranges = 0
    with tempfile.TemporaryDirectory() as folder:
        file = os.path.join(folder, "text")
        with open(file, "wb") as made:
            made.write(text)
        whole = relayed(relay, dialect, folder, [file])
        for parts in PARTS:
            cut = [*dialect, "--cut", str(parts)]
            told = relay.run([*cut, file]).out
            if told != relay.run(cut, text).out:
                raise Wrong(f"{cut} gives other ends of a file than through a pipe: {text!r}")
            ends = [int(end) for end in told.split()]
            if len(ends) != parts or ends[-1] != number:
                raise Wrong(f"{cut} gives {ends} of {text!r}")
            if dialect == DIALECTS[2] and ends[:-1] != [even_cut(text, k * number // parts) for k in range(1, parts)]:
                raise Wrong(f"{cut} gives {ends} of {text!r}")
            given = [relayed(relay, dialect, folder, ["--range", f"{start}..{end}", file]) for start, end in zip([0, *ends], ends)]
            for what, one, all_of_it in zip(("lines", "refused pieces", "objects"), zip(*given), whole):
                if b"".join(one) != all_of_it:
                    raise Wrong(f"the {what} of the ranges of {cut} are not those of {text!r}")
            ranges += parts
        half = relayed(relay, dialect, folder, ["--range", f"{ends[31]}..", file])
        if tuple(b"".join(one) for one in zip(*given[:32], half)) != whole:
            raise Wrong(f"what begins at {ends[31]} does not go on to the end of {text!r}")
    return ranges + 1


def worked(relay, folder):
    """Cuts that are worked by hand: what the parts before and after a newline give is what the text gives, just if it ends a piece."""
    for dialect, text, is_same in (DIALECTS[1], b"m a=1i\nx\nn b=2i\n", True), (DIALECTS[1], b'm s="a\nb"\n', False), (DIALECTS[2], b'm s="a\nb"\n', True):
        file = os.path.join(folder, "text")
        with open(file, "wb") as made:
            made.write(text)
        at = text.index(b"\n") + 1
        parts = b"".join(relay.run([*dialect, "--range", part, file]).out for part in (f"0..{at}", f"{at}.."))
        if (parts == relay.run([*dialect, file]).out) != is_same:
            raise Wrong(f"{dialect}: of {text!r}, cut at {at}, the parts give {parts!r}")


def becomes_shorter(relay, folder):
    """A file becomes shorter while a range of it is relayed: that is told, and what came before it is written."""
    file = os.path.join(folder, "long")
    with open(file, "wb") as made:
        made.write(b"m a=1i\n" * 4_000_000)
    with relay.start(["--range", "7..28000000", file], bufsize=0) as process:
        first = process.stdout.read(7)
        os.truncate(file, 14_000_000)
        rest, told = process.communicate()
    wanted = f"lp_relay: cannot read the input: {file}: unexpected end of file\n".encode()
    if process.returncode != 2 or told != wanted or first + rest != b"m a=1i\n" * 1_999_999:
        raise Wrong(f"of a file that becomes shorter: status {process.returncode}, {len(first + rest)} bytes, {told!r}")


def check(relay, seed=None):
    seed = seed or str(random.randrange(10**6))
    try:
        with ThreadPoolExecutor(os.cpu_count()) as pool:
            ranges = sum(pool.map(lambda number: walk(relay, number, seed), range(301)))
        with tempfile.TemporaryDirectory() as folder:
            worked(relay, folder)
            becomes_shorter(relay, folder)
    except Wrong as wrong:
        raise Wrong(f"{wrong}; SEED={seed}") from None
    return f"{ranges} ranges of 301 files, by cuts of three dialects, give what the files give; SEED={seed}"


if __name__ == "__main__":
    relay_runs.end_by(check, __doc__, 1)
