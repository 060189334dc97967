#!/usr/bin/env python3
"""Writes the corpora of the bench: files of line protocol, one of each shape.

    bench/corpora.py --seed WORD --size BYTES --out FOLDER [NAME..]

The same seed and size give the same bytes, whichever shapes are asked for: each shape has random
numbers of its own. With no NAME all shapes are written, each to FOLDER/NAME.lp, whose path is printed.
`shapes.py` has those that are made line by line; a file of these ends with the line that reaches the
size.
"""

import argparse
from collections.abc import Iterator
from pathlib import Path

from shapes import EVERYDAY, NARROW, Dice, Shape

NAMES = (*EVERYDAY, "hostile", *NARROW)

START = 1_700_000_000_000_000_000
"""The time of the first line, in nanoseconds."""


def lines(shape: Shape, dice: Dice, size: int) -> Iterator[bytes]:
    """Lines of a shape, with times that rise."""
    time = START
    while size > 0:
        time += dice.number(1, 9_999_999)
        line = shape(dice, time).encode()
        size -= len(line)
        yield line


def hostile_parts(run: int) -> Iterator[str]:
    """Texts that give a reader much to do, of about `run` bytes each."""
    even = run // 2 * 2
    # Names and strings of backslashes, where the last escapes what follows it, or not.
    for backslashes in ("\\" * even, "\\" * (even + 1)):
        yield f"{backslashes} f=1 1\n"
        yield f"m,t={backslashes}x f=1 1\n"
        yield f"m,{backslashes}=x f=1 1\n"
        yield f'm f="{backslashes}" 1\n"\n'
    # Names that are mostly escapes.
    yield ("m" + "\\ " * 40 + ",t=" + "\\," * 40 + " f=1 1\n") * (run // 175)
    # Long strings.
    yield 'm f="' + "x" * run + '" 1\n'
    yield 'm f="' + '\\"' * (run // 2) + '" 1\n'
    yield 'm f="' + "\n" * run + '" 1\n'
    yield 'm f="' + ",=" * (run // 2) + '" 1\n'
    # Many tags, many fields, and many strings in one line.
    yield "m" + "".join(f",t{place:06d}=v" for place in range(run // 10)) + " f=1 1\n"
    yield "m " + ",".join(f"f{place:06d}=1" for place in range(run // 10)) + " 1\n"
    yield "m " + ",".join('s="a,b c=d"' for _ in range(run // 12)) + " 1\n"
    # Long numbers.
    yield "m f=" + "7" * run + " 1\n"
    yield "m f=0." + "0" * run + "1e99999 1\n"
    yield "m f=1 " + "0" * run + "1\n"
    # Runs of one byte, and short lines.
    for byte in (",", "=", " ", '"', "\t"):
        yield byte * even + "\n"
    yield "\n" * (2 * run)
    yield "\r\n" * (run // 2)
    yield "#" + '"' * even + "\n"
    yield "# so\n" * (run // 5)
    yield 'm f="""\n' * (run // 16 * 2)
    yield "m,a=b\n" * (run // 6)


def hostile(dice: Dice, size: int) -> Iterator[bytes]:
    """These texts, each after a line that is sound, and then a string that nothing closes."""
    for part in hostile_parts(size // 36):
        text = f"sound,place={dice.digits(9)} v=1 {START}\n{part}".encode()
        size -= len(text)
        yield text
    yield b'm f="open, ' + b"\\" * 4097
    line = b"m,t=v f=1,s=x 1700000000000000000\\\n\\\\\\,\\=\\ \n"
    yield line * max(1, size // len(line))


def corpus(name: str, seed: str, size: int) -> Iterator[bytes]:
    """The corpus of a shape, in parts."""
    dice = Dice(f"{seed} {name}")
    if name == "hostile":
        return hostile(dice, size)
    return lines((EVERYDAY | NARROW)[name], dice, size)


def main() -> None:
    parser = argparse.ArgumentParser(description="Writes the corpora of the bench.")
    parser.add_argument("--seed", required=True, metavar="WORD")
    parser.add_argument("--size", type=int, required=True, metavar="BYTES")
    parser.add_argument("--out", type=Path, required=True, metavar="FOLDER")
    parser.add_argument("names", nargs="*", metavar="NAME", help=f"one of {', '.join(NAMES)}")
    given = parser.parse_args()
    unknown = set(given.names) - set(NAMES)
    if unknown:
        parser.error(f"no such shape: {', '.join(sorted(unknown))}")
    given.out.mkdir(parents=True, exist_ok=True)
    for name in given.names or NAMES:
        # A file that was cut short by an interrupt is never taken for a whole one.
        part = given.out / f"{name}.part"
        with part.open("wb") as file:
            file.writelines(corpus(name, given.seed, given.size))
        print(part.replace(given.out / f"{name}.lp"))


if __name__ == "__main__":
    main()
