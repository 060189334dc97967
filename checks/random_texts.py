"""Random texts of line protocol, and where they are cut."""

import itertools

MOST = 60
# Bytes that mean something, characters of two bytes, and parts of lines.
PARTS = [part.encode() for part in (
    "\\", "\\", " ", "=", ",", "\"", "\"", "\n", "\n", "#", "a", "t", "i", "u", "-", "0", "7", ".", "\t", "é", "ß", "m a=1i\n", "m,t=v a=t 5\n",
    "m s=\"", "\nn b=", ",c=\"", " 12\n", "\\\"", "\\\n", "\n#", "\n ", "x\n")]


def random_text(rng):
    """Random parts, until one has no room."""
    most, text = rng.randrange(MOST + 1), b""
    for part in rng.choices(PARTS, k=most):
        if len(text) + len(part) > most:
            break
        text += part
    return text


def random_parts(rng, length):
    """Where a text is cut: at few places, at many, or at most."""
    often, drawn = rng.randrange(1, 4), rng.choices(range(4), k=length)
    places = [0, *(at for at in range(1, length) if drawn[at] < often), length]
    return [end - start for start, end in itertools.pairwise(places)] if length else []
