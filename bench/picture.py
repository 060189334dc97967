#!/usr/bin/env python3
"""Draws figures.tsv: how many times the crate's speed each call reaches on each corpus.

    bench/picture.py [FIGURES [PICTURE]]

Each call has a panel with a scale of its own, in which a line marks the crate's speed.
"""

import sys
from html import escape
from pathlib import Path

from figures import CALLS, Figure, read

NAMES, PANEL, GAP, VALUE = 92, 124, 20, 44
"""The widths of the corpora's names, of a panel, between panels, and of a bar's number."""

TOP, ROW, BAR, BOTTOM = 62, 21, 13, 46
"""The heights of the head, of a row, of a bar in it, and of the foot."""

# Each colour is told from white and from black; where a page says that it is dark, the texts are lighter.
STYLE = """
text { font: 12px system-ui, "Segoe UI", "Liberation Sans", sans-serif; fill: #6a737d; }
.head { font-weight: 600; }
.name { text-anchor: end; }
.faster { fill: #3d85c6; }
.slower { fill: #cc7832; }
.crate { stroke: #6a737d; stroke-dasharray: 3 2; }
@media (prefers-color-scheme: dark) { text { fill: #b4bcc4; } .crate { stroke: #b4bcc4; } }
"""


def text(x: float, y: float, words: str, kind: str = "") -> str:
    """A text of which (x, y) is the start of the base line, or its end for a name."""
    return f'<text x="{x:.1f}" y="{y:.1f}" class="{kind}">{escape(words)}</text>'


def bar(x: float, y: float, scale: float, times: float) -> str:
    """A bar with its number."""
    width = scale * times
    kind = "faster" if times >= 1 else "slower"
    rect = f'<rect x="{x:.1f}" y="{y:.1f}" width="{width:.1f}" height="{BAR}" rx="2" class="{kind}"/>'
    return rect + text(x + width + 4, y + BAR - 2.5, f"{times:.1f}x")


def panel(x: float, call: str, corpora: list[str], figures: list[Figure]) -> list[str]:
    """The panel of a call."""
    times = {figure.corpus: figure.times for figure in figures if figure.call == call and figure.times}
    scale = (PANEL - VALUE) / max(times.values())
    foot = TOP + len(corpora) * ROW
    crate = x + scale
    line = f'<line x1="{crate:.1f}" x2="{crate:.1f}" y1="{TOP - 4}" y2="{foot + 2}" class="crate"/>'
    bars = [
        bar(x, TOP + place * ROW + (ROW - BAR) / 2, scale, times[corpus])
        for place, corpus in enumerate(corpora)
        if corpus in times
    ]
    return [text(x, TOP - 12, CALLS[call], "head"), *bars, line, text(crate - 6, foot + 16, "1x")]


def picture(figures: list[Figure]) -> str:
    """The picture."""
    calls = [call for call in CALLS if any(figure.call == call and figure.times for figure in figures)]
    if not calls:
        sys.exit("there is no figure of the crate beside the library's")
    corpora = list(dict.fromkeys(figure.corpus for figure in figures if figure.call in CALLS))
    width, height = NAMES + GAP + len(calls) * (PANEL + GAP), TOP + len(corpora) * ROW + BOTTOM
    parts = [text(12, 22, "Times the speed of the Rust crate influxdb-line-protocol (the dashed line)", "head")]
    for place, corpus in enumerate(corpora):
        parts.append(text(NAMES, TOP + place * ROW + ROW / 2 + 4, corpus, "name"))
    for place, call in enumerate(calls):
        parts += panel(NAMES + GAP / 2 + place * (PANEL + GAP), call, corpora, figures)
    for figure in figures:
        if figure.call == "build" and figure.times:
            parts.append(text(12, height - 10, f"A batch of points is built {figure.times:.1f} times as fast."))
    body = "\n".join(parts)
    size = f'width="{width}" height="{height}" viewBox="0 0 {width} {height}"'
    return f'<svg xmlns="http://www.w3.org/2000/svg" {size} role="img">\n<style>{STYLE}</style>\n{body}\n</svg>\n'


def main() -> None:
    here = Path(__file__).parent
    given = [Path(word) for word in sys.argv[1:]]
    figures, out = [*given, *[here / "figures.tsv", here / "figures.svg"][len(given) :]]
    out.write_text(picture(read(figures)[1]))


if __name__ == "__main__":
    main()
