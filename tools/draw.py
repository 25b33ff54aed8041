#!/usr/bin/env python3
"""Draws the pictures of docs/pictures from what bx writes, as SVG.

Usage: tools/draw.py [--bx PATH] [NAME ..]

Each, or both without a name, is made of a transcript, whose commands have to write what stands there: of session.t a
terminal with the commands behind the first; of states.t the states of a pair of image and journal, and what opening
does in each, the words in the places of states.in. bench/plot.py draws the chart of speed with its tables."""
import html
import sys
import tempfile
import textwrap

from shared import ROOT, asked, read
from transcript import differences, outputs, set_in, steps

MONO = "DejaVu Sans Mono, Menlo, Consolas, monospace"
SIZE, ROW, CHARACTER, MARGIN = 14, 20, 8.43, 18
PROMPT, COMMAND, OUTPUT, DARK = "#8ec07c", "#fbf1c7", "#d5c4a1", "#282828"


def played(name, bx):
    """The commands of a transcript, and what they write."""
    tour = steps(set_in(read(f"docs/pictures/{name}.t")))
    with tempfile.TemporaryDirectory() as folder:
        wrong = list(differences(tour, outputs([command for command, _ in tour], bx, folder)))
    if wrong:
        sys.exit("\n".join(wrong))
    return tour


def session(bx):
    """The picture of the lines, as wide as the longest."""
    lines = [(number == 0, line) for command, written in played("session", bx)[1:]
             for number, line in enumerate([command, *written])]
    parts = [f'<g font-family="{MONO}" font-size="{SIZE}" xml:space="preserve">']
    for number, (is_command, text) in enumerate(lines):
        place = f'x="{MARGIN}" y="{MARGIN + ROW * number + SIZE}"'
        front = f'<tspan fill="{PROMPT}">$ </tspan>' if is_command else ""
        color, said = COMMAND if is_command else OUTPUT, html.escape(text, quote=False)
        parts.append(f'<text {place} fill="{color}" xml:space="preserve">{front}{said}</text>')
    longest = max(len(text) + 2 * is_command for is_command, text in lines)
    width, height = round(2 * MARGIN + CHARACTER * longest), 2 * MARGIN + ROW * len(lines)
    size = f'width="{width}" height="{height}" viewBox="0 0 {width} {height}"'
    return "\n".join([f'<svg xmlns="http://www.w3.org/2000/svg" {size}>',
                      f'<rect width="{width}" height="{height}" rx="8" fill="{DARK}"/>', *parts, "</g>", "</svg>", ""])


def states(bx):
    """The picture with the words in their places, as states.in has them."""
    words = {command.rpartition("# ")[2]: [html.escape(line, quote=False) for line in lines]
             for command, lines in played("states", bx) if lines}
    words |= {name: textwrap.wrap(words[name][0], 31) for name in ("dropped", "taken")}
    return read("docs/pictures/states.in").format(**words)


NAMES = {"session": session, "states": states}


def main():
    options = asked(__doc__, names=NAMES)
    for name in options.names:
        (ROOT / "docs" / "pictures" / f"{name}.svg").write_text(NAMES[name](options.bx), encoding="utf-8")


if __name__ == "__main__":
    main()
