#!/usr/bin/env python3
"""The crates in layers, from crates.txt: a crate is one higher than the highest that it rests on. As text in docs/work/ARCHITECTURE.md, and as a
picture, docs/work/pictures/crates.svg. Beside it, the lines of the calls that ARCHITECTURE names on the way of a text. Not proved;
`tests/run --only house` calls it.

usage: tools/layers.py            says which of the two isn't as crates.txt has it; status 1 if any isn't
       tools/layers.py --write    writes both anew
"""
import os
import re
import sys
from html import escape

import libraries
import streams

PAGE, PICTURE = (os.path.join(libraries.TOP, "docs", "work", *names) for names in (("ARCHITECTURE.md",), ("pictures", "crates.svg")))
# The text stands between these lines of the page.
MARKED = re.compile(r"(<!-- tools/layers.py -->\n```text\n)(.*?)(```\n)", re.DOTALL)
# A call, and the place of its definition.
CALL = re.compile(r"`(?:\w+::)?(\w+)` \| \[[\w/.]+(?::\d+)?\]\(\.\./\.\./(crates/([\w/.]+))\)")
# Of the picture, in pixels.
WIDTH, ROW, BOX, MARGIN, LETTER = 1280, 62, 26, 16, 6.6
COLOURS = ("#dbe9f6", "#fdebd0", "#d8f0e0", "#f6dede", "#e8e0f4", "#f4f0d0", "#d6eef0", "#eadfd6", "#e4e4e4")


def families():
    """Of each crate, the number of the comment in crates.txt below which it stands."""
    text, lines = libraries.listed()
    found, family = {}, -1
    for line in text.splitlines():
        if line.startswith("# ") and not line.startswith("# NAME"):
            family += 1
        name = re.match(r"\w+", line)
        if name and name[0] in lines:
            found[name[0]] = family
    return found


def below():
    """Of each crate, those of this repository that it names."""
    lines = libraries.listed()[1]
    return {crate: [name for name in named if name in lines] for crate, named in lines.items()}


def heights(under):
    """How high each crate is: 1 where it rests on none."""
    found = {}

    def height(crate):
        if crate not in found:
            found[crate] = 1 + max(map(height, under[crate]), default=0)
        return found[crate]

    for crate in under:
        height(crate)
    return found


def nearest(under):
    """Of each crate, those below it that it doesn't rest on through another one."""
    whole = {}

    def all_below(crate):
        if crate not in whole:
            whole[crate] = set(under[crate]).union(*map(all_below, under[crate]))
        return whole[crate]

    return {crate: [name for name in named if not any(name in all_below(other) for other in named)] for crate, named in under.items()}


def layers(found):
    """The crates by their heights, the highest first, each layer in the order of crates.txt."""
    return [(height, [crate for crate in found if found[crate] == height]) for height in range(max(found.values()), 0, -1)]


def as_text(found):
    return "".join(f"{height:2}  {' '.join(crates)}\n" for height, crates in layers(found))


def as_picture(found, under):
    of_family, middle, boxes = families(), {}, []
    for row, (_height, crates) in enumerate(layers(found)):
        widths = [len(crate) * LETTER + 14 for crate in crates]
        gap = (WIDTH - sum(widths)) / (len(crates) + 1)
        at = gap
        for crate, width in zip(crates, widths):
            top = MARGIN + row * ROW
            middle[crate] = at + width / 2, top
            boxes.append(
                f'<rect x="{at:.0f}" y="{top}" width="{width:.0f}" height="{BOX}" rx="4" fill="{COLOURS[of_family[crate] % len(COLOURS)]}" stroke="#777"/>'
                f'<text x="{at + width / 2:.0f}" y="{top + 17}" text-anchor="middle">{escape(crate)}</text>'
            )
            at += width + gap
    lines = [
        f'<line x1="{middle[crate][0]:.0f}" y1="{middle[crate][1] + BOX}" x2="{middle[name][0]:.0f}" y2="{middle[name][1]}"/>'
        for crate, names in nearest(under).items() for name in names
    ]
    high = 2 * MARGIN + len(layers(found)) * ROW
    parts = [
        f'<svg xmlns="http://www.w3.org/2000/svg" width="{WIDTH}" height="{high}" viewBox="0 0 {WIDTH} {high}" font-family="monospace" font-size="11">',
        "<title>The crates in layers</title>", f'<rect width="{WIDTH}" height="{high}" fill="white"/>', '<g stroke="#aaa">', *lines, "</g>", *boxes, "</svg>",
    ]
    return "\n".join(parts) + "\n"


def read(path):
    if not os.path.exists(path):
        return ""
    with open(path, encoding="utf-8") as file:
        return file.read()


def with_line(found):
    """A call with the place of its definition, as it is now."""
    name, path, shown = found.groups()
    lines = read(os.path.join(libraries.TOP, path)).splitlines()
    line = next((number for number, text in enumerate(lines, 1) if re.search(rf"\bfn {name}\b", text)), 0)
    return re.sub(r"\[[^\]]*\]", f"[{shown}:{line}]", found[0])


def made():
    """The page and the picture, each with what it should have."""
    under = below()
    found = heights(under)
    page = MARKED.sub(lambda at: at[1] + as_text(found) + at[3], CALL.sub(with_line, read(PAGE)))
    return {PAGE: page, PICTURE: as_picture(found, under)}


def main():
    if sys.argv[1:] not in ([], ["--write"]):
        streams.write(f"{__doc__.strip()}\n")
        return 0 if sys.argv[1:] == ["--help"] else streams.WRONG_WORDS
    stale = [path for path, text in made().items() if read(path) != text]
    if sys.argv[1:]:
        for path, text in made().items():
            os.makedirs(os.path.dirname(path), exist_ok=True)
            with open(path, "w", encoding="utf-8") as file:
                file.write(text)
        return 0
    for path in stale:
        streams.write(f"{os.path.relpath(path, libraries.TOP)} isn't as crates.txt has it: tools/layers.py --write\n")
    return streams.REFUSED if stale else 0


if __name__ == "__main__":
    streams.run(main)
