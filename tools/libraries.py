#!/usr/bin/env python3
"""Compares crates.txt with what each crate names: its sources, definitions and proofs. Not proved; `tests/run --only house` calls it.

usage: tools/libraries.py            says which libraries a crate's line has and nothing names, or lacks; status 1 if any does
       tools/libraries.py --write    writes the lines anew
"""
import glob
import os
import re
import sys

TOP = os.path.join(os.path.dirname(os.path.abspath(__file__)), "..")
# A library in code, and in a definition or a proof.
NAMED = re.compile(r"\b(\w+)::|\bRattle\.(\w+)\.")
LINE = re.compile(r"^(\w+)([^:#\n]*):(.*)$", re.MULTILINE)


def named_by(crate):
    """The first words of paths in a crate's sources, specs and proofs, without comments."""
    words = set()
    for folder in ("src", "specs", "proofs"):
        for path in glob.glob(os.path.join(TOP, "crates", crate, folder, "**", "*.*t*"), recursive=True):
            with open(path, encoding="utf-8") as file:
                for line in file:
                    if not line.lstrip().startswith(("//", "--")):
                        words.update(word for found in NAMED.findall(line) for word in found)
    return words


def listed():
    """The text of crates.txt, and of each line in it the crate and its libraries."""
    with open(os.path.join(TOP, "crates.txt"), encoding="utf-8") as file:
        text = file.read()
    return text, {found[1]: found[3].split() for found in LINE.finditer(text)}


def wrong():
    """Of each crate whose line isn't what it names: the libraries that the line has too many, and those that it lacks."""
    _, lines = listed()
    known = {*lines, *(library for libraries in lines.values() for library in libraries)}
    found = {}
    for crate, libraries in lines.items():
        named = (named_by(crate) & known) - {crate}
        if named != {*libraries}:
            found[crate] = sorted({*libraries} - named), sorted(named - {*libraries})
    return found


def main():
    found = wrong()
    if sys.argv[1:] == ["--write"]:
        text, _ = listed()

        def mended(line):
            unnamed, lacking = found.get(line[1], ([], []))
            libraries = [it for it in line[3].split() if it not in unnamed] + lacking
            return f"{line[1]}{line[2]}: {' '.join(libraries)}".rstrip()

        with open(os.path.join(TOP, "crates.txt"), "w", encoding="utf-8") as file:
            file.write(LINE.sub(mended, text))
        return 0
    for crate, (unnamed, lacking) in found.items():
        print(f"{crate}: " + "; ".join(f"{what} {' '.join(names)}" for what, names in (("nothing names", unnamed), ("lacks", lacking)) if names))
    return 1 if found else 0


if __name__ == "__main__":
    sys.exit(main())
