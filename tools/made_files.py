"""Files of this repository that a tool makes of what the built programs print: the tool writes them, or compares them with what they should be.

What a tool gives is a call `made`, from the paths of the two programs to the names of files below the top, each with its bytes, and a call
`superfluous` that names the files which stand there for nothing.
"""
import os
import sys

import streams

TOP = os.path.dirname(os.path.dirname(os.path.abspath(__file__)))
BUILT = [os.path.join(TOP, "crates", name, "out", name) for name in ("inet", "inet_export")]


def read(name):
    """The bytes of a file below the top, None where it isn't there."""
    path = os.path.join(TOP, name)
    if not os.path.exists(path):
        return None
    with open(path, "rb") as file:
        return file.read()


def wrong(files):
    """What is wrong with files that should have these bytes: a line for each."""
    for name, data in files:
        kept = read(name)
        if kept != data:
            yield f"{name} isn't there" if kept is None else f"{name} has other bytes"


def all_wrong(made, superfluous, programs):
    """What is wrong with all files of a tool."""
    return [*wrong(made(*programs)), *(f"{name} belongs to no program" for name in superfluous())]


def write(made, superfluous, programs):
    """Writes all files of a tool, and removes the others."""
    for name in superfluous():
        os.remove(os.path.join(TOP, name))
    for name, data in made(*programs):
        path = os.path.join(TOP, name)
        os.makedirs(os.path.dirname(path), exist_ok=True)
        with open(path, "wb") as file:
            file.write(data)


def run(usage, made, superfluous, right):
    """Does what the words of a tool say: `make` or `check`, with the paths of other programs behind it. Where nothing is wrong, that is said so."""

    def main():
        word, *programs = sys.argv[1:] or [""]
        if word not in ("make", "check") or len(programs) not in (0, 2):
            streams.write(f"{usage.strip()}\n")
            return 0 if sys.argv[1:] == ["--help"] else streams.WRONG_WORDS
        if word == "make":
            write(made, superfluous, programs or BUILT)
            return 0
        found = all_wrong(made, superfluous, programs or BUILT)
        streams.write("\n".join(found or [right]) + "\n")
        return streams.REFUSED if found else 0

    streams.run(main)
