"""What `inet`, and the program `in_harness`, answer on the texts of tests/asked: tokens, trees, tables, nets, steps, machines, templates, stocks,
gathers, rounds.

A file NAME.asked has cases. `$ WORDS` is what is asked, of `inet` where that is the first word, else of `in_harness`; `<` a text in parts: a name
of tests/asked/texts, or a text in quotes, perhaps repeated (`"a " * 3`). The lines after it are what is printed:

> LINE      the whole output, line by line, where * stands for anything
? LINE      a line like this is among them, after those of the `?` lines before
! LINE      no line is like this
>= NUMBER   so many lines

Each text is asked each of the words before it; `$` after a text begins anew. What `inet` prints says which status it has to have.
"""
import codecs
import os
import re
from dataclasses import dataclass
from fnmatch import fnmatchcase
from functools import partial

from harness.programs import ACCEPTED, FULL, HERE, LIMIT, REFUSED, Program, shortened

ASKED = os.path.join(HERE, "..", "asked")
BUILT = os.path.join(HERE, "..", "..", "crates", "in_harness", "out", "in_harness")
# A part of a text: a name, or a text in quotes; and how often it stands.
PART = re.compile(r'\s*(?:([A-Z]+)|"((?:[^"\\]|\\.)*)")(?: \* (\d+))?')
# The status of `inet` by a line that it prints.
STATUSES = {"refused ": REFUSED, "stop: limit": LIMIT, "stop: full": FULL, "start: full": FULL}


@dataclass(frozen=True)
class Case:
    """A text, what is asked of it, and the lines that are wanted, each with its mark."""

    asked: tuple[str, ...]
    text: bytes
    wanted: tuple[tuple[str, str], ...]


def literal(text):
    """The bytes of a text in quotes: `\\xHH` is a byte, and all that isn't escaped is UTF-8."""
    return codecs.escape_decode(text.encode())[0]


def text_in(parts, names):
    """The text of these parts."""
    found = [*PART.finditer(parts)]
    if "".join(part[0] for part in found) != parts:
        raise ValueError(f"no text: {parts}")
    return b"".join((names[name] if name else literal(text)) * int(times or 1) for name, text, times in (part.groups() for part in found))


def named_texts():
    """The texts that have a name."""
    with open(os.path.join(ASKED, "texts"), encoding="utf-8") as file:
        lines = [line.rstrip("\n").split(" = ", 1) for line in file if " = " in line]
    return {name: text_in(text, {}) for name, text in lines}


def cases_in(lines, names):
    """The cases of a file, by its lines."""
    asked, text, wanted = [], None, []
    for line in [*lines, "$"]:
        line = line.rstrip("\n")
        if line[:1] in ("$", "<") and text is not None:
            yield Case(tuple(asked), text, tuple(wanted))
            text, wanted = None, []
            if line[0] == "$":
                asked = []
        if line.startswith("$ "):
            asked.append(line[2:])
        elif line.startswith("<"):
            text = text_in(line[2:], names)
        elif line[:2] in ("> ", "? ", "! ", ">="):
            wanted.append((line[:2].strip(), line[2:] if line[1] == " " else line[3:]))
        elif line and line[0] not in "#$":
            raise ValueError(f"no line of a case: {line}")


def all_cases():
    """All cases, each with the name of its file."""
    names = named_texts()
    for file in sorted(os.listdir(ASKED)):
        name, ending = os.path.splitext(file)
        if ending == ".asked":
            with open(os.path.join(ASKED, file), encoding="utf-8") as lines:
                yield from ((name, case) for case in cases_in(lines, names))


def wrong_lines(lines, wanted):
    """What is wrong with these lines."""
    whole = [line for mark, line in wanted if mark == ">"]
    if whole and not (len(whole) == len(lines) and all(map(fnmatchcase, lines, whole))):
        return f"other lines than {whole}"
    at = 0
    for mark, line in wanted:
        if mark == "?":
            found = [place for place in range(at, len(lines)) if fnmatchcase(lines[place], line)]
            if not found:
                return f"no line {line!r}"
            at = found[0] + 1
        elif mark == "!" and any(fnmatchcase(other, line) for other in lines):
            return f"a line {line!r}"
        elif mark == ">=" and len(lines) != int(line):
            return f"{len(lines)} lines"
    return None


def status_of(output):
    """The status that `inet` has to have where it prints this."""
    return next((status for line in output.splitlines() for begin, status in STATUSES.items() if line.startswith(begin)), ACCEPTED)


def wrong_case(programs, words, case):
    """What is wrong with what one of the programs answers, None where nothing is."""
    first, *others = words.split(" ") if words.startswith("inet") else ("in_harness", *words.split(" "))
    answer = programs[first].run(others, case.text)
    output = answer.output.decode(errors="replace")
    wanted = status_of(output) if first == "inet" else ACCEPTED
    if answer.status != wanted:
        return f"{answer}; wanted: status {wanted}"
    wrong = wrong_lines(output.splitlines(), case.wanted)
    return f"{wrong} in {shortened(answer.output, 1000)}" if wrong else None


def harness_program(program, name="in_harness"):
    """The program `in_harness`, whose texts are in a folder of their own."""
    if not os.access(BUILT, os.X_OK):
        raise FileNotFoundError(os.path.normpath(BUILT))
    room = os.path.join(program.room, name)
    os.makedirs(room, exist_ok=True)
    return Program(BUILT, room)


def asked(program):
    programs = {"inet": program, "in_harness": harness_program(program, "asked")}
    for name, case in all_cases():
        for words in case.asked:
            yield f"{name}: {words}: {shortened(case.text)}", partial(wrong_case, programs, words, case)
