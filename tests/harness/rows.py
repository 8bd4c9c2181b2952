"""The rows of tests/rows: a text, the commands that are given, and what each has to print.

A row is a file NAME.inet with the text and a file NAME.session, which is read so: a line `$ inet WORDS` is a command; the lines up to the
line `status N` are what it prints, where the words are wrong on standard error. Commands that follow one another without such lines between have
the same answer.
"""
import os
from dataclasses import dataclass
from functools import partial

from harness.programs import ACCEPTED, ROWS, WRONG_WORDS, differing, shortened, text_of

PROMPT = "$ inet"
STATUS = "status "
WORKERS = (1, 2, 3, 64)
TIMES = 3


@dataclass(frozen=True)
class Session:
    """Commands with one answer."""

    commands: list[list[str]]
    output: bytes
    status: int


def sessions(lines):
    """The sessions of a file, of its lines."""
    commands, output = [], []
    for line in lines:
        if line.startswith(PROMPT) and not output:
            commands.append(line[len(PROMPT) :].split())
        elif line.startswith(STATUS) and line[len(STATUS) :].strip().isdigit():
            yield Session(commands, "".join(output).encode(), int(line[len(STATUS) :]))
            commands, output = [], []
        else:
            output.append(line)
    if commands or output:
        raise ValueError("the last command has no status")


def commands(session):
    """The commands of a session; what ends normally does so with any number of workers, each time anew."""
    for words in session.commands:
        yield words
        if words[:1] == ["run"] and session.status == ACCEPTED and not {"--workers", "--help"} & set(words):
            for workers in WORKERS:
                yield from [[*words, "--workers", str(workers)]] * TIMES


def wrong_answer(run, session):
    """What is wrong with an answer to a command of the session."""
    answer = run()
    if session.status != WRONG_WORDS:
        return differing(answer, session.status, session.output)
    told = None if answer.errors == session.output else f"told: {shortened(answer.errors)}; wanted: {shortened(session.output)}"
    return differing(answer, WRONG_WORDS, b"") or told


def rows(program):
    for file in sorted(os.listdir(ROWS)):
        name, ending = os.path.splitext(file)
        if ending != ".session":
            continue
        text = text_of(name, ROWS)
        with open(os.path.join(ROWS, file), encoding="utf-8") as lines:
            for session in sessions(lines):
                for words in commands(session):
                    run = partial(program.run, words, text)
                    yield f"{name}: {' '.join(['inet', *words])}", partial(wrong_answer, run, session)
