"""The corpus: the exported lines and the runs in examples/ are those of the built programs, and `tools/reduce.py`, which needs nothing but a
line, makes the same of it as `inet run` within each limit."""
import os
import sys
from functools import partial

from harness.export import BUILT, by_tool
from harness.programs import HERE, answering
from harness.rows import sessions

sys.path.insert(0, os.path.join(HERE, "..", "..", "tools"))
import corpus as files  # noqa: E402  (the tools stand beside the tests)


def reduced(name):
    """The trials of an example's runs: the reducer on its line, in the order of one worker."""
    line, runs = (files.read(name + ending) for ending in files.ENDINGS)
    for session in sessions(runs.decode().splitlines(keepends=True)):
        words = ["--order", "queue", *session.commands[0][1:]]
        yield f"{name}: {' '.join(words)}", answering(partial(by_tool, "reduce.py", words, line), session.status, session.output)


def corpus(program):
    for name in files.names():
        yield f"{name}: files", partial(files.wrong, name, program.path, BUILT)
        yield from reduced(name)
    yield "no other files", lambda: ", ".join(files.superfluous())
