"""The programs of examples/: what `inet` prints on NAME.inet stands in NAME.check, NAME.derive, NAME.run, and the diagnosis of a refused one in
NAME.diagnosis. All but NAME.check may be missing, but that a refused program has a diagnosis and an accepted one has none. The steps of each
accepted one build its rules and its net, by `verify`.
"""
import os
import sys
from functools import partial

from harness.asked import harness_program, status_of
from harness.programs import EXAMPLES, HERE, REFUSED, differing, shortened, text_of

sys.path.insert(0, os.path.join(HERE, "..", "..", "tools"))
import corpus  # noqa: E402  (the tools stand beside the tests)

# The words that are tried, and the ending of the file that has what is printed.
COMMANDS = [(["check"], ".check"), (["derive"], ".derive"), (["run", "--workers", "1"], ".run"), (["run", "--workers", "2"], ".run")]


def wrong_answer(program, words, name, wanted):
    """What is wrong with what a command answers on an example."""
    return differing(program.run(words, text_of(name)), status_of(wanted.decode(errors="replace")), wanted)


def wrong_steps(harness, name):
    """What is wrong with what `verify` answers on the steps of an accepted example: one line for each rule and for the net."""
    lines = harness.run(["program"], text_of(name)).output.decode().splitlines()
    items = sum(line.startswith(("rule ", "net of ")) and not line.startswith("rule of ") for line in lines)
    return None if items and lines.count("built") == items and "not built" not in lines else f"{lines.count('built')} of {items} are built"


def wrong_diagnosis(program, name):
    """What is wrong with what people are told of an example."""
    answer = program.run(["check"], text_of(name))
    wanted = corpus.read(f"{name}.diagnosis")
    if answer.status == REFUSED and wanted is None:
        return "refused, and has no diagnosis"
    return None if answer.errors == (wanted or b"") else f"told: {shortened(answer.errors)}; wanted: {shortened(wanted or b'nothing')}"


def examples(program):
    harness = harness_program(program, "examples")
    for file in sorted(os.listdir(EXAMPLES)):
        name, ending = os.path.splitext(file)
        if ending != ".inet":
            continue
        yield f"{name}: diagnosis", partial(wrong_diagnosis, program, name)
        if corpus.read(f"{name}.diagnosis") is None:
            yield f"{name}: steps", partial(wrong_steps, harness, name)
        for words, ending in COMMANDS:
            wanted = corpus.read(name + ending)
            if wanted is not None or ending == ".check":
                yield f"{name}: {' '.join(words)}", partial(wrong_answer, program, words, name, wanted or b"")
