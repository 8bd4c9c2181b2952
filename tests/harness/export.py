"""The export: what `inet_export` writes on each example, and what the tools of `tools/` make of it.

Each accepted example is reduced in random orders, and has to come to the net and the count of `inet run`; its steps have to be right, and
no longer are once one of them is left out or changed, or a wire is. Of a few texts each request for memory, read and write is refused. A program
in a file, and files and streams that fail, are as with `inet`.
"""
import contextlib
import copy
import json
import os
import subprocess
import sys
from functools import partial

from harness.files import unread
from harness.programs import ACCEPTED, EXAMPLES, HERE, LONGEST, MOST_BYTES, REFUSED, Answer, Program, answering, differing, failing, text_of
from harness.refusals import Refuser, target
from harness.streams import TOO_LONG, from_folder, with_closed_output, with_closed_pipe, wrong_without_reader

TOOLS = os.path.join(HERE, "..", "..", "tools")
BUILT = os.path.join(HERE, "..", "..", "crates", "inet_export", "out", "inet_export")
# This many random orders, each with a seed of its own.
ORDERS = 10
# An accepted program and a refused one, of which requests are refused.
REFUSING = ("sum", "used_three_times")

sys.path.insert(0, TOOLS)
import nets  # noqa: E402  (the tools stand beside the tests)
import steps  # noqa: E402


def by_tool(name, words, data):
    """What a tool answers on an export."""
    command = [sys.executable, "-B", os.path.join(TOOLS, name), *words]
    ran = subprocess.run(command, input=data, stdout=subprocess.PIPE, stderr=subprocess.PIPE, timeout=LONGEST)
    return Answer(ran.returncode, ran.stdout, ran.stderr)


def wrong_line(data):
    """What is wrong with the form of an export: it is one line, and the same object, written without a space."""
    return None if (json.dumps(json.loads(data), separators=(",", ":"), ensure_ascii=False) + "\n").encode() == data else "another form of JSON"


def refuses(program, item):
    """Whether the checker of steps refuses an item."""
    with contextlib.suppress(steps.Wrong, LookupError, TypeError, ValueError):
        steps.check_steps(program, item)
        return False
    return True


def altered(item):
    """A rule or net with one thing altered, and what that is: a step left out; another wire or node in a step; a wire's point doubled."""
    for number, step in enumerate(item["steps"]):
        without = copy.deepcopy(item)
        del without["steps"][number]
        yield f"step {number} left out", without
        kind, many = step[0], len(item["wires"] if step[0] in ("link", "cut") else item["nodes"])
        for other in range(many):
            if kind in ("link", "cut", "given", "graft") and other != step[1]:
                changed = copy.deepcopy(item)
                changed["steps"][number][1] = other
                yield f"step {number} with number {other}", changed
    for number, (one, _) in enumerate(item["wires"]):
        changed = copy.deepcopy(item)
        changed["wires"][number] = [one, one]
        yield f"wire {number} with one point twice", changed


def wrong_certificate(program, item):
    """What is wrong with the checking of an item: its steps are right, and no altered ones are."""
    if refuses(program, item):
        return "its steps are refused"
    taken = [what for what, other in altered(item) if not refuses(program, other)]
    return f"taken for right: {taken[:5]}" if taken else None


def accepted(run, name, data):
    """The trials of an accepted example, whose run and export these are."""
    yield f"{name}: one line of JSON", partial(wrong_line, data)
    for seed in range(ORDERS):
        words = ["--order", "random", "--seed", str(seed)]
        yield f"{name}: reduced with seed {seed}", answering(partial(by_tool, "reduce.py", words, data), run.status, run.output)
    program = nets.Program(json.loads(data))
    said = f"yes: {sum(len(item['steps']) for item in [*program.data['rules'], program.data['net']])} steps\n".encode()
    yield f"{name}: steps", answering(partial(by_tool, "steps.py", [], data), ACCEPTED, said)
    for number, item in enumerate([*program.data["rules"], program.data["net"]]):
        yield f"{name}: altered steps of item {number}", partial(wrong_certificate, program, item)


def files_and_streams(exporter):
    """A program in a file, or on `-`; one that is too long; a file that can't be had; standard streams that fail."""
    for name in REFUSING:
        text = text_of(name)
        usual = exporter.run([], text)
        for word in (exporter.file_of(text), "-"):
            yield f"{name}: {'on -' if word == '-' else 'in a file'}", answering(partial(exporter.run, [word], text), usual.status, usual.output)
        yield f"{name}: output closed", failing(partial(with_closed_output, exporter, [], text), "output")
        yield f"{name}: output a pipe without a reader", partial(wrong_without_reader, partial(with_closed_pipe, exporter, [], text))
    yield "a text that is too long", answering(partial(exporter.run, [], b" " * (MOST_BYTES + 1)), REFUSED, TOO_LONG)
    yield "input a folder", failing(partial(from_folder, exporter, []), "input")
    missing = os.path.join(exporter.room, "missing")
    yield "no file", unread(partial(exporter.run, [missing]), missing, "opened", "No such file or directory (os error 2)")
    yield "a folder", unread(partial(exporter.run, [exporter.room]), exporter.room, "read", "Is a directory (os error 21)")


def export(program):
    if not os.access(BUILT, os.X_OK):
        raise FileNotFoundError(os.path.normpath(BUILT))
    room = os.path.join(program.room, "inet_export")
    os.mkdir(room)
    exporter = Program(BUILT, room)
    for file in sorted(os.listdir(EXAMPLES)):
        name, ending = os.path.splitext(file)
        if ending != ".inet":
            continue
        text = text_of(name)
        run, answer = program.run(["run"], text), exporter.run([], text)
        checked = program.run(["check"], text)
        if checked.status == ACCEPTED:
            yield f"{name}: accepted", lambda answer=answer: None if answer.status == ACCEPTED else str(answer)
            yield from accepted(run, name, answer.output)
        else:
            yield f"{name}: refused", lambda answer=answer, checked=checked: differing(answer, checked.status, checked.output)
    yield from files_and_streams(exporter)
    refuser = Refuser(exporter)
    for name in REFUSING:
        yield from target(refuser, name, [], text_of(name))
