"""Nets that are reduced in parts, by threads of their own: by `in_harness phases`, which does so at every chance, and by `inet run`
in long runs. What ends has the text and the count of one worker; what stops before goes on to them.
"""
import itertools
import os
import random
import re
import shutil
from functools import partial

from harness import generated
from harness.asked import harness_program
from harness.programs import ACCEPTED, EXAMPLES, FULL, LIMIT, ROWS, VALGRIND, answering, shortened, text_of
from harness.refusals import LINE, Refuser, refused_memory
from harness.rows import sessions

# How a run is forced into parts: how many, after how many interactions in turn each time, and with how many in a phase, or none: then a net
# is split and glued again. Where nothing is ever done there is no run.
PARTS = (1, 2, 3, 8)
BETWEEN = (0, 1, 7)
MOST = (0, 1, 5, 1000)
FORCED = [by for by in itertools.product(PARTS, BETWEEN, MOST) if by[1] or by[2]]
CELLS = 2_000
# A text with more bytes may have more agents, and so may a run with more interactions. No run is forced into more than `MOST_PHASES` phases.
LARGE_TEXT, CELLS_OF_LARGE_TEXT = 4_000, 10_000
LONG_RUN, CELLS_OF_LONG_RUN = 2_000, 200_000
MOST_PHASES = 500
NO_LIMIT = 1_000_000
# This many generated programs, and this many of the ways above for each.
PROGRAMS, WAYS = 200, 12
# Of how many generated programs runs are stopped, and how: by limits, in ways of their own, and by few cells.
STOPPED = 60
STOPPED_BY = [(2, 0, 5), (3, 1, 5), (8, 7, 1000)]
FEW_CELLS = (16, 20, 28, 40)
# Valgrind takes some thirty times as long: so many generated programs of so many interactions are forced so under it.
WATCHED, WATCHED_FROM, WATCHED_TO, WATCHED_WAY = 10, 100, 2_000, (4, 1, 50)

WORKERS = (1, 2, 3, 8, 64)
TIMES = 2
LONG_CELLS = ["--cells", "200000"]
LONGEST_SHORT_RUN = 100_000
LONG = {
    "tree summed": generated.tree_summed(13),
    "tree summed in binary": generated.tree_summed_in_binary(15),
    "tree grown": generated.tree_grown(15),
    "Fibonacci": generated.fibonacci(20),
    "Fibonacci in binary": generated.fibonacci_in_binary(21),
    "jobs": generated.jobs(10, 9),
    "sorting network": generated.sorting_network(9),
    "Ackermann": generated.ackermann(3, 6),
    "pipeline": generated.pipeline(500, 20),
    "list reversed": generated.list_reversed(450),
    "turns": generated.turns(1_000, 120),
    "bush": generated.bush(11, 64, None),
    "insertion sort": generated.insertion_sort([(k * 69_069 + 5) % 14 for k in range(150)]),
}
SIDE_BY_SIDE = 8
# The words of a long run of two workers of which requests are refused, and those of a forced one.
REFUSED_CELLS = ["--cells", "200000"]
REFUSED_WAY, REFUSED_FORCED = (3, 1, 5), generated.jobs(2, 3)

FORCED_ANSWER = re.compile(rb"(?s)(.*)interactions: (\d+)\nphases: (\d+)\n")
RUN_ANSWER = re.compile(rb"(?s)(.*)interactions: (\d+)\nstop: [^\n]*\n")
NET = re.compile(r"(?s)(.*)\bnet\s*(\([^()]*\))\s*\{[^{}]*\}\s*")
VARIABLE = re.compile(r"\bv\d+\b")
NONE, NO_MEMORY = b"none\n", b"memory\n"


def parted(answer, form=FORCED_ANSWER):
    """The net and the count of an answer, and of a forced run the phases."""
    found = form.fullmatch(answer.output)
    if answer.status not in (ACCEPTED, LIMIT, FULL) or not found:
        raise ValueError(str(answer))
    return found[1], *map(int, found.groups()[1:])


def is_at_end(net):
    """Whether a printed net has no active pair."""
    return b" ~ " not in net


def gone_on(text, net):
    """The program of a printed net, with the rules of this text; None where its variables can't be told from other names."""
    found = NET.fullmatch(re.sub(r"#.*", "", text.decode()))
    if not found or VARIABLE.search(found[0]):
        return None
    lines = "".join(f"{line.replace(' = ', ' ~ ')};\n" for line in net.decode().splitlines())
    return f"{found[1]}net {found[2]} {{\n{lines}}}\n".encode()


def wrong_end(program, text, usual, net, count):
    """What is wrong with a net that was reached by `count` interactions: at its end it is the usual one; else it goes on to that."""
    if is_at_end(net):
        return None if (net, count) == usual else f"{count} interactions, {net!r}; wanted: {usual[1]}, {usual[0]!r}"
    rest = gone_on(text, net)
    if rest is None:
        return None
    end, more = parted(program.run(["run"], rest), RUN_ANSWER)
    return None if (end, count + more) == usual else f"{count} and {more} interactions, {end!r}; wanted: {usual[1]}, {usual[0]!r}"


def cells_for(text, count):
    """How many cells of each class a forced run of `count` interactions gets, which are enough in any order."""
    if count > LONG_RUN:
        return CELLS_OF_LONG_RUN
    return CELLS_OF_LARGE_TEXT if len(text) > LARGE_TEXT else CELLS


class Forced:
    """The program that does phases at every chance, beside `inet`."""

    def __init__(self, program):
        self.program, self.forcing = program, harness_program(program, "phases")

    @staticmethod
    def words(way, cells, limit):
        return ["phases", *(str(number) for number in (cells, *way, limit))]

    def wrong_run(self, text, way, usual):
        """What is wrong with a run to the end."""
        net, count, phases = parted(self.forcing.run(self.words(way, cells_for(text, usual[1]), NO_LIMIT), text))
        if phases and way[0] == 1:
            return f"{phases} phases of more than one part"
        return None if (net, count) == usual else f"{count} interactions, {net!r}; wanted: {usual[1]}, {usual[0]!r}"

    def wrong_limit(self, text, way, limit, usual):
        """What is wrong with a run within a limit, which it reaches or ends."""
        net, count, _ = parted(self.forcing.run(self.words(way, CELLS, limit), text))
        if count != min(limit, usual[1]):
            return f"{count} interactions of {usual[1]} within {limit}"
        return wrong_end(self.program, text, usual, net, count)

    def wrong_cells(self, text, way, cells, usual):
        """What is wrong with a run in few cells, which may stop at any time, or not begin where `inet run` doesn't either."""
        answer = self.forcing.run(self.words(way, cells, NO_LIMIT), text)
        if (answer.status, answer.output) == (ACCEPTED, NONE):
            begun = self.program.run(["run", "--limit", "0", "--cells", str(cells)], text)
            return None if begun.output.startswith(b"start: full ") else f"no run; wanted: {begun}"
        net, count, _ = parted(answer)
        return wrong_end(self.program, text, usual, net, count)


def is_plain_run(words):
    """Whether these words run a program without a limit, in however many cells."""
    return words[:1] == ["run"] and not {"--workers", "--limit", "--help"} & set(words)


def accepted_texts():
    """The accepted examples that are run, and the rows that end normally, each with the words of a run that prints its net."""
    for file in sorted(os.listdir(EXAMPLES)):
        name, ending = os.path.splitext(file)
        if ending == ".run":
            yield name, text_of(name), ["run"]
    for file in sorted(os.listdir(ROWS)):
        name, ending = os.path.splitext(file)
        if ending != ".session":
            continue
        with open(os.path.join(ROWS, file), encoding="utf-8") as lines:
            runs = [words for session in sessions(lines) if session.status == ACCEPTED for words in filter(is_plain_run, session.commands)]
        if runs:
            yield name, text_of(name, ROWS), [word for word in runs[0] if word != "--no-net"]


def generated_texts():
    """Small programs of all kinds, each with chance."""
    for number, kind in zip(range(PROGRAMS), itertools.cycle(generated.SMALL)):
        chance = random.Random(number)
        yield f"{kind}, number {number}", generated.program(generated.SMALL[kind](chance)).encode(), chance


def forced_runs(program, forced):
    """Runs in parts come to what `inet run` comes to, and some of them are in parts."""
    for name, text, words in accepted_texts():
        usual = parted(program.run(words, text), RUN_ANSWER)
        for way in FORCED:
            if usual[1] <= MOST_PHASES * (way[1] + way[2]):
                yield f"{name}: parts, between, most {way}", partial(forced.wrong_run, text, way, usual)
    for name, text, chance in generated_texts():
        usual = parted(program.run(["run"], text), RUN_ANSWER)
        for way in chance.sample(FORCED, WAYS):
            yield f"{name}: parts, between, most {way}", partial(forced.wrong_run, text, way, usual)


def forced_stops(program, forced):
    """Runs in parts with limits, and in few cells: what they stop at goes on to what `inet run` comes to."""
    for name, text, _ in itertools.islice(generated_texts(), STOPPED):
        usual = parted(program.run(["run"], text), RUN_ANSWER)
        limits = sorted({0, 1, usual[1] // 3, usual[1] // 2, max(usual[1] - 1, 0), usual[1]})
        for way, limit in itertools.product(STOPPED_BY, limits):
            yield f"{name}: parts, between, most {way}, limit {limit}", partial(forced.wrong_limit, text, way, limit, usual)
        for way, cells in itertools.product(STOPPED_BY, FEW_CELLS):
            yield f"{name}: parts, between, most {way}, {cells} cells", partial(forced.wrong_cells, text, way, cells, usual)


def wrong_refused(refuser, words, text, usual, number, asked):
    """What is wrong where requests for memory are refused: fewer phases are right, and so is no run."""
    answer = refuser.answer(words, text, "memory", number, **asked)
    if (answer.status, answer.output) == (ACCEPTED, NO_MEMORY):
        return None
    net, count, _ = parted(answer)
    return None if (net, count) == usual[:2] else str(answer)


def forced_refusals(forced):
    """A run in parts with each request for memory after the check refused, by itself and with all that follow; there are several phases in it."""
    refuser = Refuser(forced.forcing)
    text = generated.program(REFUSED_FORCED).encode()
    checked = refuser.run(forced.words(REFUSED_WAY, CELLS, 0), text)[1].memory
    words = forced.words(REFUSED_WAY, CELLS, NO_LIMIT)
    answer, counts = refuser.run(words, text)
    usual = parted(answer)
    yield "a forced run has several phases", lambda: None if usual[2] >= 2 else str(answer)
    for number, asked in itertools.product(range(checked - LINE, counts.memory + 1), ({}, {"REFUSE_ON": "1"})):
        said = f"memory refused {'from' if asked else 'at'} request {number}"
        yield f"a forced run: {said}", partial(wrong_refused, refuser, words, text, usual, number, asked)


def wrong_watched(forced, words, text, usual):
    """What is wrong with a forced run under valgrind, which comes to the same net by as many interactions and phases."""
    answer = forced.forcing.run_command([*words, forced.forcing.path, *forced.words(WATCHED_WAY, CELLS, NO_LIMIT)], text)
    if answer.status != ACCEPTED:
        return f"{answer}, {shortened(answer.errors, 1000)}"
    return None if parted(answer) == usual else f"{answer}; wanted: {usual}"


def forced_under_valgrind(forced):
    """Runs in parts without a race of their threads, a bad access, or a block that isn't given back."""
    every = ((name, text, parted(forced.forcing.run(forced.words(WATCHED_WAY, CELLS, NO_LIMIT), text))) for name, text, _ in generated_texts())
    few = ((name, text, usual) for name, text, usual in every if WATCHED_FROM <= usual[1] <= WATCHED_TO and usual[2])
    for name, text, usual in itertools.islice(few, WATCHED):
        for what, words in VALGRIND.items():
            yield f"{name}: in parts under valgrind: {what}", partial(wrong_watched, forced, words, text, usual)


def long_texts():
    """Programs of a hundred thousand interactions and more."""
    yield from ((name, generated.program(piece).encode()) for name, piece in LONG.items())
    for number in range(SIDE_BY_SIDE):
        yield f"side by side, number {number}", generated.side_by_side(random.Random(number)).encode()


def wrong_length(answer):
    """What is wrong with the usual answer of a long run."""
    _, count = parted(answer, RUN_ANSWER)
    return None if answer.status == ACCEPTED and count >= LONGEST_SHORT_RUN else f"{count} interactions, status {answer.status}"


def wrong_half(program, words, text, half):
    """What is wrong with a run that is stopped half way."""
    answer = program.run([*words, "--limit", str(half)], text)
    stopped = answer.status == LIMIT and answer.output.endswith(f"interactions: {half}\nstop: limit\n".encode())
    return None if stopped else str(answer)


def long_runs(program):
    """`inet run` of long programs: one answer with any number of workers, each time; stopped half way, the count is the limit."""
    for name, text in long_texts():
        usual = program.run(["run", *LONG_CELLS], text)
        yield f"{name}: is long", partial(wrong_length, usual)
        half = parted(usual, RUN_ANSWER)[1] // 2
        for workers in WORKERS:
            words = ["run", *LONG_CELLS, "--workers", str(workers)]
            for time in range(1, TIMES + 1):
                run = partial(program.run, words, text)
                yield f"{name}: {workers} workers, time {time}", answering(run, usual.status, usual.output)
            yield f"{name}: {workers} workers, half way", partial(wrong_half, program, words, text, half)


def long_refusals(program):
    """A long run of two workers, which does phases: each request for memory after the check refused changes no answer but to `memory`."""
    refuser = Refuser(program)
    text = generated.with_threads()
    one = program.run(["run", *REFUSED_CELLS], text)
    checked = refuser.run(["check"], text)[1].memory
    words = ["run", *REFUSED_CELLS, "--workers", "2"]
    usual, counts = refuser.run(words, text)
    yield "a long run of two workers starts threads", lambda: None if counts.threads else "no thread was started"
    yield "a long run of two workers answers as one", answering(lambda: usual, one.status, one.output)
    for what, trial in refused_memory(refuser, words, text, usual, counts, checked - LINE):
        yield f"a long run of two workers: {what}", trial


def parts(program):
    yield from long_runs(program)
    yield from long_refusals(program)
    forced = Forced(program)
    yield from forced_runs(program, forced)
    yield from forced_stops(program, forced)
    yield from forced_refusals(forced)
    if shutil.which("valgrind"):
        yield from forced_under_valgrind(forced)
