"""Runs with too few cells: the line of the stop, the same each time, and free cells and agents that make up all cells. Several workers go on as
long as a pair has room, so they do as many interactions as one at least. And the figures of `inet run --stats`, among them the most cells in
use; and what helps where a run has stopped early."""
import itertools
import os
import re
import resource
import subprocess
import tempfile
from functools import partial

from harness.generated import with_threads
from harness.programs import ACCEPTED, FULL, LIMIT, ROWS, answering, text_of

WORKERS = (1, 2, 64)
TIMES = 3
FEWEST_CELLS = 16
NUMBERS = "empty_net"
# The most auxiliary ports of an agent that has a cell of the class.
CLASSES = {"small": 2, "large": 8, "wide": 16}
# Programs that need more and more cells: rows that fill the cells of one class, and examples.
GROWING = ("fills_large_cells", "fills_wide_cells")
GROWING_EXAMPLES = ("factorial", "stream", "product")
MOST_CELLS = 1_048_576
MOST_OF_A_SIZE = ["--small-cells", "16777216", "--large-cells", "8388608", "--wide-cells", "8388608"]
# What is told who runs a program that stops early.
MORE_INTERACTIONS = b"help: `--limit N` allows more interactions, up to 1000000000000\n"
MORE_CELLS = b"help: `--cells N` gives more cells of each size, up to 1048576\n"
MORE_OF_A_SIZE = b"help: `--small-cells N`, `--large-cells N` and `--wide-cells N` give more cells of a size, up to 16777216, 8388608 and 8388608\n"
NO_MORE_CELLS = b"help: no run may have more than 16777216 small, 8388608 large and 8388608 wide cells\n"
# So often doubled, one has more agents than there may be cells of each size, and of small ones.
DOUBLINGS, MORE_DOUBLINGS = 21, 25
# Programs with agents of each class whose runs are so short that figures are taken at their beginning and their end alone, and how many
# interactions those may have.
WITH_FIGURES = ("sum_of_two_and_one", "copies_added", "agent_with_a_large_cell", "as_many_wide_agents_as_cells")
EXAMPLES_WITH_FIGURES = ("queue", "sum", "double")
SHORT_RUN = 1_000
FIGURES = re.compile(
    rb"time to check: \d+\.\d{3} s\ntime to run: \d+\.\d{3} s\n(?:interactions a second: \d+\n)?"
    rb"most cells in use: (\d+) small, (\d+) large, (\d+) wide\nthreads: (\d+)\nphases: (\d+)\n"
)


def unary(number):
    return "S(" * number + "Z" + ")" * number


def sum_text(number):
    """The sum of a number and zero: as many agents as the number and three, of which the first is the number's Z."""
    rules = text_of(NUMBERS, ROWS).decode().rpartition("net")[0]
    return f"{rules}net (r : nat+) {{ {unary(number)} ~ Add(Z, r); }}\n".encode()


def sum_answer(number):
    """What a run of it in the fewest cells comes to: an S and an Add need two free cells before the first interaction."""
    agents = number + 3
    free = FEWEST_CELLS - agents
    if free < 0:
        return FULL, f"start: full small need {agents} free {FEWEST_CELLS}\n"
    if free < 2:
        return FULL, f"r = v1\n{unary(number)} ~ Add(Z, v1)\ninteractions: 0\nstop: full small need 2 free {free}\n"
    return ACCEPTED, f"r = {unary(number)}\ninteractions: {number + 1}\nstop: normal\n"


def arities(text):
    """The number of auxiliary ports of each symbol of a text whose declarations are simple."""
    declared = re.findall(r"symbol\s+(\w+)\s*:\s*\w+\s*[+-]([^;]*);", re.sub(r"#.*", "", text))
    return {name: len(re.findall(r"[+-]", ports)) for name, ports in declared}


def class_of(arity):
    return next(name for name, most in CLASSES.items() if arity <= most)


def agents_in(answer, text):
    """How many agents the printed net has of each class."""
    known = arities(text)
    net = re.sub(r"(?m)^\w+ = ", "", answer.output.decode().partition("interactions: ")[0])
    classes = [class_of(known[name]) for name in re.findall(r"\w+", net) if name in known]
    return {name: classes.count(name) for name in CLASSES}


def wrong_sum_of_cells(answer, text, cells):
    """What is wrong with the cells of a run that is full: those of the class that are free, and the agents in the net, are all of them."""
    stop = re.search(rb"stop: full (\w+) need (\d+) free (\d+)\n$", answer.output)
    if answer.status != FULL or not stop:
        return None if answer.status == ACCEPTED or answer.output.startswith(b"start: full ") else f"{answer}; wanted: full or normal"
    kind, need, free = stop[1].decode(), int(stop[2]), int(stop[3])
    agents = agents_in(answer, text)[kind]
    return None if free < need and agents + free == cells else f"{agents} {kind} agents, need {need}, free {free}, of {cells} cells"


def interactions(answer):
    counts = re.findall(rb"^interactions: (\d+)$", answer.output, re.M)
    return int(counts[0]) if counts else 0


def wrong_count(answer, usual):
    """What is wrong with the count of several workers beside that of one."""
    few, least = interactions(answer), interactions(usual)
    return None if few >= least else f"{few} interactions of several workers, {least} of one"


def limited(program, name, text, cells):
    """A program in `cells` cells: with each number of workers its cells add up, and the answer is the same each time."""
    words = ["run", "--cells", str(cells)]
    one = program.run(words, text)
    for workers in WORKERS:
        usual = program.run([*words, "--workers", str(workers)], text)
        told = f"{name} in {cells} cells, {workers} workers"
        yield f"{told}: all cells", partial(wrong_sum_of_cells, usual, text.decode(), cells)
        yield f"{told}: as many interactions as one", partial(wrong_count, usual, one)
        for time in range(1, TIMES + 1):
            run = partial(program.run, [*words, "--workers", str(workers)], text)
            yield f"{told}, time {time}", answering(run, usual.status, usual.output)


def wrong_stop_behind(program, workers, count, free):
    """What is wrong with a run whose first pair never has room, while the pairs behind it have some."""
    answer = program.run(["run", "--no-net", "--cells", str(FEWEST_CELLS), "--workers", str(workers)], behind_text())
    wanted = f"interactions: {count}\nstop: full small need {FEWEST_CELLS + 1} free {free}\n".encode()
    return None if (answer.status, answer.output) == (FULL, wanted) else f"{answer}; wanted: {wanted!r}"


def behind_text():
    """A pair that needs more cells than there are, before a sum that has room."""
    many = "S(" * (FEWEST_CELLS + 1) + "x" + ")" * (FEWEST_CELLS + 1)
    rules = text_of(NUMBERS, ROWS).decode().rpartition("net")[0].replace("rule", "symbol Grow : nat- {nat+};\nrule", 1)
    return f"{rules}rule S[x] >< Grow[{many}];\nrule Z[] >< Grow[Z];\nnet (r : nat+, s : nat+) {{ S(Z) ~ Grow(r); S(S(Z)) ~ Add(Z, s); }}\n".encode()


def wrong_figures(program, text):
    """What is wrong with the figures of a short run by one worker: the most cells in use are those of its first net or of its last one."""
    begun = program.run(["run", "--limit", "0"], text)
    ended = program.run(["run", "--limit", str(SHORT_RUN), "--stats"], text)
    figures = FIGURES.fullmatch(ended.errors)
    if begun.status not in (ACCEPTED, LIMIT) or ended.status != ACCEPTED or not figures:
        return f"{begun}; {ended}, {ended.errors!r}; wanted: a run that ends, and its figures"
    nets = [agents_in(answer, text.decode()) for answer in (begun, ended)]
    wanted = [*(max(net[name] for net in nets) for name in CLASSES), 1, 0]
    found = [int(figure) for figure in figures.groups()]
    return None if found == wanted else f"{found}; wanted: {wanted}"


def wrong_threads(program, workers):
    """What is wrong with the figures of a long run by several workers: it has phases, with as many threads as workers at most, and two at least."""
    answer = program.run(["run", "--no-net", "--stats", "--cells", "200000", "--workers", str(workers)], with_threads())
    figures = FIGURES.search(answer.errors)
    if answer.status != ACCEPTED or not figures:
        return f"{answer}, {answer.errors!r}; wanted: a run that ends, and its figures"
    threads, phases = int(figures[4]), int(figures[5])
    return None if 2 <= threads <= workers and 1 <= phases else f"{threads} threads, {phases} phases of {workers} workers"


def figures(program):
    for text, name in [*((text_of(name, ROWS), name) for name in WITH_FIGURES), *((text_of(name), name) for name in EXAMPLES_WITH_FIGURES)]:
        yield f"figures of {name}", partial(wrong_figures, program, text)
    for workers in (2, 4):
        yield f"figures of many jobs, {workers} workers", partial(wrong_threads, program, workers)


def doubled_text(times):
    """One, doubled so many times, by the rules of the example."""
    rules = text_of("double").decode().rpartition("net (")[0]
    lines = "".join(f"Dup(one{k}, other{k}) ~ n{k}; Add(other{k}, n{k + 1}) ~ one{k};\n" for k in range(times))
    return f"{rules}net (n{times} : nat+) {{\nn0 ~ S(Z);\n{lines}}}\n".encode()


def wrong_help(program, words, text, status, told):
    """What is wrong with what a run tells on standard error, beside its status."""
    answer = program.run(["run", "--no-net", *words], text)
    return None if (answer.status, answer.errors) == (status, told) else f"{answer}, told: {answer.errors!r}; wanted: {status}, {told!r}"


def helps(program):
    for words, text, status, told in (
        ([], text_of("sum"), ACCEPTED, b""),
        (["--limit", "1"], text_of("sum"), LIMIT, MORE_INTERACTIONS),
        (["--cells", "16"], text_of("fills_wide_cells", ROWS), FULL, MORE_CELLS),
        (["--cells", "16"], text_of("more_wide_agents_than_cells", ROWS), FULL, MORE_CELLS),
        (["--cells", "16", "--small-cells", "17"], text_of("fills_wide_cells", ROWS), FULL, MORE_OF_A_SIZE),
        (["--cells", str(MOST_CELLS), "--limit", "100000000"], doubled_text(DOUBLINGS), FULL, MORE_OF_A_SIZE),
        ([*MOST_OF_A_SIZE, "--limit", "100000000"], doubled_text(MORE_DOUBLINGS), FULL, NO_MORE_CELLS),
    ):
        yield f"told of {' '.join(['run', *words])}, status {status}", partial(wrong_help, program, words, text, status, told)


def memory_of(program, words, text):
    """The memory in KiB that a run touches, by its page faults. (The most resident memory that the system says of a child is at least the script's.)"""
    with tempfile.TemporaryFile() as source:
        source.write(text)
        source.seek(0)
        child = subprocess.Popen([program.path, "run", "--no-net", *words], stdin=source, stdout=subprocess.DEVNULL)
        used = os.wait4(child.pid, 0)[2]
        return (used.ru_minflt + used.ru_majflt) * resource.getpagesize() // 1024


def wrong_memory(program, text):
    """What is wrong with the memory of a short run: with the most cells it touches no more than with the usual ones, but for a MiB."""
    usual, most = (memory_of(program, words, text) for words in ([], MOST_OF_A_SIZE))
    return None if most <= usual + 1024 else f"{most} KiB with the most cells, {usual} with the usual ones"


def wrong_growth(program):
    """What is wrong with a run that grows beyond the most cells of `--cells`: it ends if there are more small ones."""
    answer = program.run(["run", "--no-net", "--small-cells", "4194304", "--limit", "100000000"], doubled_text(DOUBLINGS))
    return None if (answer.status, answer.output[-13:]) == (ACCEPTED, b"stop: normal\n") else f"{answer}; wanted: a run that ends"


def cells(program):
    yield from helps(program)
    yield "memory of a short run with the most cells", partial(wrong_memory, program, text_of("sum"))
    yield "more small cells than by `--cells`", partial(wrong_growth, program)
    yield from figures(program)
    for number in (11, 12, 13, 14):
        text = sum_text(number)
        status, output = sum_answer(number)
        run = partial(program.run, ["run", "--cells", str(FEWEST_CELLS)], text)
        yield f"sum of {number} and 0", answering(run, status, output.encode())
        yield from limited(program, f"sum of {number} and 0", text, FEWEST_CELLS)
    for workers, count, free in ((1, 0, 8), (2, 3, 10), (64, 3, 10)):
        yield f"pairs behind one without room, {workers} workers", partial(wrong_stop_behind, program, workers, count, free)
    for name, number in itertools.product(GROWING, (16, 17, 20, 25)):
        yield from limited(program, name, text_of(name, ROWS), number)
    for name, number in itertools.product(GROWING_EXAMPLES, (16, 17, 18, 20, 24, 32, 40)):
        yield from limited(program, name, text_of(name), number)
