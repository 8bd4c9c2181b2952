"""Rounds in a row, by `in_harness rounds`, beside as many interactions in turn, by `in_harness steps`: after each, the machine shows the same."""
import itertools
import re
from functools import partial

from harness.asked import harness_program, named_texts
from harness.programs import ACCEPTED

# Sums and copies, with a wire that comes back to its pair.
NETS = (
    "net (r : nat+, s : nat+) { Add(x, r) ~ S(S(S(Z))); Add(S(Z), x) ~ S(S(Z)); s ~ Z; }",
    "net (r : nat+) { S(S(S(Z))) ~ Dup(a, b); Add(b, c) ~ a; Dup(d, e) ~ c; Add(e, f) ~ d; Dup(g, h) ~ f; Add(h, r) ~ g; }",
    "net () { Era ~ S(Z); Era ~ x; Dup(x, y) ~ S(Z); Era ~ y; }",
    "net (r : nat+, s : nat+, t : nat+) { S(S(Z)) ~ Dup(a, b); Add(a, r) ~ S(Z); Add(b, s) ~ S(S(Z)); S(S(S(Z))) ~ Dup(t, e); Era ~ e; }",
)
WORKERS = (1, 2, 3, 64)
# Few and many cells of each class. Many are enough for each net.
FEW, MANY = (16, 24), 4_096
BUDGET, ROUNDS = 5, 12
COUNT = re.compile(rb"(?m)^(\d+) interactions$")
NONE = b"none\n"


def wrong_rounds(harness, text, workers, cells):
    """What is wrong with rounds in a row of so many workers, over so many cells."""
    rounds = harness.run(["rounds", *map(str, (cells, workers, BUDGET, ROUNDS))], text)
    counts = [count.decode() for count in COUNT.findall(rounds.output)]
    if rounds.output == NONE and cells != MANY:
        counts = ["0"]
    elif rounds.status != ACCEPTED or len(counts) != ROUNDS:
        return str(rounds)
    steps = harness.run(["steps", str(cells), *counts], text)
    return None if (steps.status, steps.output) == (ACCEPTED, rounds.output) else f"{steps}; the rounds: {rounds}"


def rounds(program):
    harness, names = harness_program(program, "rounds"), named_texts()
    declared = b"".join(names[name] for name in ("SUMS", "ADDITION", "DUPLICATION", "ERASURE"))
    for net, workers, cells in itertools.product(NETS, WORKERS, (*FEW, MANY)):
        yield f"{workers} workers, {cells} cells: {net}", partial(wrong_rounds, harness, declared + net.encode(), workers, cells)
