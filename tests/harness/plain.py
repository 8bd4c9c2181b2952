"""The slow reducer beside runs: `Plain`, by `in_harness plain`, in several orders, and `inet run` and its machine within the same limits.

First in, first out, `Plain` and one worker come to one net at each limit; to the end several workers do as well, and so does each order.
"""
import json
import os
import re
import sys
from functools import partial

from harness.asked import ASKED, harness_program, named_texts, text_in
from harness.export import BUILT as EXPORT
from harness.export import TOOLS
from harness.programs import ACCEPTED, LIMIT, ROWS, Program, text_of

sys.path.insert(0, TOOLS)
import nets  # noqa: E402  (the tools stand beside the tests)

CELLS = 4_096
# Within so many interactions one worker stops where `Plain` does; `ENOUGH` are enough for each program here.
FEW, ENOUGH = range(20), 400
WORKERS = (1, 2, 64)
ORDERS = ("oldest", "newest", "1", "2", "3", "2026")
# The rows that are reduced so; the other texts stand in tests/asked/beside.
OF_ROWS = ("sum_of_two_and_one", "copies_added", "two_sums_and_a_zero", "agent_with_two_ports_joined", "agent_with_a_large_cell")
COUNTED = re.compile(r"(\d+) interactions from \d+ agents")
WIRE = re.compile(r"wire (\S+) (\S+)( NOT JOINED)?")
RUN = re.compile(r"(?s)(.*)interactions: (\d+)\nstop: [^\n]*\n")


class Reached:
    """What `in_harness plain` printed."""

    def __init__(self, output, program):
        lines = output.splitlines()
        counted = COUNTED.fullmatch(lines[0]) if lines else None
        if not counted or "NOT JOINED" in output:
            raise ValueError(f"no net: {output!r}")
        self.interactions = int(counted[1])
        net = nets.Net(program, [], [], [], [])
        for line in lines:
            words = line.split()
            if words[0] == "agent":
                net.agents[int(words[1])] = int(words[2])
            elif words[0] == "wire":
                net.join(*map(self.point, words[1:3]))
            elif words[0] == "free":
                net.free.append(words[2])
            elif words[0] == "waiting":
                net.queue = [tuple(map(int, pair.split("-"))) for pair in words[1:]]
        self.agents, self.pairs = len(net.agents), len(net.queue)
        self.text = "".join(f"{line}\n" for line in net.lines())

    @staticmethod
    def point(word):
        return (int(word[4:]),) if word.startswith("free") else tuple(map(int, word.split(".")))


class Beside:
    """A program, by `Plain` and by `inet run`."""

    def __init__(self, inet, harness, exporter, text):
        self.inet, self.harness, self.text = inet, harness, text
        self.program = nets.Program(json.loads(exporter.run([], text).output))

    def reached(self, order, turns):
        return Reached(self.harness.run(["plain", order, str(turns)], self.text).output.decode(), self.program)

    def wrong_run(self, workers, limit):
        """What is wrong with a run beside `Plain`, first in, first out, within a limit: count, text, agents and pairs are the same."""
        words = ["--workers", str(workers), "--limit", str(limit), "--cells", str(CELLS)]
        ran, plain = self.inet.run(["run", *words], self.text), self.reached("oldest", limit)
        found = RUN.fullmatch(ran.output.decode())
        if ran.status not in (ACCEPTED, LIMIT) or not found:
            return str(ran)
        shown = self.harness.run(["run", str(workers), str(limit), str(CELLS)], self.text).output.decode().splitlines()
        ends = len(self.program.data["net"]["free"])
        machine = int(found[2]), found[1], int(shown[1].split()[0]), len(shown) - 2 - ends
        wanted = plain.interactions, plain.text, plain.agents, plain.pairs
        return None if machine == wanted else f"{machine}; `Plain`: {wanted}"

    def wrong_order(self, order):
        """What is wrong with the end of another order: it has the count, the text and the agents of the usual one, and no pair."""
        one, other = self.reached("oldest", ENOUGH), self.reached(order, ENOUGH)
        same = (one.interactions, one.text, one.agents) == (other.interactions, other.text, other.agents)
        return None if same and not one.pairs and not other.pairs else f"{vars(other)}; the oldest first: {vars(one)}"


def texts():
    """The programs, by name."""
    names = named_texts()
    with open(os.path.join(ASKED, "beside"), encoding="utf-8") as file:
        for number, line in enumerate(line for line in file if line.startswith("< ")):
            yield f"text {number}", text_in(line[2:].rstrip("\n"), names)
    for name in OF_ROWS:
        yield name, text_of(name, ROWS)


def plain(program):
    harness, room = harness_program(program, "plain"), os.path.join(program.room, "plain_export")
    os.mkdir(room)
    exporter = Program(EXPORT, room)
    for name, text in texts():
        beside = Beside(program, harness, exporter, text)
        for limit in FEW:
            yield f"{name}: within {limit}", partial(beside.wrong_run, 1, limit)
        for workers in WORKERS:
            yield f"{name}: {workers} workers", partial(beside.wrong_run, workers, ENOUGH)
        for order in ORDERS:
            yield f"{name}: order {order}", partial(beside.wrong_order, order)
