"""Each request of the program refused in turn, by a library that is preloaded; each read and write of one byte; small address spaces. After each
run with that library all blocks of memory have to be given back."""
import itertools
import os
import struct
import subprocess
from dataclasses import dataclass
from functools import partial

from harness.generated import with_threads
from harness.programs import (
    ACCEPTED, COMMANDS, HERE, MEMORY, REFUSED, ROWS, STREAM, WRONG_WORDS, answering, differing, failing, text_of, wrong_stream
)

# Four programs that are accepted and one that is refused.
EXAMPLES = ["queue", "sum", "double", "insertion_sort", "waits_for_itself"]
# Rows of which requests for memory are refused, these apart.
OF_ROWS, APART = ["sum_of_two_and_one", "copies_added", "two_sums_and_a_zero", "agent_with_a_large_cell", "copies_side_by_side"], 3

# The report of the library: requests for memory, reads, writes, writes to standard error, threads that were to start, what was refused, blocks.
REPORT = struct.Struct("7l")
NOTHING, REQUEST, THREAD_START = range(3)
ONE_BYTE = {"AT_ONCE": "1"}
# How many bytes a write takes at once where standard output has room for so many in all.
STEPS = (1, 7, 100)
# An accepted program, and a text that is refused.
SHORT = "type nat;\nsymbol Z : nat+;\nsymbol S : nat+ {nat-};\nnet (r : nat+) { r ~ S(S(Z)); }\n", "net net"
# Sizes of address spaces, in kilobytes: too small for the most cells, and large enough.
SPACES = (20_000, 40_000, 60_000, 80_000, 100_000, 120_000, 150_000, 200_000, 300_000, 500_000, 1_000_000)
# The line that is printed asks for no more memory than so often.
LINE = 20
# How a write is refused: by an error, or by taking nothing.
WAYS = ("fail", "nothing")


@dataclass(frozen=True)
class Report:
    memory: int
    read: int
    write: int
    tell: int
    threads: int
    refused: int
    blocks: int

    def are_given_back(self):
        """Whether all blocks are. What the C library takes for a thread isn't counted, and it may give that back."""
        return -self.threads <= self.blocks <= 0


class NotGivenBack(Exception):
    """A program that ends keeps blocks of memory."""


class Refuser:
    """Runs a program with the library that refuses. Where the program gives back all blocks before it ends, one that doesn't is a failure."""

    def __init__(self, program, gives_back=True):
        self.program = program
        self.gives_back = gives_back
        self.library = os.path.join(program.room, "refuse.so")
        self.numbers = itertools.count()
        source = os.path.join(HERE, "refuse.c")
        subprocess.run(["cc", "-O1", "-shared", "-fPIC", source, "-o", self.library, "-ldl"], check=True)

    def run(self, words, text, **asked):
        """Runs with this asked of the library: the answer and the library's report."""
        path = os.path.join(self.program.room, f"report{next(self.numbers)}")
        with open(path, "wb") as file:
            file.write(bytes(REPORT.size))
        answer = self.program.run(words, text, {"LD_PRELOAD": self.library, "REFUSE_REPORT": path, **asked})
        with open(path, "rb") as file:
            report = Report(*REPORT.unpack(file.read()))
        os.remove(path)
        if self.gives_back and answer.status is not None and not report.are_given_back():
            raise NotGivenBack(f"{report.blocks} blocks, after {answer}")
        return answer, report

    def refusing(self, words, text, kind, number, **asked):
        """Runs with the request of this kind and number refused: the answer and the report."""
        return self.run(words, text, REFUSE_KIND=kind, REFUSE_AT=str(number), **asked)

    def answer(self, *refused, **asked):
        """As above: the answer alone."""
        return self.refusing(*refused, **asked)[0]


def wrong_without_memory(answer, usual, may_answer, may_want):
    """What is wrong where a request for memory was refused: the answer is the usual one, or `memory`, as far as each is right.

    Where the usual answer has come and memory runs out only for what is told on standard error, nothing is told.
    """
    if (answer.status, answer.output) == (usual.status, usual.output):
        if usual.status in (REFUSED, WRONG_WORDS):
            return None if answer.errors in (b"", usual.errors) else f"a part of a diagnosis: {answer.errors!r}"
        if may_answer:
            return None
    return differing(answer, MEMORY, b"memory\n") if may_want else differing(answer, usual.status, usual.output)


def wrong_beginning(answer, usual):
    """What is wrong where a write was refused, and it isn't known after how much; None where nothing is."""
    begun = usual.output.startswith(answer.output) and answer.output != usual.output
    return wrong_stream(answer, "output", answer.output if begun else b"a beginning of " + usual.output)


def refused_memory(refuser, words, text, usual, counts, first=1, apart=1):
    """Each request for memory, from the first one of these on, or only some, by itself and with all that follow.

    A request by itself may be followed by one that asks for less, when a list that grows is content with the room that it needs. What a
    thread's start asks for besides the C library can't be told from other requests; by itself, what the C library asks for it is no fault.
    """

    def wrong(number, asked):
        answer, report = refuser.refusing(words, text, "memory", number, **asked)
        may_answer = not asked or counts.threads > 0 or report.refused == NOTHING
        may_want = report.refused == REQUEST or bool(asked) and report.refused == THREAD_START
        return wrong_without_memory(answer, usual, may_answer, may_want)

    for number in range(first, counts.memory + 1, apart):
        yield f"memory refused at request {number}", partial(wrong, number, {})
        yield f"memory refused from request {number} on", partial(wrong, number, {"REFUSE_ON": "1"})


def refused_streams(refuser, words, text, usual, counts):
    """Each read and each write, those to standard error too, by an error and by taking nothing."""
    for number in range(1, counts.read + 1):
        yield f"read {number} refused", failing(partial(refuser.answer, words, text, "read", number), "input")
    for by in WAYS:
        for number in range(1, counts.write + 1):
            run = partial(refuser.answer, words, text, "write", number, REFUSE_BY=by)
            yield f"write {number} answers {by}", lambda run=run: wrong_beginning(run(), usual)
        for number in range(1, counts.tell + 1):
            run = partial(refuser.answer, words, text, "tell", number, REFUSE_BY=by)
            yield f"write {number} to standard error answers {by}", answering(run, usual.status, usual.output)


def target(refuser, name, words, text):
    """The trials of one text and these words, each with its name; the first says that the library alone changes nothing."""
    plain = refuser.program.run(words, text)
    usual, counts = refuser.run(words, text)
    yield f"{name}: {' '.join(words)}: nothing refused", answering(lambda: usual, plain.status, plain.output)
    for trials in (refused_memory, refused_streams):
        for what, trial in trials(refuser, words, text, usual, counts):
            yield f"{name}: {' '.join(words)}: {what}", trial


def refusals(program):
    """Each request for memory, each read and each write refused in turn."""
    refuser = Refuser(program)
    for name in EXAMPLES:
        for words in COMMANDS:
            yield from target(refuser, name, words, text_of(name))
    for name, words in itertools.product(OF_ROWS, COMMANDS[:3]):
        text = text_of(name, ROWS)
        for what, trial in refused_memory(refuser, words, text, *refuser.run(words, text), apart=APART):
            yield f"{name}: {' '.join(words)}: {what}", trial
    for words in (["--help"], ["run", "--help"], ["run", "--workers", "65"], ["walk"], []):
        yield from target(refuser, "sum", words, text_of("sum"))


def threads(program):
    """A run that starts threads: it does start them, and no refused start or request changes what it answers but to `memory`.

    Only what it asks for after the check is refused.
    """
    refuser = Refuser(program)
    text = with_threads()
    one = program.run(["run", "--cells", "200000"], text)
    checked = refuser.run(["check"], text)[1].memory
    for workers in (2, 64):
        words = ["run", "--cells", "200000", "--workers", str(workers)]
        usual, counts = refuser.run(words, text)
        yield f"{workers} workers start threads", lambda counts=counts: None if counts.threads else "no thread was started"
        yield f"{workers} workers answer as one", answering(partial(program.run, words, text), one.status, one.output)
        for what, trial in refused_memory(refuser, words, text, usual, counts, checked - LINE):
            yield f"{workers} workers: {what}", trial


def one_byte(program):
    """One byte a read and one byte a write: the usual answer; and with the read or write refused after each byte."""
    refuser = Refuser(program)
    for name, words in itertools.product(EXAMPLES, COMMANDS):
        usual = program.run(words, text_of(name))
        run = partial(refuser.answer, words, text_of(name), "none", 0, **ONE_BYTE)
        yield f"{name}: {' '.join(words)}: one byte a call", answering(run, usual.status, usual.output)
    text = text_of("sum")
    for size in range(len(text) + 1):
        run = partial(refuser.answer, ["check"], text, "read", size + 1, **ONE_BYTE)
        yield f"sum: check: refused after {size} bytes read", failing(run, "input")
    for words in COMMANDS[:3]:
        output = program.run(words, text).output
        for by, size in itertools.product(WAYS, range(len(output))):
            run = partial(refuser.answer, words, text, "write", size + 1, REFUSE_BY=by, **ONE_BYTE)
            yield f"sum: {words[0]}: {by} after {size} bytes written", failing(run, "output", output[:size])


def wrong_in_room(refuser, words, text, usual, room, asked):
    """What is wrong where standard output takes so many bytes: these are the first ones of the usual answer, which is there where it fits."""
    answer = refuser.answer(words, text, "none", 0, ROOM=str(room), **asked)
    if room >= len(usual.output):
        return differing(answer, usual.status, usual.output)
    return wrong_stream(answer, "output", usual.output[:room])


def rooms(program):
    """Standard output with room for so many bytes, in writes of several sizes: of two short texts, of help, of wrong words, and of `memory`."""
    refuser = Refuser(program)
    for text, by, step in itertools.product(SHORT, WAYS, STEPS):
        usual = program.run(["check"], text.encode())
        for room in range(len(usual.output) + 1):
            run = partial(wrong_in_room, refuser, ["check"], text.encode(), usual, room, {"REFUSE_BY": by, "AT_ONCE": str(step)})
            yield f"{usual.output[:8]!r}: {by} after {room} bytes, {step} at once", run
    usual = program.run(["--help"])
    yield "help in little room", partial(wrong_in_room, refuser, ["--help"], b"", usual, 2, {"AT_ONCE": "1"})
    wrong = program.run(["walk"])
    yield "wrong words in little room", answering(partial(refuser.answer, ["walk"], b"", "none", 0, ROOM="2", AT_ONCE="1"), WRONG_WORDS, wrong.output)
    run = partial(refuser.answer, ["check"], b"", "memory", 1, REFUSE_ON="1", ROOM="2", AT_ONCE="1")
    # The message on the failed write takes memory, which is out.
    yield "memory in little room", answering(run, STREAM, b"me")


def wrong_in_small_space(answer, usual):
    """What is wrong with an answer in a small address space: `memory` or the usual one is right."""
    as_usual = (answer.status, answer.output) == (ACCEPTED, usual.output)
    return None if as_usual else differing(answer, MEMORY, b"memory\n")


def address_spaces(program):
    """Memory that really runs out, in small address spaces: for the most cells, and for the stacks of threads."""
    for text, count in ((text_of("sum"), "1048576"), (with_threads(), "200000")):
        usual = program.run(["run", "--cells", count], text)
        for kilobytes, workers in itertools.product(SPACES, ("1", "2", "64")):
            words = ["run", "--cells", count, "--workers", workers]
            run = partial(program.run_in_shell, f'ulimit -v {kilobytes}; exec "$@"', words, text)
            yield f"{kilobytes} kilobytes: {' '.join(words)}", lambda run=run, usual=usual: wrong_in_small_space(run(), usual)
