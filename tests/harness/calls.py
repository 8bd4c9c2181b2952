"""Direct calls of the library with a request for memory refused: `in_harness calls` says what came of each, and `in_harness round` of a round.
Calls that take no memory: as many requests are made with them as without them."""
import re
from functools import partial

from harness.asked import harness_program
from harness.parts import RUN_ANSWER, parted
from harness.programs import ACCEPTED, LIMIT, ROWS, text_of
from harness.refusals import Refuser

# The programs on which the calls are made: rows, two duplicators, and a tree of copies whose run starts threads where it has the cells.
OF_ROWS = ("sum_of_two_and_one", "copies_added", "two_sums_and_a_zero", "agent_with_a_large_cell")
COPIES = "copies_side_by_side"
WITH_THREADS = "tree_of_copies"
USUAL, LARGE = ("100", "64"), ("14450", "524288")
# A program of many requests has only some of them refused, these apart.
APART = 3
# What a line may say of its call, after its name, where one request was refused.
REFUSED = re.compile(r": (memory( before it| after it|, as before\b.*|, the net of \d+ interactions)?|\d+ interactions, 0 threads)$")
NO_MEMORY = b"memory\n"
ROUND = ["round", "65536", "2", "2", "10"]
WITHOUT_THREAD = b"2 interactions, 0 threads"
# Words of `in_harness still` over the tree of copies: how many interactions each call does.
STILL = ("0 0 0", "1 0 0", "9 0 0", "0 9 0", "0 0 9", "9 9 9")
# .. of `in_harness gather`, whose jobs place no agent, each as many words.
GATHERED = ("nop 0 0 0 nop 0 0 0 nop 0", "put 0 0 2 nop 0 0 0 nop 0", "put 0 0 2 put 0 0 2 nop 0", "put 0 0 2 put 1 0 2 take 0")
GATHER_OF = "type nat;\nsymbol Z : nat+;\nsymbol S : nat+ {nat-};\nsymbol Add : nat- {nat-} {nat+};\nrule S[Add(y, t)] >< Add[y, S(t)];\nrule Z[] >< Add[y, y];\nnet () { }\n"
# Limits of `inet run` with as many digits, within which it does no phase.
INTERACTIONS = ("1000", "5000", "9999")


def wrong_lines(answer, usual):
    """What is wrong where one request was refused: each line is the usual one, but for one at most, which says that memory ran out and
    what is as before, or that no thread was started. Where memory ran out before the calls, that is all."""
    if answer.status != 0:
        return str(answer)
    if answer.output == NO_MEMORY:
        return None
    lines, wanted = answer.output.decode().splitlines(), usual.output.decode().splitlines()
    if len(lines) != len(wanted):
        return f"{len(lines)} lines for {len(wanted)}"
    others = [(line, other) for line, other in zip(lines, wanted) if line != other]
    wrong = [line for line, other in others if not REFUSED.search(line) or line.split(":")[0] != other.split(":")[0]]
    return f"wrong: {wrong}" if wrong else None if len(others) <= 1 else f"several: {others}"


def wrong_row(answer, usual):
    """What is wrong with the row of one round where a request was refused: it is `memory`, or the usual one, or that without a thread."""
    without = usual.output.replace(b"1 threads", b"0 threads")
    return None if answer.status == 0 and answer.output in (usual.output, without, NO_MEMORY) else str(answer)


def wrong_usual(usual):
    """What is wrong with the lines where nothing is refused."""
    lines = usual.output.decode().splitlines()
    wrong = [line for line in lines if not re.search(r": (done|\d+ interactions, [01] threads)$", line)]
    return f"wrong: {wrong}" if wrong or len(lines) < 11 or usual.status else None


def wrong_threads(refuser, text):
    """What is wrong where no refused request lets a round go on without its thread."""
    counts = refuser.run(ROUND, text)[1]
    without = sum(refuser.answer(ROUND, text, "memory", number).output.startswith(WITHOUT_THREAD) for number in range(1, counts.memory + 1))
    return None if without else "no round did its interactions without a thread"


def wrong_requests(refuser, text, all_words):
    """What is wrong where the answers to these words aren't had by as many requests for memory."""
    runs = [refuser.run(words, text) for words in all_words]
    counts = {report.memory for _, report in runs}
    done = all(answer.status in (ACCEPTED, LIMIT) and answer.output != NO_MEMORY for answer, _ in runs)
    return None if done and len(counts) == 1 else f"requests: {sorted(counts)}; {runs[-1][0]}"


def without_memory(program, refuser):
    """Interactions, and what is put in a gather and taken from it."""
    tree = text_of(WITH_THREADS, ROWS)
    yield "interactions ask for no memory", partial(wrong_requests, refuser, tree, [["still", LARGE[1], *words.split()] for words in STILL])
    yield "a gather asks for no memory", partial(wrong_requests, refuser, GATHER_OF.encode(), [["gather", "0", "2", "0", "2", *words.split()] for words in GATHERED])
    runs = [["run", "--no-net", "--cells", LARGE[1], "--limit", limit] for limit in INTERACTIONS]
    yield "runs ask for no memory once they have begun", partial(wrong_requests, Refuser(program), tree, runs)


def calls(program):
    """Each call that takes memory, directly, and one round whose thread can't be started, with requests for memory refused in turn."""
    refuser = Refuser(harness_program(program, "calls"))

    def trials(name, words, text, apart, wrong_in):
        usual, counts = refuser.run(words, text)

        def wrong(number):
            return wrong_in(refuser.answer(words, text, "memory", number), usual)

        for number in range(1, counts.memory + 1, apart):
            yield f"{name}: memory refused at request {number}", partial(wrong, number)

    for name, limits in [*((row, USUAL) for row in (*OF_ROWS, COPIES)), (WITH_THREADS, LARGE)]:
        text = text_of(name, ROWS)
        _, count = parted(program.run(["run", "--limit", limits[0], "--cells", limits[1]], text), RUN_ANSWER)
        words = ["calls", *limits, str(count)]
        usual = refuser.run(words, text)[0]
        yield f"{name}: nothing refused", partial(wrong_usual, usual)
        yield from trials(name, words, text, APART, wrong_lines)
    text = text_of("two_sums_and_a_zero", ROWS)
    yield from trials("a round", ROUND, text, 1, wrong_row)
    yield "a round whose thread can't be started", partial(wrong_threads, refuser, text)
    yield from without_memory(program, refuser)
