"""The option --large: for each limit of a text one text within the usual limits, one past them, one at the large limit and one past that; and the
same answers as without it on the examples within the usual limits. The texts are made here."""
import glob
import os
from dataclasses import dataclass
from functools import partial

from harness.export import BUILT
from harness.programs import ACCEPTED, EXAMPLES, MOST_BYTES, REFUSED, WRONG_WORDS, Program, answering, differing, shortened, text_of
from harness.texts import turned

LARGE = "--large"
# What the diagnosis says where a usual limit refuses a text, and where a large one does not.
LARGER = b"help: `--large` allows larger programs"
COMMANDS = (["check"], ["derive"], ["run"])
MOST_LARGE_BYTES = 67_108_864


@dataclass(frozen=True)
class Made:
    """A text, the counts of its program, and where it is refused if it has more than it may have."""

    text: str
    counts: tuple[int, int, int, int]
    place: str = ""

    def line(self):
        return "accepted: %d types, %d symbols, %d rules, %d agents\n" % self.counts


def symbols(count):
    """A program with so many symbols; its last one, in a line of its own, may be one too many."""
    declared = "".join(f"symbol s{number} : t+;\n" for number in range(count))
    return Made(f"type t;\n{declared}net () {{ }}\n", (1, count, 0, 0), f"{count + 1}:8: s{count - 1}")


def rules(side, more):
    """A program with a rule for each of `side` constructors and `side` destructors, and with one more, if wanted, which is its last line but one."""
    heads = "".join(f"symbol a{number} : t+;\nsymbol b{number} : t-;\n" for number in range(side))
    pairs = "".join(f"rule a{one}[] >< b{other}[];\n" for one in range(side) for other in range(side))
    count = side * side + more
    last = "rule c[] >< d[];\n" if more else ""
    text = f"type t;\ntype u;\nsymbol c : u+;\n{'symbol d : u-;' if more else ''}\n{heads}{pairs}{last}net () {{ }}\n"
    return Made(text, (2, 2 * side + 1 + more, count, 0), f"{5 + 2 * side + side * side}:1: rule")


def free_names(count):
    """A program with so many free names, each in a line of its own, from the sixth one on."""
    text, _net = turned(count)
    return Made(text.decode(), (1, 2, 1, 2 * count), f"{5 + count}:3: end{count - 1}")


ERASING = "type t;\nsymbol Z : t+;\nsymbol E : t-;\nrule Z[] >< E[];\n"


def net_agents(count):
    """A program whose net has so many agents, two in each line; the last line has one too many, if the limit is even."""
    pairs = count // 2
    return Made(f"{ERASING}net () {{\n" + "E ~ Z;\n" * pairs + "}\n", (1, 2, 1, count), f"{5 + pairs}:1: E")


def member_agents(count):
    """A program with a right member of so many agents, made as the net above."""
    pairs = count // 2
    text = f"{ERASING}type u;\nsymbol A : u+;\nsymbol B : u-;\nrule A[] >< B[] with {{\n" + "E ~ Z;\n" * pairs + "};\nnet () { }\n"
    return Made(text, (2, 4, 2, 0), f"{8 + pairs}:1: E")


# For each limit: a text past the usual limit, which the large one allows, one at the large limit, and one past that.
LIMITS = {
    "symbols": (symbols(513), partial(symbols, 4_096), partial(symbols, 4_097)),
    "rules": (rules(64, True), partial(rules, 256, False), partial(rules, 256, True)),
    "free names": (free_names(257), partial(free_names, 4_096), partial(free_names, 4_097)),
    "agents of the net": (net_agents(4_002), partial(net_agents, 1_048_576), partial(net_agents, 1_048_578)),
    "agents of a right member": (member_agents(66), partial(member_agents, 1_024), partial(member_agents, 1_026)),
}


def counted(run, made):
    """A trial: the text, which is made later, has to be accepted, with its counts."""
    it = made()
    return differing(run(it.text.encode()), ACCEPTED, it.line().encode())


def wrong_limit(answer, place, words):
    """What is wrong with an answer that should refuse a text with E03 at this place, and name --large if it isn't among the words; None where nothing is."""
    named = LARGER in answer.errors.split(b"\n")
    said = None if named == (LARGE not in words) else f"the diagnosis: {answer.errors!r}"
    return differing(answer, REFUSED, f"refused E03 at {place}\n".encode()) or said


def refused(run, made, words):
    """A trial: the text, which is made later, has to be refused with E03 at its place."""
    it = made()
    return wrong_limit(run(words, it.text.encode()), it.place, words)


def at_limits(program):
    """The texts at each limit and past it."""
    for what, (past_usual, at_large, past_large) in LIMITS.items():
        for words in COMMANDS:
            yield f"{words[0]}: too many {what}", partial(refused, program.run, lambda made=past_usual: made, words)
            yield f"{words[0]} {LARGE}: too many {what}", partial(refused, program.run, past_large, [*words, LARGE])
        for name, made in (("more", lambda made=past_usual: made), ("most", at_large)):
            yield f"check {LARGE}: {name} {what}", partial(counted, partial(program.run, ["check", LARGE]), made)


def sizes(program):
    """A text filled up to each limit, and one byte more."""
    text = text_of("sum")
    for most, words in ((MOST_BYTES, []), (MOST_LARGE_BYTES, [LARGE])):
        filled = text + b" " * (most - len(text))
        for command in COMMANDS:
            said, more = f"{' '.join([*command, *words])} of {most} bytes", [*command, *words]
            usual = program.run(command, text)
            yield said, answering(partial(program.run, more, filled), ACCEPTED, usual.output)
            yield f"{said} and one more", lambda text=filled + b" ", words=more: wrong_limit(program.run(words, text), "1:1", words)
    longer = text + b" " * MOST_BYTES
    for command in COMMANDS:
        usual = program.run(command, text)
        yield f"{command[0]} {LARGE}: more than {MOST_BYTES} bytes", answering(partial(program.run, [*command, LARGE], longer), ACCEPTED, usual.output)


def runs(program):
    """Runs of larger nets."""
    for agents in (4_002, 1_048_576):
        words = ["run", LARGE, "--no-net", "--limit", "2000000", "--small-cells", str(agents)]
        line = f"interactions: {agents // 2}\nstop: normal\n".encode()
        for workers in ("1", "4"):
            run = partial(program.run, [*words, "--workers", workers], net_agents(agents).text.encode())
            yield f"run {LARGE} of {agents} agents with {workers} workers", answering(run, ACCEPTED, line)
    made = member_agents(1_024).text.replace("net () { }", "net () { A ~ B; }").encode()
    yield f"run {LARGE} of a right member of 1,024 agents", answering(partial(program.run, ["run", LARGE], made), ACCEPTED, b"interactions: 513\nstop: normal\n")
    text, net = turned(4_096)
    line = f"{net}interactions: 4096\nstop: normal\n".encode()
    yield f"run {LARGE} of 4,096 free names", answering(partial(program.run, ["run", LARGE], text), ACCEPTED, line)


def wrong_beside(usual, large):
    """What is wrong with an answer by the large limits on a text within the usual ones: it has to be the same, also on standard error."""
    one, other = usual(), large()
    told = None if one.errors == other.errors else f"told: {shortened(other.errors)}; wanted: {shortened(one.errors)}"
    return differing(other, one.status, one.output) or told


def same_answers(program, exporter):
    """The same answers as without the option on each example, but for one that the usual limits alone refuse."""
    for path in sorted(glob.glob(os.path.join(EXAMPLES, "*.inet"))):
        name = os.path.basename(path).removesuffix(".inet")
        if name == "right_member_too_large":
            continue
        text = text_of(name)
        for words in COMMANDS:
            yield f"{words[0]} {LARGE}: {name}", partial(wrong_beside, partial(program.run, words, text), partial(program.run, [*words, LARGE], text))
        yield f"export {LARGE}: {name}", partial(wrong_beside, partial(exporter.run, [], text), partial(exporter.run, [LARGE], text))


def wrong_words(program, words):
    """What is wrong with an answer to wrong words: nothing is written but help."""
    answer = program.run(words, text_of("sum"))
    return differing(answer, WRONG_WORDS, b"") or (None if answer.errors else "no help")


def exports(exporter):
    """The export of a larger program, and of one that is too large; words in each order."""
    net = net_agents(4_002)
    text = net.text.encode()
    yield "export: too many agents", answering(partial(exporter.run, [], text), REFUSED, f"refused E03 at {net.place}\n".encode())
    yield f"export {LARGE}: more agents", lambda: None if exporter.run([LARGE], text).status == ACCEPTED else "refused"
    path = exporter.file_of(text_of("sum"))
    usual = exporter.run([], text_of("sum"))
    for words in ([LARGE, path], [path, LARGE], [LARGE, "-"]):
        yield f"export {' '.join(words)}", answering(partial(exporter.run, words, text_of("sum")), ACCEPTED, usual.output)
    for words in ([LARGE, LARGE], [LARGE, path, path], [path, path], ["--larger"]):
        yield f"export {' '.join(words)}", partial(wrong_words, exporter, words)


def large(program):
    room = os.path.join(program.room, "export")
    os.mkdir(room)
    exporter = Program(BUILT, room)
    yield from at_limits(program)
    yield from sizes(program)
    yield from runs(program)
    yield from same_answers(program, exporter)
    yield from exports(exporter)
    for words in COMMANDS:
        yield f"{words[0]} {LARGE} {LARGE}", partial(wrong_words, program, [*words, LARGE, LARGE])
