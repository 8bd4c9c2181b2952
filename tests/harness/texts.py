"""Texts that are cut, filled up, badly encoded, have long names, or as many free names as may be."""
import itertools
from functools import partial

from harness.programs import ACCEPTED, MOST_BYTES, REFUSED, ROWS, answering, text_of

SUM = "sum_of_two_and_one"
EMPTY = "empty_net"
CONSTRUCTORS = "constructors_alone"
COMMANDS = [["check"], ["derive"], ["run"]]
RESERVED = ("type", "symbol", "rule", "net")
# Bytes at which no well-formed character begins: too long a form, half of a pair, above the last character, cut off.
BAD_BYTES = [b"\xc0\x80", b"\xed\xa0\x80", b"\xf5\x80\x80\x80", b"\xe2\x82"]
# Letters of one to four bytes, and the sign that is one too.
LETTERS = ["a", "_", "\u00e9", "\u4e2d", "\U0001d4b3"]
MOST_CHARACTERS = 64
MOST_FREE_NAMES = 256


def accepted(program, words, text, output):
    """A trial: the text has to be accepted, with this output."""
    return answering(partial(program.run, words, text), ACCEPTED, output)


def refused(program, words, text, line):
    """A trial: the text has to be refused with this line."""
    return answering(partial(program.run, words, text), REFUSED, f"{line}\n".encode())


def line_of_a_cut(text):
    """What the sum's text, cut here before its end, is refused with.

    Each line begins with a reserved word, so what is left of one there is a name where none can stand; half of a sign is no token;
    everywhere else the text ends too early.
    """
    line, last = text.count(b"\n") + 1, text.rpartition(b"\n")[2].decode()
    if last and last not in RESERVED and any(word.startswith(last) for word in RESERVED):
        return f"refused E02 at {line}:1: {last}"
    if last.endswith(">") and not last.endswith("><"):
        return f"refused E01 at {line}:{len(last)}"
    return f"refused E02 at {line}:{len(last) + 1}"


def cuts(program):
    """All cuts of the sum's text, whose last line feed isn't needed."""
    whole = text_of(SUM, ROWS).rstrip(b"\n")
    for size, words in itertools.product(range(len(whole)), COMMANDS):
        cut = whole[:size]
        yield f"{words[0]} on the first {size} bytes", refused(program, words, cut, line_of_a_cut(cut))
    for words in COMMANDS:
        usual = program.run(words, whole + b"\n")
        yield f"{words[0]} without the last line feed", accepted(program, words, whole, usual.output)


def encodings(program):
    """A byte order mark, and comments with bytes that aren't UTF-8, at the end of the text and before more."""
    text = text_of(CONSTRUCTORS, ROWS)
    for words in COMMANDS:
        yield f"{words[0]}: byte order mark", refused(program, words, b"\xef\xbb\xbf" + text, "refused E01 at 1:1")
        for bad in BAD_BYTES:
            for what, rest in (("a comment", b"\n" + text), ("a comment at the end", b"")):
                yield f"{words[0]}: {bad.hex()} in {what}", refused(program, words, b"# " + bad + rest, "refused E01 at 1:3")


def comment_of_letters(size):
    """A comment of `size` bytes, whose letters take two each."""
    letters = (size - 2) // 2
    return b"# " + "\u00e9".encode() * letters + b" " * (size - 2 - 2 * letters)


FILLINGS = {
    "spaces": lambda size: b" " * size,
    "line feeds": lambda size: b"\n" * size,
    "a comment": lambda size: b"#" * size,
    "a comment of letters of two bytes": comment_of_letters,
}


def sizes(program):
    """A text filled up to the limit in several ways, and one byte more."""
    text = text_of(EMPTY, ROWS)
    for what, filling in FILLINGS.items():
        filled = text + filling(MOST_BYTES - len(text))
        for words in COMMANDS:
            usual = program.run(words, text)
            said = f"{words[0]}: filled up with {what}"
            yield said, accepted(program, words, filled, usual.output)
            yield f"{said}, and a byte more", refused(program, words, filled + b" ", "refused E03 at 1:1")


# Uses of a name, each with a text and how many types, symbols, rules and agents that has.
USES = {
    "type": ("type {name};\nnet () {{ }}\n", (1, 0, 0, 0)),
    "symbol": ("type t;\nsymbol {name} : t+;\nnet () {{ }}\n", (1, 1, 0, 0)),
    "free name": ("type t;\nsymbol Z : t+;\nnet ({name} : t+) {{ {name} ~ Z; }}\n", (1, 1, 0, 1)),
    "variable": ("type t;\nsymbol Z : t+;\nnet (r : t+) {{ r ~ {name}; {name} ~ Z; }}\n", (1, 1, 0, 1)),
}


def names(program):
    """Names of the most characters, which may take four bytes each, and of one more."""
    for letter, (use, (form, counts)) in itertools.product(LETTERS, USES.items()):
        line = "accepted: %d types, %d symbols, %d rules, %d agents\n" % counts
        text = form.format(name=letter * MOST_CHARACTERS)
        yield f"check: {use} of {MOST_CHARACTERS} times {letter}", accepted(program, ["check"], text.encode(), line.encode())
        longer = letter * (MOST_CHARACTERS + 1)
        text = form.format(name=longer)
        before = text[: text.index(longer)]
        place = f"{before.count(chr(10)) + 1}:{len(before) - before.rfind(chr(10))}"
        for words in COMMANDS:
            yield f"{words[0]}: {use} of {len(longer)} times {letter}", refused(
                program, words, text.encode(), f"refused E03 at {place}"
            )


def turned(count):
    """A program with `count` free names, each with an active pair that leaves one agent at it."""
    ends = [f"end{number}" for number in range(count)]
    declared = ",\n  ".join(f"{end} : t+" for end in ends)
    joints = "\n".join(f"  Turn({end}) ~ Z;" for end in ends)
    text = f"type t;\nsymbol Z : t+;\nsymbol Turn : t- {{t+}};\nrule Z[] >< Turn[Z];\nnet (\n  {declared}) {{\n{joints}\n}}\n"
    return text.encode(), "".join(f"{end} = Z\n" for end in ends)


def free_names(program):
    """The most free names, and one more."""
    text, net = turned(MOST_FREE_NAMES)
    counts = f"1 types, 2 symbols, 1 rules, {2 * MOST_FREE_NAMES} agents"
    yield f"check: {MOST_FREE_NAMES} free names", accepted(program, ["check"], text, f"accepted: {counts}\n".encode())
    for workers in ("1", "2", "64"):
        words = ["run", "--workers", workers]
        outcome = f"{net}interactions: {MOST_FREE_NAMES}\nstop: normal\n"
        yield f"{' '.join(words)}: {MOST_FREE_NAMES} free names", accepted(program, words, text, outcome.encode())
    text, _ = turned(MOST_FREE_NAMES + 1)
    # The first free name is in line 6, and each has a line.
    line = f"refused E03 at {6 + MOST_FREE_NAMES}:3: end{MOST_FREE_NAMES}"
    for words in COMMANDS:
        yield f"{words[0]}: {MOST_FREE_NAMES + 1} free names", refused(program, words, text, line)


def texts(program):
    for group in (cuts, encodings, sizes, names, free_names):
        yield from group(program)
