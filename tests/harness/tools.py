"""The tools of `tools/` that people call: help and wrong words, streams that are closed or full, texts that are none of theirs, which never end in a
traceback; the braces that `braces.py` finds, of programs whose braces are put at random too; the rules that `copies.py` writes; the page of
`trace.py` and the picture of `draw.py`."""
import copy
import json
import os
import random
import re
import subprocess
import sys
from functools import partial

from harness.export import BUILT, TOOLS, by_tool
from harness.programs import ACCEPTED, EXAMPLES, LIMIT, LONGEST, REFUSED, STREAM, WRONG_WORDS, Answer, Program, differing, shortened, text_of
from harness.streams import closed_pipe

sys.path.insert(0, TOOLS)
import declarations  # noqa: E402  (the tools stand beside the tests)

# The tools with the words that they need, by what they read: exported lines, programs, programs of functions.
OF_LINES = {"reduce.py": [], "steps.py": [], "draw.py": [], "trace.py": ["--limit", "5"], "to_c.py": []}
OF_PROGRAMS = {"copies.py": ["nat"], "braces.py": ["--most", "20"]}
OF_FUNCTIONS = {"compile.py": []}
ALL = {**OF_LINES, **OF_PROGRAMS, **OF_FUNCTIONS}
# Statuses with which a tool may end on a text that may be anything.
STATUSES = (ACCEPTED, REFUSED, LIMIT)
HOSTILE = [
    b"", b"\n", b"\0", b"\xff\xfe", b"\xef\xbb\xbf{}", b"{", b"{}", b"[]", b"(", b"refused", "\u2118 \u00b2 \U0001d4b3".encode(),
    b'{"types":[]}', b'{"format":1}', b'{"format":"1"}', b'{"format":1,"types":{}}', b'{"format":' + b"9" * 10_000 + b"}",
    b'{"format":1,"types":["\\ud800"],"symbols":[],"rules":[],"net":{}}', b"{" * 100_000, b'{"a":' * 100_000, b"[" * 100_000,
    b"#" * 100_000, b"type " * 100_000, b"type a, " * 50_000, b"symbol " * 1_000, b"symbol A : t+ " + b"{t- " * 10_000, b"symbol A : t+ {t-} " * 20_000,
]
CHANGES = 40
# Programs of which the braces are put at random, and how often.
SCRAMBLED = ("insertion_sort", "sum", "list", "quicksort", "fold_of_a_tree", "queue_of_two_lists", "binary_numbers")
TIMES = 6
# Examples that braces mend, and some that they don't.
MENDED = ("one_pair_of_braces", "one_pair_of_braces_twice", "sum_before_its_copies", "two_classes_of_a_copy", "two_pairs_of_braces_for_a_copy",
          "two_pairs_of_braces_for_two_results")
NOT_MENDED = ("waits_for_itself", "two_that_wait_for_each_other", "a_ring_of_sums", "waits_for_itself_in_a_rule")


def without_traceback(answer, statuses=STATUSES):
    """What is wrong with an answer on a text that may be anything: it ends with one of these statuses, and without a traceback."""
    return None if answer.status in statuses and b"Traceback" not in answer.errors else f"{answer}, {shortened(answer.errors)}"


def on_streams(name, words, **streams):
    """What a tool answers with these streams."""
    ran = subprocess.run([sys.executable, "-B", os.path.join(TOOLS, name), *words], stderr=subprocess.PIPE, timeout=LONGEST, check=False, **streams)
    return Answer(ran.returncode, b"", ran.stderr)


def into_closed_pipe(name, words, data):
    writer = closed_pipe()
    try:
        return on_streams(name, words, input=data, stdout=writer)
    finally:
        os.close(writer)


def into_full_device(name, words, data):
    with open("/dev/full", "wb") as device:
        return on_streams(name, words, input=data, stdout=device)


def without_a_stream(name, words, data, script):
    """What a tool answers where the shell has closed a stream."""
    command = ["sh", "-c", f'exec "$@" {script}', "sh", sys.executable, "-B", os.path.join(TOOLS, name), *words]
    ran = subprocess.run(command, input=data, stdout=subprocess.PIPE, stderr=subprocess.PIPE, timeout=LONGEST, check=False)
    return Answer(ran.returncode, ran.stdout, ran.stderr)


def of_streams(name, words, data):
    """The trials of a tool's streams, on a text of which it writes something."""
    for what, call in (
        ("a closed pipe", into_closed_pipe), ("a full device", into_full_device),
        ("no standard output", partial(without_a_stream, script=">&-")), ("no standard input", partial(without_a_stream, script="<&-")),
    ):
        yield f"{name}: {what}", lambda call=call: without_traceback(call(name, words, data), [STREAM])
    usual = by_tool(name, words, data)
    yield f"{name}: no standard error", lambda: differing(without_a_stream(name, words, data, "2>&-"), usual.status, usual.output)
    yield f"{name}: help", lambda: None if by_tool(name, ["--help"], b"").output.startswith(b"usage: ") else "no help"
    yield f"{name}: wrong words", lambda: differing(by_tool(name, ["--no-such-word"], b""), WRONG_WORDS, b"")


def nodes(data):
    """Each place in a value of JSON: what it is in, and its key."""
    items = data.items() if isinstance(data, dict) else enumerate(data) if isinstance(data, list) else ()
    for key, part in list(items):
        yield data, key
        yield from nodes(part)


def altered_line(line, chance):
    """An exported line with a value exchanged for another one, or with a character exchanged."""
    if chance.random() < 0.3:
        place = chance.randrange(len(line))
        return line[:place] + bytes([chance.choice(b'0123456789,[]{}":x')]) + line[place + 1:]
    data = json.loads(line)
    places = list(nodes(data))
    (within, key), (other, of) = chance.choice(places), chance.choice(places)
    within[key] = chance.choice([None, -1, 0, 1, 10**9, 1.5, True, "", [], {}, [[0, 0], [0, 0]], copy.deepcopy(other[of])])
    return json.dumps(data).encode()


def altered_text(text, chance):
    """A text with a word left out, doubled, or exchanged for another one."""
    words = re.findall(rb"\s+|\w+|.", text)
    for _ in range(chance.randint(1, 3)):
        place, other = chance.randrange(len(words)), chance.randrange(len(words))
        words[place:place + 1] = chance.choice(([], [words[place]] * 2, [words[other]]))
    return b"".join(words)


def put_at_random(text, chance):
    """A program with its braces put at random."""
    made, done = [], 0
    for declaration in declarations.declarations(text):
        begin, end = declaration.place
        ports = declaration.ports
        cuts = [0, *(cut for cut in range(1, len(ports)) if chance.random() < 0.6), len(ports)]
        classes = [declarations.braces(ports[one:other]) for one, other in zip(cuts, cuts[1:]) if one < other]
        made += [text[done:begin], *(f" {ports}" for ports in classes)]
        done = end
    return "".join([*made, text[done:]])


def ports_of(text):
    return [(declaration.name, declaration.type, declaration.sign, declaration.ports) for declaration in declarations.declarations(text)]


def wrong_braces(program, text):
    """What is wrong with the braces that are found for a text: it is accepted with them, and nothing but braces is changed."""
    answer = by_tool("braces.py", ["--inet", program.path, "--fix"], text.encode())
    if answer.status != ACCEPTED:
        return f"{answer}, {shortened(answer.errors)} on {text}"
    fixed = answer.output.decode()
    if program.run(["check"], answer.output).status != ACCEPTED:
        return f"not accepted: {fixed}"
    without = lambda one: re.sub(r"[{}\s]", "", declarations.without_comments(one)).replace(",", "")
    return None if ports_of(text) == ports_of(fixed) and without(text) == without(fixed) else f"more is changed: {fixed}"


def wrong_refusal(program, name):
    """What is wrong with the answer of the search on a program that no braces mend: the line of `inet check`."""
    line = program.run(["check"], text_of(name)).output
    return differing(by_tool("braces.py", ["--inet", program.path, "--all"], text_of(name)), REFUSED, line)


def wrong_copies(program, name):
    """What is wrong with the copies of all types of an accepted program: with them it is still accepted, and they are declared."""
    text = text_of(name).decode()
    items, net, rest = text.rpartition("\nnet")
    kinds = sorted({declaration.type for declaration in declarations.declarations(text) if declaration.is_constructor})
    if not kinds:
        return None
    answer = by_tool("copies.py", ["--copy", "Copier_", "--erase", "Eraser_", *kinds], text.encode())
    if answer.status != ACCEPTED:
        return None if b"has an output at an auxiliary port" in answer.errors else f"{answer}, {answer.errors!r}"
    made = (items + "\n").encode() + answer.output + (net + rest).encode()
    said = program.run(["check"], made)
    missing = [kind for kind in kinds for begin in ("Copier_", "Eraser_") if f"symbol {begin}{kind} : {kind}-".encode() not in answer.output]
    return f"not accepted: {said}" if said.status != ACCEPTED else f"not declared: {missing}" if missing else None


def wrong_page(exporter):
    """What is wrong with a page that ends before its run does: it says so, has its title, and the rules as they are written."""
    words = ["--limit", "2", "--program", os.path.join(EXAMPLES, "sum.inet")]
    answer = by_tool("trace.py", words, exporter.run([], text_of("sum")).output)
    said = b"The page ends here, after 2 interactions, and the run goes on"
    parts = [said, b"<title>sum.inet</title>", b"of line 8</p>\n<pre>rule S[Add(y, sum)] &gt;&lt; Add[y, S(sum)];</pre>"]
    lacking = [part for part in parts if part not in answer.output]
    return f"lacking: {lacking}" if lacking or answer.status else None if said in answer.errors else "nothing is told"


def tools(program):
    room = os.path.join(program.room, "tools_export")
    os.mkdir(room)
    exporter = Program(BUILT, room)
    line, source = exporter.run([], text_of("double")).output, text_of("one_pair_of_braces")
    with open(os.path.join(EXAMPLES, "quicksort.fun"), "rb") as file:
        functional = file.read()
    texts = {**dict.fromkeys(OF_LINES, line), **dict.fromkeys(OF_PROGRAMS, source), **dict.fromkeys(OF_FUNCTIONS, functional)}
    words_of = {**ALL, "braces.py": [*ALL["braces.py"], "--inet", program.path]}
    chance = random.Random(81)
    for name, words in words_of.items():
        yield from of_streams(name, words, texts[name])
        change = altered_line if name in OF_LINES else altered_text
        changed = [change(texts[name], chance) for _ in range(CHANGES)]
        for number, text in enumerate([*HOSTILE, source, functional, line, *changed]):
            yield f"{name}: odd text {number}, {shortened(text, 40)}", lambda name=name, words=words, text=text: without_traceback(by_tool(name, words, text))
    yield "trace.py: page", partial(wrong_page, exporter)
    for what in (b"rule A[" * 50_000, b"rule A[] >< B[] with {" * 20_000, b"\xff"):
        words = ["--program", program.file_of(what)]
        yield f"trace.py: {shortened(what, 40)} as the program", lambda words=words: without_traceback(by_tool("trace.py", words, line))
    yield "corpus.py: no programs", lambda: without_traceback(by_tool("corpus.py", ["check", "/no/inet", "/no/inet_export"], b""), [REFUSED])
    yield "braces.py: accepted as it is", lambda: differing(by_tool("braces.py", ["--inet", program.path, "--fix"], text_of("sum")), ACCEPTED, text_of("sum"))
    yield "braces.py: no such program", lambda: without_traceback(by_tool("braces.py", ["--inet", "/no/program"], text_of("sum")), [REFUSED])
    for name in MENDED:
        yield f"braces.py: {name}", partial(wrong_braces, program, text_of(name).decode())
    for name in NOT_MENDED:
        yield f"braces.py: {name}", partial(wrong_refusal, program, name)
    for name in SCRAMBLED:
        for time in range(TIMES):
            yield f"braces.py: {name}, put at random {time}", partial(wrong_braces, program, put_at_random(text_of(name).decode(), chance))
    for file in sorted(os.listdir(EXAMPLES)):
        name, ending = os.path.splitext(file)
        if ending == ".run":
            yield f"copies.py: {name}", partial(wrong_copies, program, name)
