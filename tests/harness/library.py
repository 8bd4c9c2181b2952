"""libinet, built over what was proved: the programs of bindings/ on each example, as the program answers; odd texts; refused memory; blocks
that are given back; calls by eight threads at once, with the address sanitizer and valgrind; and how it is installed."""
import glob
import json
import os
import re
import shutil
import subprocess
import sys
import tempfile
from functools import partial

from harness.large import net_agents
from harness.programs import EXAMPLES, HERE, MEMORY, MOST_BYTES, REFUSED, VALGRIND, WRONG_WORDS, Program, answering, differing, text_of
from harness.refusals import Refuser

TOP = os.path.normpath(os.path.join(HERE, "..", ".."))
CRATE = os.path.join(TOP, "crates", "in_c")
LIBRARY = os.path.join(TOP, "bindings", "library")
PYTHON = os.path.join(TOP, "bindings", "python")
BINDING = os.path.join(PYTHON, "inet.py")
HEADER = os.path.join(TOP, "include", "inet.h")
OWN_FAILURE, STREAM, FULL_DEVICE = 70, 6, "/dev/full"
COMMANDS = (["check"], ["derive"], ["run"])
# Programs on which each request for memory is refused.
WITHOUT_MEMORY = ("sum", "waits_for_itself")
# .. and those on which each call is counted: one that is accepted, and one of each kind of refusal whose diagnosis takes more than the text.
COUNTED = ("sum", "waits_for_itself", "two_pairs_of_braces_for_a_copy", "misspelt_symbol", "forgotten_semicolon")
# .. and under valgrind, where few requests are made.
FEW_REQUESTS = ("smallest", "forgotten_semicolon")
# Valgrind takes some thirty times as long, and so it is given the examples of these first letters alone.
FOR_VALGRIND = "d*.inet"
# The memory that the tests count and refuse is asked for by these.
WRAPPED = ["-Wl,--wrap=malloc,--wrap=realloc,--wrap=free"]


def built(command, made, folder=TOP, **more):
    """Runs a command that makes this file."""
    ran = subprocess.run(command, stdout=subprocess.PIPE, stderr=subprocess.STDOUT, cwd=folder, env={**os.environ, **more})
    if ran.returncode or not os.path.exists(made):
        raise RuntimeError(f"{command[0]} makes no {os.path.basename(made)}: {ran.stdout[-500:]!r}")
    return made


def program_at(path, room):
    """A program by itself, in a folder of its own."""
    return Program(path, tempfile.mkdtemp(dir=room))


def is_proved():
    """Whether what the library is built over was proved here."""
    return bool(shutil.which("rt")) and os.path.exists(os.path.join(TOP, "crates", "in_program", "out", "rlib", "in_program.rlib"))


def has_library():
    """Whether the library can be had: built here, over what was proved, or kept."""
    return is_proved() or os.path.exists(os.path.join(CRATE, "out", "libinet.a")) or os.path.exists(os.path.join(TOP, "dist", "libinet-x86_64-linux.a"))


def is_current():
    """Whether the library that was built is of these sources."""
    return not subprocess.run([LIBRARY, "taken"], capture_output=True).stdout.decode().startswith("dist/") and os.path.exists(os.path.join(CRATE, "out", "libinet.a"))


class Library:
    """libinet as users install it, in a folder of the tests, and what is made of it."""

    def __init__(self, room):
        self.room = room
        os.mkdir(room)
        if is_proved() and not is_current():
            subprocess.run([LIBRARY, "build"], check=True, stdout=subprocess.DEVNULL)
        self.destination = os.path.join(room, "installed")
        built([LIBRARY, "install"], self.path("lib", "libinet.so.0"), PREFIX="/usr", DESTDIR=self.destination)
        self.words = ["-I", self.path("include"), self.path("lib", "libinet.a")]

    def path(self, *names):
        return os.path.join(self.destination, "usr", *names)

    def compiled(self, name, *words):
        """A C program, of these words for `cc`."""
        made = os.path.join(self.room, name)
        return built(["cc", "-O1", "-g", "-Wall", "-Wextra", "-Werror", "-I", self.path("include"), *words, self.path("lib", "libinet.a"), "-o", made], made)

    def program(self, name, *words):
        """A program of bindings/c."""
        return program_at(self.compiled(name, *words, os.path.join(TOP, "bindings", "c", f"{name}.c")), self.room)

    def caller(self, name, *words):
        return self.compiled(name, "-pthread", *words, os.path.join(HERE, "library.c"), *WRAPPED)


class Binding:
    """A Python program, over the shared object."""

    def __init__(self, program, shared, path=BINDING):
        self.program = program
        self.path = path
        self.shared = {"INET_LIBRARY": shared, "PYTHONDONTWRITEBYTECODE": "1"}

    def run(self, words, text):
        return self.program.run_command([sys.executable, self.path, *words], text, self.shared)


def has_sanitizer(library):
    """Whether `cc` has the address sanitizer."""
    try:
        return bool(library.caller("sanitized", "-fsanitize=address"))
    except RuntimeError:
        return False


def wrong_beside(answer, usual):
    """What is wrong with an answer that has to be the program's, the diagnosis too. What the program says of its options is its own."""
    wanted = usual.errors if usual.status == REFUSED else b""
    same_errors = answer.errors == wanted
    return differing(answer, usual.status, usual.output) or (None if same_errors else f"diagnosis: {answer.errors!r}; wanted: {wanted!r}")


def as_program(program, run, words, text):
    """A trial: the run, which is made later, has to answer as the program does."""
    return lambda: wrong_beside(run(), program.run(words, text))


def texts():
    """Each example with its name, and texts at the limit."""
    for path in sorted(glob.glob(os.path.join(EXAMPLES, "*.inet"))):
        name = os.path.basename(path).removesuffix(".inet")
        yield name, text_of(name)
    whole = text_of("sum")
    yield "no byte", b""
    yield "bytes of no character", b"\xff\x00\xfe"
    for size in (MOST_BYTES - 1, MOST_BYTES, MOST_BYTES + 1, 2 * MOST_BYTES):
        yield f"the sum in {size} bytes", whole + b" " * (size - len(whole))
    yield "one line that is too long", b"# " + b"x" * MOST_BYTES


def beside_program(program, checker, binding):
    """Both programs of bindings/ on each text. Python's own start takes longer than a call, so of long texts it makes one."""
    exporter = program_at(os.path.join(TOP, "inet_export"), program.room)
    for name, text in texts():
        yield f"C: check: {name}", as_program(program, partial(checker.run, [], text), ["check"], text)
        for words in COMMANDS[: 1 if len(text) > 100_000 else 3]:
            yield f"Python: {words[0]}: {name}", as_program(program, partial(binding.run, words, text), words, text)
        yield f"Python: numbers and data: {name}", partial(wrong_data, binding, exporter, program, text)


# Asks for what the program doesn't print, in one process: a line of JSON.
ASKS = """
import json, sys
sys.path.insert(0, sys.argv[1])
from inet import Inet
inet, text = Inet(), sys.stdin.buffer.read()
steps = []
status, exported = inet.export(text)
if status == 0:
    program = json.loads(exported)
    parts = [*program["rules"], program["net"]]
    steps = [[inet.verify(text, k, part["steps"]), inet.verify(text, k, part["steps"][:-1]), inet.verify(text, k + len(parts), part["steps"])] for k, part in enumerate(parts)]
else:
    steps = [[inet.verify(text, 0, [])]]
print(json.dumps([status, exported.decode(errors="surrogateescape"), steps, inet.diagnose_data(text), inet.refusal(text), inet.diagnose(bytearray(text)).text, inet.check(memoryview(text)).status, inet.version]))
"""


def text_from(data):
    """The sentences of a diagnosis's text, each with what it is."""
    return [f"{word}: {part['message']}" for word, member in (("error", "errors"), ("note", "notes"), ("help", "helps")) for part in data[member]]


def wrong_places(data, text):
    """What is wrong with the places of a diagnosis: each is in the text, and its bytes and its characters are the same part of it."""
    try:
        characters = text.decode()
    except UnicodeDecodeError:
        return None
    places = [part["place"] for member in ("errors", "notes", "helps") for part in data[member] if part["place"]]
    places += [change for member in ("notes", "helps") for part in data[member] if part["remedy"] for change in part["remedy"]["changes"]]
    for place in places:
        (start, end), (first, last) = place["bytes"], place["characters"]
        if text[start:end].decode() != characters[first:last]:
            return f"a place: {place}"
        if "line" in place and (characters[:first].count("\n") + 1 != place["line"]):
            return f"a line: {place}"
    return None


def changed_by(text, changes):
    """The text with these changes, which come in its order."""
    for change in reversed(changes):
        start, end = change["bytes"]
        text = text[:start] + change["words"].encode() + text[end:]
    return text


def wrong_remedies(data, text, program):
    """What is wrong with the remedies: with one that is told to be accepted, the text is; with another one it changes."""
    for part in [*data["notes"], *data["helps"]]:
        if part["remedy"]:
            changed = changed_by(text, part["remedy"]["changes"])
            if part["remedy"]["accepted"] and program.run(["check"], changed).status:
                return f"not accepted with {part['remedy']}"
            if changed == text:
                return f"nothing changes with {part['remedy']}"
    return None


def wrong_refusal(status, code, line, column, refusal, usual):
    """What is wrong with the numbers of a refusal, which have to be those of the line."""
    printed = re.match(rb"refused E(\d+) at (\d+):(\d+)", usual.output)
    wanted = [int(number) for number in printed.groups()]
    if status != usual.status or [code, line, column] != wanted or refusal[:3] != wanted:
        return f"numbers {[code, line, column]}, {refusal}; wanted: {wanted}"
    return None


def wrong_data(binding, exporter, program, text):
    """What is wrong with the calls that the program has no command for."""
    ran = binding.program.run_command([sys.executable, "-c", ASKS, PYTHON], text, binding.shared)
    if ran.status:
        return str(ran)
    status, exported, steps, (data_status, data), (refused, refusal), diagnosis, checked, version = json.loads(ran.output)
    usual, wanted = program.run(["check"], text), exporter.run([], text)
    if (status, exported.encode(errors="surrogateescape")) != (wanted.status, wanted.output):
        return f"export: {status}, {exported[:200]!r}; wanted: {wanted}"
    if {data_status, refused, checked} != {usual.status}:
        return f"statuses {data_status}, {refused}, {checked}; wanted: {usual.status}"
    if usual.status == 0:
        wrong = [number for number, which in enumerate(steps) if which != [0, 2, 2]]
        return f"steps of {wrong}: {steps}" if wrong or data or refusal else None
    if steps != [[usual.status]] or data["format"] != 1 or version != 1000:
        return f"steps {steps}, format {data['format']}, version {version}"
    said = [line for line in diagnosis.splitlines() if line.startswith(("error: ", "note: ", "help: "))]
    told = [line.split("\n")[0] for line in text_from(data)]
    return (wrong_refusal(refused, data["code"], data["line"], data["column"], refusal, usual) or wrong_places(data, text) or wrong_remedies(data, text, program)
            or (f"sentences {told}; wanted: {said}" if sorted(told) != sorted(said) else None))


# Runs of accepted examples in random orders, and of choices without a pair, in one process: prints what is wrong.
CHOOSES = """
import glob, os, random, re, sys
sys.path.insert(0, sys.argv[1])
from inet import Inet
inet, chooser = Inet(), random.Random(7)
def wrong(name, *what):
    print(name, *what)
for path in sorted(glob.glob(os.path.join(sys.argv[2], "*.run"))):
    name = os.path.basename(path)[:-4]
    with open(path[:-4] + ".inet", "rb") as file:
        text = file.read()
    usual = inet.run(text)
    lines = usual.bytes.decode().splitlines(keepends=True)
    count = int(lines[-2].split()[1])
    answer, state = inet.run_by(text, [], 1_000_000)
    if (answer.status, answer.bytes.decode(), state.further) != (usual.status, "".join(lines[:-2]), count):
        wrong(name, "in turn", answer, state)
    if usual.status or count > 60:
        continue
    choices = []
    for _ in range(count):
        answer, state = inet.run_by(text, choices)
        if answer.status != 3 or state.chosen != len(choices) or state.further or state.pairs != len(re.findall(r" ~ ", answer.text)):
            wrong(name, choices, answer, state)
            break
        choices.append(chooser.randrange(state.pairs))
    answer, state = inet.run_by(text, choices)
    if (answer.status, answer.bytes.decode(), state.chosen, state.pairs) != (0, "".join(lines[:-2]), count, 0):
        wrong(name, choices, answer, state)
    half = choices[: count // 2]
    before, stood = inet.run_by(text, half)
    answer, state = inet.run_by(text, [*half, stood.pairs, 0], 5)
    if (answer, state) != (before._replace(status=2), stood):
        wrong(name, "no pair", answer, state)
with open(os.path.join(sys.argv[2], "sum.inet"), "rb") as file:
    text = file.read()
for choices, limit, cells in (([], 10**12 + 1, 16), ([], 0, 15), ([], 0, 1_048_577)):
    answer, state = inet.run_by(text, choices, limit, cells)
    if (answer.status, answer.bytes, *state) != (2, b"", 0, 0, 0, 0):
        wrong("sum", limit, cells, answer, state)
if inet.run_by("net", [])[0] != (1, b""):
    wrong("refused", inet.run_by("net", []))
"""


def choices(program, binding):
    """Runs whose pairs are chosen: each order that ends comes to what the program prints."""
    run = partial(program.run_command, [sys.executable, "-c", CHOOSES, PYTHON, EXAMPLES], b"", binding.shared)
    yield "Python: runs by choice", lambda: differing(run(), 0, b"")


def numbers(program, binding):
    """Limits and cells of a run, those out of range too."""
    for name, limit, cells in (("sum", 2, 65_536), ("sum", 0, 16), ("factorial", 1_000_000, 16), ("ackermann", 10**12, 1_048_576)):
        words = ["run", "--limit", str(limit), "--cells", str(cells)]
        yield f"Python: {name}: {' '.join(words)}", as_program(program, partial(binding.run, ["run", str(limit), str(cells)], text_of(name)), words, text_of(name))
    for limit, cells in ((10**12 + 1, 16), (0, 15), (0, 1_048_577), (2**64, 16), (0, 2**32 + 16)):
        run = partial(binding.run, ["run", str(limit), str(cells)], text_of("sum"))
        yield f"Python: limit {limit}, cells {cells}", answering(run, WRONG_WORDS, b"")


# All calls on a text beyond the usual limits, in one process: a line of JSON.
LARGER = """
import json, sys
sys.path.insert(0, sys.argv[1])
from inet import Inet
inet, text = Inet(), sys.stdin.buffer.read()
program = json.loads(inet.export(text, large=True).bytes)
steps = program["net"]["steps"]
print(json.dumps([inet.check(text).status, inet.check(text, large=True).text, inet.derive(text, large=True).status, inet.run(text, 10, large=True).status,
                  inet.run_by(text, [0], 10, large=True)[1], inet.refusal(text, large=True), inet.diagnose(text, large=True).text,
                  inet.diagnose_data(text, large=True), inet.verify(text, 1, steps, large=True), inet.verify(text, 1, steps[:-1], large=True)]))
"""


def larger(program, binding):
    """A net with more agents than are usually allowed."""
    made = net_agents(4_002)
    text = made.text.encode()
    run = partial(program.run_command, [sys.executable, "-c", LARGER, PYTHON], text, binding.shared)
    wanted = [REFUSED, made.line(), 0, 3, [1, 10, 1_990, 3_980], [0, None], "", [0, None], 0, WRONG_WORDS]
    yield "Python: a larger net", lambda: differing(run(), 0, (json.dumps(wanted) + "\n").encode())
    for words in COMMANDS:
        yield f"Python: --large {words[0]}", as_program(program, partial(binding.run, ["--large", *words], text), [*words, "--large"], text)


def wrong_without_memory(answer, usual):
    """What is wrong where one request for memory was refused: the usual answer is right, its diagnosis may be missing; so is running out of memory."""
    if (answer.status, answer.output) == (usual.status, usual.output):
        return None if answer.errors in (b"", usual.errors) else f"a part of a diagnosis: {answer.errors!r}"
    return None if answer.status == MEMORY and answer.output in (b"", b"memory\n") else str(answer)


def refused_memory(checker):
    """Each request for memory of the C program refused in turn. Its own standard output keeps a block."""
    refuser = Refuser(checker, gives_back=False)
    for name in WITHOUT_MEMORY:
        text = text_of(name)
        usual, counts = refuser.run([], text)
        for number in range(1, counts.memory + 1):
            trial = lambda text=text, usual=usual, number=number: wrong_without_memory(refuser.answer([], text, "memory", number), usual)
            yield f"C: check: {name}: memory refused at request {number}", trial


def by_threads(program, library):
    """Calls by eight threads at once: plainly, with the address sanitizer, and under valgrind; and the blocks of each call and each refused
    request."""
    every, some = (sorted(glob.glob(os.path.join(EXAMPLES, names))) for names in ("*.inet", FOR_VALGRIND))
    # By the large limits each answer has to be the same: only the usual ones refuse this example.
    every.remove(os.path.join(EXAMPLES, "right_member_too_large.inet"))
    counted = [os.path.join(EXAMPLES, f"{name}.inet") for name in COUNTED]
    plain = library.caller("threads")
    yield "blocks, each request refused", answering(partial(program.run_command, [plain, "blocks", *counted], b""), 0, b"")
    commands = {"plainly": ([plain], every)}
    if has_sanitizer(library):
        sanitized = library.caller("sanitized", "-fsanitize=address,undefined", "-fno-sanitize-recover=all")
        commands["address sanitizer"] = ([sanitized], every)
        yield "blocks, address sanitizer", answering(partial(program.run_command, [sanitized, "blocks", *counted[:2]], b""), 0, b"")
    if shutil.which("valgrind"):
        commands |= {f"valgrind: {what}": ([*words, plain], some) for what, words in VALGRIND.items()}
        few = [os.path.join(EXAMPLES, f"{name}.inet") for name in FEW_REQUESTS]
        yield "blocks, valgrind", answering(partial(program.run_command, [*VALGRIND["memory"], plain, "blocks", *few], b""), 0, b"")
    for what, (command, files) in commands.items():
        yield f"eight threads: {what}", answering(partial(program.run_command, [*command, "threads", *files], b""), 0, b"")


def printed(command, **more):
    """What a command prints, or why not."""
    ran = subprocess.run(command, capture_output=True, text=True, env={**os.environ, **more})
    return ran.stdout.strip() if not ran.returncode else f"status {ran.returncode}: {ran.stderr[-300:]}"


def wrong_installed(library):
    """What is wrong with what was installed: its files, the soname, the names that are exported, what pkg-config says."""
    files = sorted(os.path.relpath(path, library.path()) for path in glob.glob(library.path("**", "*.*"), recursive=True))
    wanted = ["include/inet.h", "lib/libinet.a", "lib/libinet.so", "lib/libinet.so.0", "lib/pkgconfig/inet.pc"]
    if files != wanted:
        return f"files {files}"
    shared = library.path("lib", "libinet.so")
    if "Library soname: [libinet.so.0]" not in printed(["readelf", "-d", shared]):
        return "another soname"
    exported = {line.split()[-1].split("@")[0] for line in printed(["nm", "-D", "--defined-only", shared]).splitlines() if " T " in line}
    with open(HEADER, encoding="utf-8") as header:
        declared = set(re.findall(r"^uint\d+_t (inet_\w+)\(", header.read(), re.MULTILINE))
    if exported != declared:
        return f"exported {exported}; declared: {declared}"
    if shutil.which("pkg-config"):
        said = printed(["pkg-config", "--cflags", "--libs", "inet"], PKG_CONFIG_PATH=library.path("lib", "pkgconfig"), PKG_CONFIG_ALLOW_SYSTEM_CFLAGS="1", PKG_CONFIG_ALLOW_SYSTEM_LIBS="1")
        return None if said.split() == ["-I/usr/include", "-L/usr/lib", "-linet"] else f"pkg-config: {said}"
    return None


def wrong_version(library):
    """What is wrong with the version, which has to be that of the programs."""
    with open(os.path.join(TOP, "crates", "in_version", "src", "lib.rt"), encoding="utf-8") as file:
        first, second, third = map(int, re.search(r'VERSION: &str = "(\d+)\.(\d+)\.(\d+)"', file.read()).groups())
    with open(HEADER, encoding="utf-8") as header:
        declared = int(re.search(r"#define INET_VERSION (\d+)", header.read()).group(1))
    return None if declared == first * 1_000_000 + second * 1_000 + third else f"the header has {declared}"


def wrong_header(library, compiler, *words):
    """What is wrong with the header by itself, for this compiler."""
    with tempfile.NamedTemporaryFile("w", suffix=".c" if compiler == "cc" else ".cc", dir=library.room) as file:
        file.write("#include <inet.h>\nint main(void) { return inet_version() != INET_VERSION; }\n")
        file.flush()
        made = os.path.join(library.room, f"header_{compiler}_{words[0][5:]}")
        built([compiler, *words, "-Wall", "-Wextra", "-pedantic", "-Werror", "-I", library.path("include"), file.name, library.path("lib", "libinet.a"), "-o", made], made)
    return None if not subprocess.run([made]).returncode else "another version"


def wrong_first(run, name, wanted):
    """What is wrong with a program of thirty lines on an example: its status, and a line that has to be in what it prints."""
    answer = run(text_of(name))
    status, line = wanted
    return None if answer.status == status and line in answer.output.splitlines() else str(answer)


def first_programs(program, library, shared):
    """The programs of thirty lines, in C, Python and, where cargo is, Rust."""
    first = library.program("first")
    runs = {"C": partial(first.run, [])}
    runs["Python"] = partial(Binding(program, shared, os.path.join(PYTHON, "first.py")).run, [])
    if shutil.which("cargo"):
        target = os.path.join(library.room, "rust")
        made = os.path.join(target, "debug", "examples", "first")
        words = ["cargo", "build", "--quiet", "--offline", "--example", "first", "--target-dir", target]
        built(words, made, os.path.join(TOP, "bindings", "rust"), INET_LIB_DIR=library.path("lib"))
        runs["Rust"] = partial(program_at(made, program.room).run, [])
    for language, run in runs.items():
        yield f"{language}: first: sum", partial(wrong_first, run, "sum", (0, b"sum = S(S(S(Z)))"))
        place = {"C": b"E13 at line 11, column 11: Add", "Python": b"line 11: this net is not semi-simple: a value in it is needed to compute itself", "Rust": b"E13 at line 11: Add"}
        yield f"{language}: first: refused", partial(wrong_first, run, "waits_for_itself", (1, place[language]))


def own_failures(program, checker, binding, shared):
    """The statuses of the programs for what is none of the library's: wrong words, streams that fail, no library."""
    text = text_of("sum")
    for words in ([], ["walk"], ["--large"], ["check", "--large"], ["check", "1"], ["run", "1e6"], ["run", "-1"], ["run", "1", "2", "3"]):
        yield f"Python: words {words}", partial(wrong_status, binding, words, text, WRONG_WORDS)
    yield "Python: no library", partial(wrong_status, Binding(program, os.path.join(TOP, "no such file")), ["check"], text, OWN_FAILURE)
    yield "Python: another library", partial(wrong_status, Binding(program, "libc.so.6"), ["check"], text, OWN_FAILURE)
    for name, command in (("C", [checker.path]), ("Python", [sys.executable, BINDING, "check"])):
        yield f"{name}: full output", partial(wrong_full, command, text, shared)


def wrong_status(binding, words, text, wanted):
    answer = binding.run(words, text)
    return None if answer.status == wanted and not answer.output and answer.errors and b"Traceback" not in answer.errors else str(answer)


def wrong_full(command, text, shared):
    with open(FULL_DEVICE, "wb") as full:
        ran = subprocess.run(command, input=text, stdout=full, stderr=subprocess.PIPE, env={**os.environ, "INET_LIBRARY": shared}, timeout=20)
    return None if ran.returncode == STREAM and not ran.stderr else f"status {ran.returncode}, {ran.stderr!r}"


def wrong_kept():
    """What is wrong with the kept library: where it is of these sources, it has to be what was built."""
    kept, made = (os.path.join(TOP, *names) for names in (("dist", "libinet-x86_64-linux.a"), ("crates", "in_c", "out", "libinet.a")))
    with open(os.path.join(TOP, "dist", "inet.from"), encoding="utf-8") as file:
        sums = dict(line.split(maxsplit=1) for line in file.read().splitlines())
    if not os.path.exists(kept) or sums.get("library") != printed([LIBRARY, "sources"]) or not is_current():
        return None
    with open(kept, "rb") as one, open(made, "rb") as other:
        return None if one.read() == other.read() else "dist/libinet-x86_64-linux.a isn't what was built of the same sources"


def library(program):
    """All of these."""
    made = Library(os.path.join(program.room, "library"))
    shared = made.path("lib", "libinet.so.0")
    checker, binding = made.program("check"), Binding(program, shared)
    yield from by_threads(program, made)
    yield "installed", partial(wrong_installed, made)
    yield "version", partial(wrong_version, made)
    for compiler, standard in (("cc", "-std=c89"), ("cc", "-std=c17"), ("c++", "-std=c++17")):
        if shutil.which(compiler):
            yield f"the header by {compiler} {standard}", partial(wrong_header, made, compiler, standard)
    yield "kept", wrong_kept
    yield from first_programs(program, made, shared)
    yield from own_failures(program, checker, binding, shared)
    yield from beside_program(program, checker, binding)
    yield from numbers(program, binding)
    yield from choices(program, binding)
    yield from larger(program, binding)
    yield from refused_memory(checker)
