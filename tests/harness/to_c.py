"""`tools/to_c.py`: what a compiled program prints is what `inet run` prints, text, count and status.

That is tried on the accepted examples, the rows that end normally, generated programs, random programs of `tools/compile.py`, and on nets made
for it: wires between free ends, wires from an agent of a pair back to itself, many ports. All that ends is tried in any order; with one worker
and `--order queue` what is left at a limit has to be the same too. A program is compiled in each form in turn: all rules in one function, or each
in its own; as it is, or so that several workers give pairs away after each interaction, and part and meet again and again (`-DSTRESS
-DSLICE=1`), and end at once where one of them looked at all its ends and missed one; one in seven by clang, where it is there. Each runs with one
to four workers.

Generated programs with the same rules are compiled once, and their nets are read. Lines of nets that are changed by chance have to be refused, by
a program with the sanitizers, where `tools/nets.py` and `tools/steps.py` refuse them, and nowhere else.
"""
import copy
import itertools
import json
import os
import random
import shutil
import subprocess
import sys
from functools import partial

from harness import compiled, generated
from harness.export import BUILT, TOOLS, by_tool
from harness.large import LARGE
from harness.parts import accepted_texts
from harness.programs import ACCEPTED, EXAMPLES, HERE, LIMIT, MEMORY, REFUSED, STREAM, WRONG_WORDS, Answer, Program, differing, failing, text_of
from harness.streams import closed_pipe

sys.path.insert(0, TOOLS)
import compile as compiler  # noqa: E402  (the tools stand beside the tests)
import nets  # noqa: E402
import steps  # noqa: E402
import streams  # noqa: E402
import to_c as tool  # noqa: E402

SCRIPT = os.path.join(HERE, "..", "..", "inet_c")
GENERATED = 300
# Random programs of `tools/compile.py`; and nets that are changed by chance, of each program that is taken for that.
RANDOM = 150
CHANGED = 60
WORKERS = (1, 2, 3, 4)
# Interactions of a run of `inet` that is compared, and its cells.
MOST = 1_000_000
CELLS = 1_048_576
SANITIZERS = ["-O0", "-g", "-fsanitize=address,undefined", "-fno-sanitize-recover=all"]
THREADS = ["-O0", "-g", "-fsanitize=thread"]
# A C compiler for aarch64, and what runs its programs.
ARM, EMULATOR = "aarch64-linux-gnu-gcc", "qemu-aarch64"
# What a sanitizer tells has one of these in it.
TOLD = (b"Sanitizer", b"runtime error")
# Workers that disturb each other as often as they can.
STRESS = ["-DSTRESS", "-DSLICE=1"]
# Forms of the code, and words for the C compiler, by turns.
FORMS = [{"functions": functions, "order": order} for functions in ("one", "each") for order in ("newest", "queue")]
# In Pass >< Swap a path leads through each of the four classes, where both ports of a class may be joined outside.
LOOPS = """type nat;
symbol Z : nat+; symbol S : nat+ {nat-}; symbol Era : nat-;
symbol Pass : nat+ {nat-, nat+} {nat-, nat+}; symbol Swap : nat- {nat-, nat+} {nat-, nat+};
symbol Wide : nat+ {nat-, nat-, nat-, nat-, nat-, nat-, nat-, nat-, nat+, nat+, nat+, nat+, nat+, nat+, nat+, nat+};
rule Z[] >< Era[]; rule S[Era] >< Era[]; rule Pass[Era, Z, Era, S(Z)] >< Era[];
rule Wide[Era, Era, Era, Era, Era, Era, Era, Era, Z, S(Z), Z, S(Z), Z, S(Z), Z, S(S(Z))] >< Era[];
rule Z[] >< Swap[Era, Z, Era, S(Z)]; rule S[Swap(z, w, x, y)] >< Swap[x, y, z, w];
rule Pass[a, b, Era, e] >< Swap[e, a, b, Z] with { S(Z) ~ Era; };
rule Wide[a, Era, b, Era, c, Era, Era, Era, Z, Z, Z, Z, Z, Z, Z, S(e)] >< Swap[Era, a, e, S(f)] with { b ~ Era; c ~ Era; f ~ Z; };
"""
LINKED, LINKED_TOO = (", ".join(f"{name}{number}" for number in (1, 2, 3, 4, 5, 6, 7, 8, 6, 7, 8, 1, 2, 3, 4, 5)) for name in "st")
# Nets with wires of every kind.
NETS = {
    "no net": "net () { }",
    "two free ends": "net (a : nat+, b : nat-) { a ~ b; }",
    "free ends of many kinds": "net (a : nat+, b : nat-, c : nat+, d : nat-) { a ~ b; c ~ S(d); }",
    "wires of a constructor": "net (a : nat+) { a ~ Pass(x, x, y, y); }",
    "wires of a destructor": "net (a : nat-) { a ~ Swap(x, x, y, y); }",
    "a pair with wires back": "net () { Pass(x, x, y, y) ~ Swap(p, p, q, q); }",
    "a pair with some wires back": "net (a : nat+, b : nat+, c : nat-) { Pass(Z, a, y, y) ~ Swap(c, b, q, q); }",
    "a pair with other wires back": "net (a : nat+, b : nat+, c : nat-) { Pass(y, y, c, a) ~ Swap(q, q, S(Z), b); }",
    "steps with wires back": "net () { S(S(S(Pass(x, x, y, y)))) ~ Swap(p, p, q, q); }",
    "values on wires": "net (a : nat+, b : nat+) { Pass(S(Z), a, x, x) ~ Swap(y, y, S(S(Z)), b); }",
    "values that meet": "net () { Pass(S(Z), Era, S(Z), Era) ~ Swap(S(S(Z)), Era, Z, Swap(p, p, q, q)); }",
    "sixteen ports with wires back": f"net () {{ Wide({LINKED}) ~ Era; Wide({LINKED_TOO}) ~ Era; }}",
    "sixteen ports": "net (a : nat+, b : nat+, c : nat-) { Wide(Z, S(Z), c, s, t, u, v, Z, s, t, u, v, a, b, Era, Era) ~ Era; }",
    "sixteen ports and wires back": f"net (a : nat+) {{ Wide({LINKED}) ~ Swap(p, p, S(Z), a); Wide({LINKED_TOO}) ~ Swap(p1, p1, q1, q1); }}",
}
# One that takes more and more memory.
ENDLESS = b"""type nat; type go; symbol S : nat+ {nat-}; symbol Go : go+; symbol Count : go- {nat+};
rule Go[] >< Count[S(r)] with { Go ~ Count(r); };
net (a : nat+, b : nat+, c : nat+) { Go ~ Count(a); Go ~ Count(b); Go ~ Count(c); }"""
# Rules of which each symbol has sixteen ports, in one class.
PORTS = "{" + ", ".join(["n-"] * 8 + ["n+"] * 8) + "}"
MANY_PORTS = (
    "type n; type t; symbol Z : n+; symbol Era : n-; rule Z[] >< Era[];\n"
    + "".join(f"symbol C{i} : t+ {PORTS}; symbol D{i} : t- {PORTS};\n" for i in range(4))
    + "".join(f"rule C{i}[{values}] >< D{j}[{values}];\n" for values in [", ".join(["Era"] * 8 + ["Z"] * 8)] for i in range(4) for j in range(4))
    + "net () { " + " ".join(
        f"C{k}({', '.join(f'a{k}_{place % 8}' for place in range(16))}) ~ D{3 - k}({', '.join(f'b{k}_{place * 3 % 8}' for place in range(16))});" for k in range(4)
    ) + " }\n"
)
# Programs with nothing to compile.
BARE = {"no symbol": "net () { }", "no rule": "type nat; symbol Z : nat+; net (a : nat+) { a ~ Z; }"}
WRONG = (
    ["--limit"], ["--limit", "-1"], ["--limit", "x"], ["--limit", "1000000000001"], ["--limit="], ["--limit", "1", "--limit", "1"], ["--cells", "2"],
    ["--workers"], ["--workers", "0"], ["--workers", "65"], ["--workers=x"], ["one.json", "other.json"], ["--limits"],
)


class CompiledPrograms:
    """Programs that are compiled in a folder of the tests."""

    def __init__(self, program, name="to_c"):
        self.program = program
        self.room = os.path.join(program.room, name)
        os.mkdir(self.room)
        self.exporter = Program(BUILT, self.room)
        self.clang = shutil.which("clang") or "cc"

    def built(self, name, code, compiler, words):
        """The program of this C text, as a path."""
        source, made = (os.path.join(self.room, f"{name}{ending}") for ending in (".c", ""))
        with open(source, "wb") as file:
            file.write(code)
        command = [compiler, "-std=c11", "-pthread", "-Wall", "-Wextra", "-pedantic", "-Werror", *words, "-o", made, source]
        ran = subprocess.run(command, stdout=subprocess.PIPE, stderr=subprocess.STDOUT)
        if ran.returncode:
            raise RuntimeError(f"{compiler}: {ran.stdout[:500]!r}")
        return made

    def line(self, text, words=()):
        """The exported line of a text."""
        exported = self.exporter.run([*words], text)
        if exported.status != ACCEPTED:
            raise RuntimeError(f"not exported: {exported}")
        return exported.output

    def code(self, text, order="newest", functions="usual", by_mpi=False, words=()):
        """The C text of a program."""
        data = json.loads(self.line(text, words))
        nets.check_form(data)
        program = nets.Program(data)
        tool.check(program)
        return tool.Compiler(program, order, functions, by_mpi).text().encode()

    def compiled(self, name, text, form=(), compiler="cc", words=("-O1",)):
        """The compiled program of a text."""
        return self.built(name, self.code(text, **dict(form)), compiler, words)

    def has_sanitizers(self, words):
        """Whether the C compiler has them."""
        try:
            return bool(self.built("sanitized", b"int main(void) { return 0; }", "cc", words))
        except RuntimeError:
            return False

    def wrong_answer(self, command, text, limit, workers, is_queue, net=(), usual=None):
        """What is wrong with one run of a compiled program. At a limit the net is that of `inet run` in the order of a queue alone."""
        found, usual = self.program.run_command([*command, f"--limit={limit}", "--workers", str(workers), *net], b""), usual or self.inet(text, MOST)
        count = count_of(usual)
        if limit < count and not (is_queue and workers == 1):
            same = found.status == LIMIT and found.output.endswith(b"interactions: %d\nstop: limit\n" % limit)
            wrong = None if same else f"{found}; not stopped at the limit"
        else:
            wanted = usual if limit >= count and usual.status == ACCEPTED else self.inet(text, limit)
            wrong = differing(found, wanted.status, wanted.output)
        return f"limit {limit}, {workers} workers: {wrong} {found.errors[:2000]!r}" if wrong or found.errors else None

    def wrong_runs(self, command, text, is_queue, net=(), limits=(0, 1, 3), teams=WORKERS):
        """What is wrong with runs of a compiled program: to the end by so many workers, and at limits."""
        usual = self.inet(text, MOST)
        if usual.status not in (ACCEPTED, LIMIT):
            return f"not to be compared: {usual}"
        count = count_of(usual)
        stops = sorted({*limits, count // 2, max(count - 1, 0), count})
        runs = [*((MOST, workers) for workers in teams), *zip(stops, itertools.cycle(WORKERS))]
        return next(filter(None, (self.wrong_answer(command, text, limit, workers, is_queue, net, usual) for limit, workers in runs)), None)

    def wrong_run(self, name, number, text, words=(), teams=WORKERS):
        """What is wrong with a program that is compiled in one form, with one in two under stress, and one in nine optimised."""
        form = FORMS[number % len(FORMS)]
        stress = STRESS if number // len(FORMS) % 2 else []
        usual = ["-O0" if number % 9 else "-O1"]
        path = self.compiled(name, text, form, self.clang if number % 7 == 3 else "cc", [*(words or usual), *stress])
        wrong = self.wrong_runs([path], text, form["order"] == "queue", teams=teams)
        os.remove(path)
        return wrong

    def wrong_nets(self, name, number, programs):
        """What is wrong with nets that are read: programs with the same rules, of which the first one is compiled, as it is and under stress."""
        form = FORMS[number % len(FORMS)]
        paths = [self.compiled(f"{name}{kind}", programs[0], form, words=words) for kind, words in (("", ["-O1"]), ("stress", ["-O0", *STRESS]))]
        file = os.path.join(self.room, f"{name}.json")
        for which, text in enumerate(programs):
            with open(file, "wb") as line:
                line.write(self.line(text))
            wrong = self.wrong_runs([paths[which % 2]], text, form["order"] == "queue", [file], (), (1, 2 + which % 3))
            if wrong:
                return f"net {which}: {wrong}"
        for path in paths:
            os.remove(path)
        return None

    def inet(self, text, limit):
        return self.program.run(["run", "--limit", str(limit), "--cells", str(CELLS)], text)


def count_of(answer):
    """The number of interactions of a run."""
    return int(answer.output.rsplit(b"\n", 3)[-3].split()[1])


def nets_by_rules():
    """Generated programs, those with the same rules together."""
    kinds, found = list(generated.SMALL), {}
    for number in range(GENERATED):
        text = generated.program(generated.SMALL[kinds[number % len(kinds)]](random.Random(number)))
        found.setdefault(text[: text.rindex("net (")], []).append(text.encode())
    return list(found.values())


def texts():
    """The texts that are compared, with their names."""
    for name, text, _ in accepted_texts():
        yield name, text
    for name, net in NETS.items():
        yield name, (LOOPS + net).encode()
    yield from ((name, text.encode()) for name, text in BARE.items())
    yield "rules with sixteen ports and wires back", MANY_PORTS.encode()
    for seed in range(RANDOM):
        text = compiled.Generator(seed).program()
        if compiled.value_in(text):
            yield f"random program {seed}", compiler.compiled(text, "a test").encode()


def many_rules(count):
    """A program with so many constructors and destructors, one more each, and a rule for each two."""
    names = range(count)
    symbols = [f"symbol C{i} : t+ {{t-}}; symbol D{i} : t- {{t+}};" for i in names]
    rules = [
        f"rule C{i}[r] >< D{j}[r];" if (i + j) % 7 == 0 else f"rule C{i}[D{(i + 3 * j) % count}(r)] >< D{j}[C{(i * j + 1) % count}(r)];"
        for i in names for j in names
    ]
    ends = [f"rule E[] >< D{j}[E];" for j in names]
    net = "".join(f"C{5 * k % count}(" for k in range(60)) + "E" + ")" * 60
    meets = "; ".join([f"{net} ~ D0(d0)", *(f"d{j} ~ D{(j + 1) % count}(d{j + 1})" for j in range(20))])
    return "\n".join(["type t; symbol E : t+;", *symbols, *rules, *ends, f"net (end : t+) {{ {meets}; end ~ d20; }}"]).encode()


def limits(constructors, destructors, others):
    """A program with so many constructors and destructors of sixteen ports each, and a rule for each two: every other right member has 64 agents, and
    most others a pair with sixteen ports each. With 64, 63 and 62 it has 512 symbols and 4,096 rules: so it is at all limits at once."""
    listed = ",".join
    ports = lambda sign: "{" + "}{".join([f"n{sign}"] * 16) + "}"
    values, names = "abcdefghijklmnop", "qrstuvwxyzABEFGH"
    symbols = [f"symbol C{i}:t+{ports('-')};" for i in range(constructors)] + [f"symbol D{j}:t-{ports('+')};" for j in range(destructors)]
    symbols += [f"symbol U{i}:u+{ports('-')};" for i in range(others)] + ["symbol V:u-;symbol Z:n+;symbol S:n+{n-};symbol R:n-;"]
    symbols += [f"symbol W{i}:w+{ports('-')};" for i in range(508 - constructors - destructors - others)]
    rules = []
    for i, j in itertools.product(range(constructors), range(destructors)):
        heads = f"rule C{i}[{{}}]><D{j}[{{}}]"
        if (i + j) % 2:
            rules.append(heads.format(listed("R" * 16), listed(["S(S(Z))"] * 16)) + ";")
        elif i and j:
            pair = f"C{i - 1}({listed(values[1:] + values[0])})~D{j - 1}({listed(names[::-1])});"
            rules.append(heads.format(listed(values), listed(names)) + f"with{{{pair}}};")
        else:
            rules.append(heads.format(listed(values), listed(values)) + ";")
    rules += [f"rule U{i}[{listed('R' * 16)}]><V[];" for i in range(others)] + ["rule Z[]><R[];rule S[R]><R[];"]
    ends = [f"k{k}" for k in range(16)]
    net = f"C{constructors - 2}({listed('Z' * 16)})~D{destructors - 2 + (constructors + destructors) % 2}({listed(ends)});U0({listed('Z' * 16)})~V;"
    return "\n".join(["type t;type n;type u;type w;", *symbols, *rules, f"net({listed(f'{end}:n+' for end in ends)}){{{net}}}"]).encode()


def wrong_limits(made):
    """What is wrong with a program of as many symbols, ports and agents in a right member as there may be, and a sixteenth of as many rules."""
    text = limits(16, 15, 14)
    path = made.compiled("limits", text, words=["-O0"])
    return made.wrong_runs([path], text, False)


def many_symbols(types):
    """A program with three symbols in each of so many types: what one destructor gives, the one of the next type takes."""
    names = range(types)
    declared = [f"type t{i};" for i in names] + [f"symbol C{i} : t{i}+; symbol D{i} : t{i}- {{t{(i + 1) % types}+}}; symbol E{i} : t{i}-;" for i in names]
    rules = [f"rule C{i}[] >< D{i}[C{(i + 1) % types}]; rule C{i}[] >< E{i}[];" for i in names]
    meets = " ".join(f"d{i} ~ D{i}(d{i + 1});" for i in range(1, types - 1))
    return "\n".join([*declared, *rules, f"net (end : t{types - 1}+) {{ C0 ~ D0(d1); C1 ~ E1; {meets} end ~ d{types - 1}; }}"]).encode()


def many_free_names(count):
    """A program whose net has so many free ends, each with a number of its own that was copied."""
    ends = range(count // 2)
    net = " ".join(f"{generated.unary(i % 3)} ~ Dup(a{i}, b{i});" for i in ends)
    return f"{generated.NUMBERS}net ({', '.join(f'a{i} : nat+, b{i} : nat+' for i in ends)}) {{ {net} }}".encode()


def many_agents(pairs, in_member):
    """A program whose net, or one right member, has so many pairs of two agents."""
    rules = "type u; symbol A : u+; symbol B : u-; " + generated.NUMBERS
    met = "Z ~ Era; " * pairs
    return (f"{rules}rule A[] >< B[] with {{ {met}}};\nnet () {{ A ~ B; A ~ B; }}" if in_member else f"{rules}rule A[] >< B[];\nnet () {{ {met}}}").encode()


# Programs past one usual limit each, which the option --large allows.
LARGER = {
    "513 symbols": partial(many_symbols, 171), "4,160 rules": partial(many_rules, 64), "258 free names": partial(many_free_names, 258),
    "4,002 agents": partial(many_agents, 2_001, False), "66 agents of a right member": partial(many_agents, 33, True),
    "1,024 agents of a right member": partial(many_agents, 512, True),
}


def wrong_larger(made, number, text):
    """What is wrong with a program past a usual limit, with one worker and with several under stress."""
    if made.program.run(["check"], text).status != REFUSED:
        return "it is within the usual limits"
    wanted = made.program.run(["run", LARGE, "--limit", str(MOST), "--cells", str(CELLS)], text)
    path = made.built(f"larger{number}", made.code(text, words=[LARGE]), "cc", ["-O0", *STRESS])
    return differing(wanted, ACCEPTED, wanted.output) or made.wrong_answer([path], text, MOST, 1, False, usual=wanted) or made.wrong_answer([path], text, MOST, 3, False, usual=wanted)


def wrong_memory(made):
    """What is wrong where memory runs out: there is one line, however much there was, and of however many workers."""
    path = made.compiled("memory", ENDLESS, words=["-O1", "-DSTRESS"])
    for room, workers in itertools.product((4_000, 8_000, 20_000, 60_000, 200_000), (1, 4)):
        command = ["sh", "-c", f'ulimit -v {room}; exec "$@"', "sh", path, "--limit", "1000000000000", "--workers", str(workers)]
        wrong = differing(made.program.run_command(command, b""), MEMORY, b"memory\n")
        if wrong:
            return f"{room} kB, {workers} workers: {wrong}"
    return None


def wrong_depth(made):
    """What is wrong with a number of two hundred thousand: it is printed with a C stack of 64 kB."""
    equations = [*generated.long_number(200_000, "number"), "deep ~ number"]
    text = generated.program(generated.Piece([generated.NUMBERS], equations, ["deep : nat+"])).encode()
    path = made.compiled("deep", text)
    answer = made.program.run_command(["sh", "-c", 'ulimit -s 64; exec "$@"', "sh", path], b"")
    wanted = made.inet(text, MOST)
    return differing(answer, wanted.status, wanted.output)


def wrong_words(program, path, words):
    answer = program.run_command([path, *words], b"")
    return differing(answer, WRONG_WORDS, b"") or (None if answer.errors.startswith(b"error: ") else f"told: {answer.errors!r}")


def into(program, path, kind):
    """What a compiled program answers where its standard output takes nothing."""
    if kind == "closed":
        return program.run_command(["sh", "-c", 'exec "$@" >&-', "sh", path], b"")
    if kind == "full":
        with open("/dev/full", "wb") as device:
            return program.run_command([path], b"", stdout=device)
    writer = closed_pipe()
    try:
        return program.run_command([path], b"", stdout=writer)
    finally:
        os.close(writer)


# What makes the line of examples/sum.inet one that no accepted program has.
ALTERED = {
    "another format": lambda data: data.update(format=2),
    "a rule left out": lambda data: data["rules"].pop(),
    "a step left out": lambda data: data["net"]["steps"].pop(),
    "another step": lambda data: data["rules"][0]["steps"].__setitem__(0, ["empty"]),
    "too many ports": lambda data: data["symbols"].append({"name": "Wide", "ports": [{"type": 0, "output": False, "class": min(k, 1)} for k in range(18)]}),
}


def wrong_altered(line, change):
    """What is wrong where a line is altered: no code is made of it, and a reason is told."""
    data = json.loads(line)
    change(data)
    answer = by_tool("to_c.py", [], json.dumps(data).encode())
    return differing(answer, REFUSED, b"") or (None if answer.errors and b"Traceback" not in answer.errors else f"told: {answer.errors!r}")


def changed(data, chance):
    """A line of which the net is changed in one place, or in two."""
    data = copy.deepcopy(data)
    for _ in range(chance.choice((1, 1, 1, 2))):
        lists = []
        todo = [data["net"]]
        while todo:
            item = todo.pop()
            todo += item.values() if isinstance(item, dict) else item if isinstance(item, list) else []
            lists += [item] if isinstance(item, list) and item else []
        items = chance.choice(lists)
        place = chance.randrange(len(items))
        kind = chance.randrange(6)
        if kind == 0:
            del items[place]
        elif kind == 1:
            items.insert(place, copy.deepcopy(chance.choice(items)))
        elif kind == 2:
            other = chance.randrange(len(items))
            items[place], items[other] = items[other], items[place]
        elif isinstance(items[place], int):
            items[place] = max(0, items[place] + chance.choice((-1, 1, -2, 2, 5, 1 << 20, 1 << 31, 1 << 40)))
        elif isinstance(items[place], dict):
            items[place]["output"] ^= True
        elif isinstance(items[place], str):
            items[place] = chance.choice(("empty", "link", "given", "graft", "cut", "mix"))
        else:
            items[place] = chance.choice(([], [0], [0, 0], ["empty"], 0, copy.deepcopy(chance.choice(items))))
    return data


def is_sound(data):
    """Whether the tools take the net of a line."""
    try:
        nets.check_form(data)
        steps.check_steps(nets.Program(data), data["net"])
        return True
    except (streams.Refused, steps.Wrong, LookupError, TypeError, ValueError, AttributeError):
        return False


def wrong_lines(made, name, text):
    """What is wrong with what a program with sanitizers says of lines that are changed: by chance, and by bytes."""
    path = made.compiled(name, text, words=[*SANITIZERS, *STRESS])
    line = made.line(text)
    data, chance, file = json.loads(line), random.Random(name), os.path.join(made.room, f"{name}.json")
    lines = []
    for _ in range(CHANGED):
        other = changed(data, chance)
        lines.append((json.dumps(other, ensure_ascii=False, separators=(",", ":")).encode(), is_sound(other)))
    begin = line.index(b'"net":') + len(b'"net":')
    for _ in range(CHANGED // 2):
        place = chance.randrange(begin, len(line))
        lines.append((line[:place], False))
        lines.append((line[:place] + bytes([chance.randrange(256)]) + line[place:], None))
        other = chance.choice((b"[", b"]", b"0", b"9" * 30, b"-1", b",", b" ", b'"', b"\\"))
        lines.append((line[:place] + other + line[place + 1:], None))
    for other, sound in lines:
        with open(file, "wb") as there:
            there.write(other)
        answer = made.program.run_command([path, file, "--workers", "2", "--limit", "1000"], b"")
        taken = answer.status in (ACCEPTED, LIMIT)
        told = answer.errors.startswith(b"error: ") if answer.status == REFUSED else not answer.errors and taken
        if any(word in answer.errors for word in TOLD) or not told or sound not in (None, taken):
            return f"{answer} {answer.errors[:1000]!r} for {other[begin:]!r}"
    return None


def wrong_net(program, path, words, data, status):
    """What is wrong with the end of a run on a net that is none, or can't be read."""
    answer = program.run_command([path, *words], data)
    return differing(answer, status, b"") or (None if answer.errors.startswith(b"error: ") and b"\n" in answer.errors else f"told: {answer.errors!r}")


def wrong_threads(made, name, text, workers):
    """What ThreadSanitizer finds in a run under stress, or what is wrong with it."""
    path = made.compiled(name, text, words=[*THREADS, *STRESS])
    for count in workers:
        wrong = made.wrong_answer([path], text, MOST, count, False)
        if wrong:
            return wrong
    return None


def wrong_arm(made, number, text):
    """What is wrong with a program that is compiled for aarch64, and run by an emulator."""
    form = FORMS[number % len(FORMS)]
    path = made.compiled(f"arm{number}", text, form, ARM, ["-O0", "-static", *(STRESS if number % 2 else [])])
    return made.wrong_runs([EMULATOR, path], text, form["order"] == "queue", limits=(0,), teams=(1, 3))


def wrong_script(program, words, wanted, kept):
    """What is wrong with `./inet_c`, called twice: the second time what was compiled is kept."""
    for _ in range(2):
        answer = program.run_command([SCRIPT, *words], b"", {"INET_C_KEPT": kept})
        wrong = differing(answer, wanted.status, wanted.output)
        if wrong:
            return f"{wrong} {answer.errors!r}"
    return None


def by_script(program, room):
    """Calls of `./inet_c`."""
    path = lambda name: os.path.join(EXAMPLES, f"{name}.inet")
    for name, words in (("sum", []), ("sum", ["--limit", "2"]), ("used_three_times", []), ("waits_for_itself", ["--limit", "2"])):
        checked = program.run(["check"], text_of(name))
        wanted = program.run(["run", *words], text_of(name)) if checked.status == ACCEPTED else checked
        for order in ([], ["--order", "queue"]):
            yield f"./inet_c: {name} {' '.join([*order, *words])}", partial(wrong_script, program, [*order, path(name), *words], wanted, os.path.join(room, "kept"))
    larger = os.path.join(room, "larger.inet")
    with open(larger, "wb") as file:
        file.write(many_agents(2_001, False))
    for words, large in ((["--limit", "2000"], [LARGE]), ([], [LARGE]), ([], [])):
        wanted = program.run(["run" if large else "check", *large, *words], many_agents(2_001, False))
        yield f"./inet_c: {' '.join([*large, 'a larger program', *words])}", partial(wrong_script, program, [*large, larger, *words], wanted, os.path.join(room, "kept"))
    for words in ([], ["--order"], [LARGE], ["--order", "x", path("sum")], ["--limit", "2", path("sum")], [path("sum"), "--cells", "16"]):
        yield f"./inet_c: {' '.join(words)}", partial(wrong_script, program, words, Answer(WRONG_WORDS, b""), os.path.join(room, "kept"))
    for word in ("-h", "--help"):
        yield f"./inet_c: {word}", lambda word=word: None if LARGE.encode() in program.run_command([SCRIPT, word], b"").output else "no help"
    yield "./inet_c: no file", partial(wrong_script, program, [path("no_such_file")], Answer(STREAM, b""), os.path.join(room, "kept"))


# Programs on which ThreadSanitizer looks.
WATCHED = [
    generated.fibonacci(9), generated.tree_summed(6), generated.tree_summed_in_binary(6), generated.jobs(4, 5), generated.sorting_network(4),
    generated.pipeline(20, 6), generated.lists([1, 2, 0, 3], [2, 2]), generated.ackermann(2, 3), generated.bush_eaten(4, 16, 3),
]
# Longer runs, in which all workers begin by themselves.
LONG = [
    generated.fibonacci(24), generated.jobs(10, 9), generated.sorting_network(10), generated.tree_summed_in_binary(16), generated.pipeline(1_000, 40),
    generated.turns(1_000, 500), generated.bush(13, 64), generated.list_reversed(1_000),
]


def watched():
    """What the sanitizers of threads are tried on."""
    yield from (generated.program(piece).encode() for piece in WATCHED)
    yield (LOOPS + NETS["steps with wires back"]).encode()


def to_c(program):
    made = CompiledPrograms(program)
    yield "memory", partial(wrong_memory, made)
    yield "a deep net", partial(wrong_depth, made)
    for number, form in enumerate(FORMS):
        yield f"many rules: {' '.join(form.values())}", partial(made.wrong_run, f"many{number}", number, many_rules(12), ("-O0",), (1, 3))
    yield "four thousand rules", partial(made.wrong_run, "thousands", 3, many_rules(63), ("-O0",), (1, 2))
    yield "512 symbols with sixteen ports", partial(wrong_limits, made)
    for number, (name, text) in enumerate(LARGER.items()):
        yield f"larger: {name}", lambda number=number, text=text: wrong_larger(made, number, text())
    if made.has_sanitizers(THREADS):
        for number, text in enumerate(watched()):
            yield f"threads, program {number}", partial(wrong_threads, made, f"threads{number}", text, (2 + number % 3, 4))
    if made.has_sanitizers(SANITIZERS):
        for number in range(2 * len(FORMS)):
            text = (LOOPS + NETS["sixteen ports and wires back"]).encode() if number % 2 else generated.program(generated.sorting_network(3)).encode()
            yield f"sanitizers, form {number}", partial(made.wrong_run, f"sanitized{number}", number, text, SANITIZERS, (1, 4))
        for name, text in (("sum", text_of("sum")), ("word", text_of("word")), ("values", (LOOPS + NETS["values on wires"]).encode())):
            yield f"lines that are changed: {name}", partial(wrong_lines, made, f"lines_{name}", text)
    if shutil.which(ARM) and shutil.which(EMULATOR):
        for number, text in enumerate([*map(text_of, ("sum", "word")), *itertools.islice(watched(), 2, 6)]):
            yield f"aarch64, program {number}", partial(wrong_arm, made, number, text)
    for number, piece in enumerate(LONG):
        yield f"long run {number}", partial(made.wrong_run, f"long{number}", 8 * number, generated.program(piece).encode(), ("-O1",), (1, 2, 4))
    for number, programs in enumerate(nets_by_rules()):
        yield f"nets that are read, rules {number}", partial(made.wrong_nets, f"nets{number}", number, programs)
    for number, (name, text) in enumerate(texts()):
        teams = WORKERS if number < 40 else (1, 2 + number % 3)
        yield f"{name}: program {number}", partial(made.wrong_run, number, number, text, teams=teams)
    path = made.compiled("words", text_of("sum"))
    for words in WRONG:
        yield f"words: {' '.join(words)}", partial(wrong_words, program, path, words)
    for kind in ("closed", "full", "a pipe without a reader"):
        yield f"standard output: {kind}", failing(partial(into, program, path, kind), "output")
    line = made.line(text_of("sum"))
    yield "a net from standard input", lambda: differing(program.run_command([path, "-"], line), ACCEPTED, program.run(["run"], text_of("sum")).output)
    others = {
        "no line": b"",
        "another program": made.line(text_of("word")),
        "a refused one": made.exporter.run([], text_of("used_three_times")).output,
        "another format": line.replace(b'"format":1', b'"format":2'),
        "two lines": line + line,
    }
    for name, data in others.items():
        yield f"a net: {name}", partial(wrong_net, program, path, ["-"], data, REFUSED)
    yield "a net: no file", partial(wrong_net, program, path, ["/nowhere/net.json"], b"", STREAM)
    yield "a net: a folder", partial(wrong_net, program, path, ["/"], b"", STREAM)
    for name, change in ALTERED.items():
        yield f"a line with {name}", partial(wrong_altered, line, change)
    yield from by_script(program, made.room)
