"""`tools/compile.py`: its examples, random programs, whose value `inet run` must come to, deep and faulty ones, and what is said of these.

Of the net of a random program the steps are checked too, as `inet_export` writes them, and it is reduced in a random order by `tools/nets.py`.

A random program has functions of several types that call themselves, each other and those before, and begin by a match or don't; each call
within a group of functions has a part of what was matched, so that all come to an end.
"""
import json
import os
import random
import sys
from functools import partial

from harness.export import BUILT, TOOLS, by_tool
from harness.programs import ACCEPTED, EXAMPLES, HERE, LIMIT, REFUSED, Program, differing, shortened

sys.path.insert(0, TOOLS)
import compile as compiler  # noqa: E402  (the tools stand beside the tests)
import functions  # noqa: E402
import nets  # noqa: E402
import steps  # noqa: E402

sys.setrecursionlimit(compiler.streams.MOST_CALLS)
ENDING = ".fun"
# So many random programs; the calls and the size of a value beyond which one isn't tried, and the interactions and cells that a run has.
PROGRAMS = 150
MOST_CALLS, MOST_SIZE = 2_000, 5_000
RUN = ["run", "--limit", "2000000", "--cells", "200000"]
WORKERS = (1, 2, 64)
# A run of more interactions isn't done by tools/nets.py, which is slow.
FEW_INTERACTIONS = 2_000
DATA = {
    "nat": [("Z", ()), ("S", ("nat",))],
    "bool": [("F", ()), ("T", ())],
    "list": [("Nil", ()), ("Cons", ("nat", "list"))],
    "tree": [("Leaf", ()), ("Node", ("tree", "nat", "tree"))],
    "pair": [("Pair", ("list", "nat"))],
    "many": [("Many", ("nat", "bool", "list", "tree", "nat", "pair", "nat", "nat", "bool"))],
}
DECLARED = "".join(f"(data {kind} {' '.join(f'({name} {chr(32).join(fields)})' if fields else name for name, fields in forms)})\n" for kind, forms in DATA.items())


def applied(name, parts):
    return f"({name} {' '.join(parts)})" if parts else name


class Generator:
    """Makes a program by chance."""

    def __init__(self, seed):
        self.chance, self.known, self.count = random.Random(seed), [], 0

    def name(self):
        """A variable's name: often one that is there already."""
        self.count += 1
        return self.chance.choice("abcxyz") if self.chance.random() < 0.5 else f"v{self.count}"

    def expression(self, kind, scope, depth, smaller):
        """An expression of a type; `smaller` has functions that may be called with a part of what was matched, and this part."""
        chance = self.chance
        there = [name for name, (of, _) in scope.items() if of == kind]
        if there and chance.random() < (0.35 if depth > 0 else 0.9):
            return chance.choice(there)
        if depth <= 0:
            if kind == "nat":
                return str(chance.choice((0, 1, 2, 3, 17, 40)))
            return self.build(DATA[kind][0], scope, depth, smaller)
        way = chance.random()
        calls = [(name, kinds, part) for name, kinds, result in smaller for part in self.parts(scope, kinds[0]) if result == kind]
        if calls and way < 0.5:
            name, kinds, part = chance.choice(calls)
            return applied(name, [part, *(self.expression(of, scope, depth - 2, ()) for of in kinds[1:])])
        before = [function for function in self.known if function[2] == kind]
        if before and way < 0.3:
            name, kinds, _ = chance.choice(before)
            return applied(name, [self.expression(of, scope, depth - 1, smaller) for of in kinds])
        if way < 0.55:
            return self.build(chance.choice(DATA[kind]), scope, depth, smaller)
        if way < 0.7:
            name, of = self.name(), chance.choice([*DATA])
            value, body = self.expression(of, scope, depth - 1, smaller), {**scope, name: (of, False)}
            return f"(let {name} {value} {self.expression(kind, body, depth - 1, smaller)})"
        on = chance.choice([*DATA])
        return self.match(self.expression(on, scope, depth - 1, smaller), on, kind, scope, depth, smaller, False)

    @staticmethod
    def parts(scope, kind):
        """Variables that are parts of the parameter that was matched first."""
        return [name for name, (of, is_part) in scope.items() if of == kind and is_part]

    def build(self, form, scope, depth, smaller):
        name, fields = form
        return applied(name, [self.expression(of, scope, depth - 1, smaller) for of in fields])

    def match(self, on, of, kind, scope, depth, smaller, of_parameter):
        branches = []
        for name, fields in DATA[of]:
            names = [f"{self.name()}" for _ in fields]
            names = [f"{part}{number}" if part in names[:number] else part for number, part in enumerate(names)]
            inner = {**scope, **{part: (field, of_parameter) for part, field in zip(names, fields)}}
            body = self.expression(kind, inner, depth - 1, smaller)
            branches.append(f"({applied(name, names)} {body})")
        self.chance.shuffle(branches)
        return f"(match {on} {' '.join(branches)})"

    def group(self):
        """One or two functions, which may call each other."""
        chance = self.chance
        ring = chance.random() < 0.6
        heads = []
        for _ in range(chance.choice((1, 2)) if ring else 1):
            kinds = [chance.choice([*DATA]) for _ in range(chance.choice((0, 1, 2, 3, 4)))]
            kinds = [chance.choice(("nat", "list", "tree")), *kinds] if ring else kinds
            heads.append((f"f{len(self.known) + len(heads)}", kinds, chance.choice([*DATA])))
        for name, kinds, result in heads:
            scope = {f"p{number}": (kind, False) for number, kind in enumerate(kinds)}
            depth = chance.choice((3, 4, 5))
            body = self.match("p0", kinds[0], result, scope, depth, heads, True) if ring else self.expression(result, scope, depth, ())
            yield f"(fun {name} ({' '.join(f'(p{number} {kind})' for number, kind in enumerate(kinds))}) {result}\n  {body})\n"
        self.known += heads

    def program(self):
        text = DECLARED + "(fun add ((x nat) (y nat)) nat (match x (Z y) ((S n) (S (add n y)))))\n"
        self.known = [("add", ["nat", "nat"], "nat")]
        text += "".join(part for _ in range(self.chance.randint(2, 5)) for part in self.group())
        kind = self.chance.choice([*DATA])
        return text + f"(main {kind} {self.expression(kind, {}, 5, ())})\n"


def value_in(text):
    """The line of a program's value, None where it is long."""
    program = functions.program_of(text)
    try:
        value = functions.value_of(program, MOST_CALLS)
    except functions.TooLong:
        return None
    return f"{program.answer} = {functions.written(value)}\n".encode() if value.size <= MOST_SIZE else None


def wrong_run(program, text, line, workers=1):
    """What is wrong with a compiled program: it must be accepted, and come to the value."""
    net = compiler.compiled(text, "a test").encode()
    answer = program.run([*RUN, "--workers", str(workers)], net)
    begins = answer.output.startswith(line + b"interactions: ")
    return None if answer.status == ACCEPTED and begins else f"{answer}; wanted: {shortened(line)}; program:\n{text}"


def wrong_export(exporter, text, line, seed):
    """What is wrong with the exported line of a compiled program: its steps build it, and in a random order it comes to the value."""
    answer = exporter.run([], compiler.compiled(text, "a test").encode())
    if answer.status != ACCEPTED:
        return str(answer)
    program = nets.Program(json.loads(answer.output))
    for item in [*program.data["rules"], program.data["net"]]:
        steps.check_steps(program, item)
    net = nets.Net.initial(program)
    net.run(nets.chooser("random", seed), FEW_INTERACTIONS)
    found = "\n".join([*net.lines(), ""]).encode()
    return None if net.queue or found == line else f"in a random order {shortened(found)}; wanted: {shortened(line)}"


def wrong_compiled(name):
    """What is wrong with a compiled example: its bytes, as the source makes them."""
    source = f"examples/{name}{ENDING}"
    with open(os.path.join(EXAMPLES, name + ENDING), encoding="utf-8") as file:
        text = file.read()
    with open(os.path.join(EXAMPLES, name + ".inet"), encoding="utf-8") as file:
        there = file.read()
    return None if compiler.compiled(text, source) == there else f"tools/compile.py {source} > examples/{name}.inet makes other bytes"


def wrong_value(name):
    """What is wrong with the value of an example: it is the first line of its run."""
    with open(os.path.join(EXAMPLES, name + ENDING), "rb") as file:
        answer = by_tool("compile.py", ["--value"], file.read())
    with open(os.path.join(EXAMPLES, name + ".run"), "rb") as file:
        line = file.readline()
    return differing(answer, ACCEPTED, line)


NAT = "(data nat Z (S nat)) "
PLUS = NAT + "(fun add ((x nat) (y nat)) nat (match x (Z y) ((S n) (S (add n y))))) "


def chain(count):
    """So many functions, each of which calls the one before twice: a body that is put in the place of its call would double each time."""
    calls = "".join(f"(fun f{number} ((x nat)) nat (let y (f{number - 1} x) (f{number - 1} (match y (Z Z) ((S n) Z)))))" for number in range(1, count))
    return f"{PLUS}(fun f0 ((x nat)) nat x){calls}(main nat (f{count - 1} 1))"


# Programs that are hard on a compiler, with the first line of their run.
HARD = {
    "no match on a parameter": (NAT + "(fun f ((x nat)) nat (let y x (match y (Z Z) ((S n) (f n))))) (main nat (f 5))", "answer = Z"),
    "calls each other without a match on a parameter": (
        NAT + "(fun half ((x nat)) nat (let y x (match y (Z Z) ((S n) (other n))))) (fun other ((x nat)) nat (let y x (match y (Z Z) ((S n) (S (half n))))))"
        "(main nat (half 7))", "answer = S(S(S(Z)))"),
    "a match on a call of itself": (NAT + "(fun f ((x nat)) nat (match (match x (Z Z) ((S n) (f n))) (Z 1) ((S m) (S (S m))))) (main nat (f 3))", "answer = S(S(S(S(Z))))"),
    "no parameters": (NAT + "(fun one () nat 1) (fun two () nat (S one)) (main nat two)", "answer = S(S(Z))"),
    "names of the compiler": (
        NAT + "(data start Start) (fun Copy_nat ((r nat)) nat (match r (Z Z) ((S Erase_nat) (add_part Erase_nat Erase_nat))))"
        "(fun add_part ((r2 nat) (answer nat)) nat (match r2 (Z answer) ((S r) (S (add_part r answer))))) (main nat (Copy_nat 3))", "answer_ = S(S(S(S(Z))))"),
    "a number of a thousand": (NAT + "(fun f ((x nat)) nat (match x (Z Z) ((S n) (f n)))) (main nat (f 1000))", "answer = Z"),
    "a right member of many agents": (
        PLUS + f"(fun f ((x nat)) nat (match x (Z {'(add 3 ' * 40}1{')' * 40}) ((S n) {'(add n ' * 30}x{')' * 30}))) (main nat (f 0))", "answer = " + "S(" * 121 + "Z" + ")" * 121),
    "brackets as deep as may be": (NAT + f"(main nat {'(S ' * 499}Z{')' * 499})", "answer = " + "S(" * 499 + "Z" + ")" * 499),
    "many constructors": (f"(data t {' '.join(f'C{number}' for number in range(300))}) (main t (let x C7 C0))", "answer = C0"),
    "a chain of calls that double": (chain(8), "answer = Z"),
}
# Programs with a fault, and the place and the words that are told.
FAULTY = {
    "": "1:1: error: there is no `main`: write (main TYPE EXPRESSION)",
    "\n(main": "2:1: error: this bracket isn't closed",
    "())": "1:3: error: this bracket closes none",
    "main": "1:1: error: here an item begins: (data ..), (fun ..) or (main ..)",
    "()": "1:1: error: here an item begins: (data ..), (fun ..) or (main ..)",
    NAT + "(main nat (add 1 2))": "1:33: error: `add` is not known here",
    PLUS + "(main nat (ad 1 2))": "1:103: error: `ad` is not known here: `add`?",
    NAT + "(main nat 1) (main nat 2)": "1:36: error: a program has one `main`, and this is a second one",
    "(main nat 1)": "1:7: error: there is no type `nat`: declare it with (data nat ..)",
    "(data bool F T) (main bool 1)": "1:28: error: numbers are of the type `nat`: declare it with (data nat Z (S nat))",
    NAT + "(main nat 1000001)": "1:32: error: a number is at most 1000000",
    NAT + "(main nat S)": "1:32: error: `S` has 1 field, and none is given",
    NAT + "(main nat (S Z Z))": "1:32: error: `S` has 1 field, and 2 are given",
    NAT + "(main nat (match Z (Z Z)))": "1:32: error: a branch for `S` is missing: `nat` has 2 constructors",
    NAT + "(main nat (match Z (Z Z) (Z Z)))": "1:48: error: a second branch for `Z`",
    NAT + "(main nat (match Z (Z Z) (S Z)))": "1:48: error: `S` has 1 field, and the pattern none",
    NAT + "(data bool F T) (main bool Z)": "1:49: error: this is of the type `nat`, and `main` is of the type `bool`",
    NAT + "(data bool F T) (main nat (match F (F Z) (T T)))": "1:66: error: this is of the type `bool`, and what is needed here is of the type `nat`",
    NAT + "(data bool F T) (main nat (S T))": "1:51: error: this is of the type `bool`, and this field of `S` is of the type `nat`",
    NAT + "(data bool F T) (main nat (match T (Z 1)))": "1:58: error: `Z` is of the type `nat`, and what is matched is of the type `bool`",
    NAT + "(main nat (let x 1 (x 2)))": "1:42: error: `x` is no function: write it without brackets",
    NAT + "(main nat (let rule 1 2))": "1:37: error: `rule` is a word of the language, and so it can't be a variable",
    NAT + "(main nat (let a-b 1 2))": "1:37: error: `a-b` is no name: it has letters, digits and _, and begins with no digit",
    NAT + "(fun f ((x nat) (x nat)) nat x) (main nat 1)": "1:38: error: two parameters have the name `x`",
    NAT + "(fun f ((x nat)) nat x) (fun f () nat 1) (main nat 1)": "1:51: error: `f` is declared twice",
    NAT + "(data nat A) (main nat 1)": "1:28: error: the type `nat` is declared twice",
    NAT + "(data two (Two nat nat)) (main nat (match (Two 1 2) ((Two a a) a)))": "1:75: error: two fields have the name `a`",
    NAT + "(fun f (" + "".join(f"(x{number} nat)" for number in range(17)) + ") nat x0) (main nat 1)":
        "1:179: error: this takes 17 values beside the one that it waits for, and a symbol takes at most 15",
    NAT + f"(data big (Big{' nat' * 17})) (main nat 1)": "1:32: error: `Big` has 17 fields, and a constructor has at most 16",
    NAT + "".join(f"(fun f{number} () nat 1)" for number in range(511)) + " (main nat 1)": "1:9623: error: the program needs 513 symbols at least, and `inet` takes 512",
    "(" * 501: "1:501: error: more than 500 brackets stand within each other: make a function of a part",
    "(" * 100_000: "1:501: error: more than 500 brackets stand within each other: make a function of a part",
}
# Of the functions that bench/run measures.
MEASURED = ("(queens 4 4 Nil)", "(descents (merge_sort (some 5 1)))", "(rounds 9 (Queue (up_to 4) Nil))", "(digits (factorial 4 (Digit One End) (Digit One End)))")
# One that never comes to its value.
ENDLESS = NAT + "(fun f ((x nat)) nat (f (S x))) (main nat (f 1))"


def wrong_fault(words, text, told):
    """What is wrong with what is told of a fault."""
    answer = by_tool("compile.py", words, text.encode())
    wanted = f"<standard input>:{told}"
    first = answer.errors.decode().split("\n")[0]
    return differing(answer, REFUSED, b"") or (None if first == wanted else f"told: {first}; wanted: {wanted}")


def compiled(program):
    for file in sorted(os.listdir(EXAMPLES)):
        name, ending = os.path.splitext(file)
        if ending == ENDING:
            yield f"{name}: compiled", partial(wrong_compiled, name)
            yield f"{name}: value", partial(wrong_value, name)
    for name, (text, line) in HARD.items():
        yield f"{name}: value", lambda text=text, line=line: None if value_in(text) == f"{line}\n".encode() else str(value_in(text))
        yield name, partial(wrong_run, program, text, f"{line}\n".encode())
    for text, told in FAULTY.items():
        for words in ([],) if "takes at most" in told or "the program needs" in told else ([], ["--value"]):
            yield f"{shortened(text.encode(), 60)} {' '.join(words)}", partial(wrong_fault, words, text, told)
    yield "a value without end", lambda: differing(by_tool("compile.py", ["--value", "--limit", "1000"], ENDLESS.encode()), LIMIT, b"")
    with open(os.path.join(HERE, "..", "..", "bench", "functions.fun"), encoding="utf-8") as file:
        measured = file.read()
    for what in MEASURED:
        text = f"{measured}(main nat {what})"
        yield f"bench/functions.fun: {what}", partial(wrong_run, program, text, value_in(text))
    room = os.path.join(program.room, "compiled_export")
    os.mkdir(room)
    exporter = Program(BUILT, room)
    for seed in range(PROGRAMS):
        text = Generator(seed).program()
        line = value_in(text)
        if line:
            yield f"random program {seed}", partial(wrong_run, program, text, line, WORKERS[seed % len(WORKERS)])
            yield f"random program {seed}: steps and a random order", partial(wrong_export, exporter, text, line, seed)
