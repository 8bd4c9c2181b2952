#!/usr/bin/env python3
"""Compiles a program of functions of first order to a net of `inet`, or says what it means without a net.

Usage: tools/compile.py [FILE.fun] > PROGRAM.inet
       tools/compile.py --value [--limit N] [FILE.fun]

Where no file is named, the program comes on standard input. tools/functions.py has the language, docs/use/COMPILING.md how it is compiled.
Status 0; 1 where the program has a fault, which is told with its line and column; 3 where its value isn't reached within the limit.
"""
import argparse
import dataclasses
import itertools
from collections import Counter
from functools import lru_cache
from typing import NamedTuple

import functions
import streams
from functions import Build, Call, Fault, Kept, Let, Match, Number, Use

# Of `inet` (docs/use/COMPILING.md): the agents of a right member and of the net, auxiliary ports, types, symbols, rules, bytes of the text.
MOST_OF_A_RULE, MOST_OF_THE_NET, MOST_PORTS, MOST_TYPES, MOST_SYMBOLS, MOST_RULES, MOST_BYTES = 64, 4_000, 16, 256, 512, 4_096, 1_048_576
# A part of a right member that is too large becomes one of its own where it has more agents.
PART = 40
# The largest number that is written as it is; and how deep a term becomes before it is cut by an equation.
WRITTEN_NUMBER, MOST_DEPTH = 16, 100
# A name with a number behind it has at most 64 characters.
MOST_OF_A_NAME = 48
USUAL_CALLS = 1_000_000
# A line of the program that is longer isn't shown with a fault.
MOST_SHOWN = 160


class Term(NamedTuple):
    text: str
    depth: int = 1


def head(symbol, parts):
    return f"{symbol}[{', '.join(part.text for part in parts)}]"


@dataclasses.dataclass(frozen=True, eq=False)
class Part(functions.Expression):
    """An expression that has a rule of its own, since the right member around it has too many agents."""

    body: functions.Expression

    @Kept
    def captured(self):
        return list(self.body.uses)

    @Kept
    def uses(self):
        return Counter(self.captured)


@lru_cache(maxsize=100_000)
def agents(expression):
    """How many agents an expression needs in a right member, with a copy for each use of a variable: one too many for each that is bound
    outside."""
    inner = sum(agents(part) for part in expression.parts)
    if isinstance(expression, Number):
        return expression.value + 1 if expression.value <= WRITTEN_NUMBER else 3
    if isinstance(expression, Let):
        return inner + (-1 if expression.variable in expression.parts[1].uses else 1)
    if isinstance(expression, (Match, Part)):
        return inner + len(expression.captured) + (1 if isinstance(expression, Match) else 2)
    return inner + {Use: 1, Build: 1, Call: 2}[type(expression)]


def fitting(expression, most):
    """The expression with parts made rules of their own, so that it has at most so many agents, as far as that can be."""
    if agents(expression) <= most or not expression.parts:
        return expression
    parts = [fitting(part, PART) for part in expression.parts]
    made = dataclasses.replace(expression, parts=tuple(parts))
    for place in sorted(range(len(parts)), key=lambda place: -agents(parts[place])):
        part = Part(parts[place].place, parts[place].type, parts[place])
        if agents(made) > most and len(part.captured) < MOST_PORTS and agents(part) < agents(parts[place]):
            parts[place] = part
            made = dataclasses.replace(expression, parts=tuple(parts))
    return made


class Body:
    """The right member of one rule, or the net: its equations, how many agents it has, and for each variable the points that are still to be used."""

    def __init__(self, compiler, *names):
        self.compiler, self.equations, self.agents, self.points, self.names = compiler, [], 0, {}, set(names)

    def wire(self, name):
        """A wire of this name, or with a number behind it where that is the name of something else."""
        name = name[:MOST_OF_A_NAME]
        numbered = (f"{name}{number}" for number in itertools.count(2))
        found = next(made for made in itertools.chain([name], numbered) if made not in self.names and made not in self.compiler.symbols)
        self.names.add(found)
        self.compiler.wires.add(found)
        return Term(found)

    def agent(self, symbol, *parts):
        self.agents += 1
        text = f"{symbol}({', '.join(part.text for part in parts)})" if parts else symbol
        return Term(text, 1 + max((part.depth for part in parts), default=0))

    def join(self, one, other):
        self.equations.append(f"{one.text} ~ {other.text}")

    def met(self, principal, symbol, given, name="r"):
        """The result of a symbol where it meets this value, with what it is given beside."""
        result = self.wire(name)
        self.join(principal, self.agent(symbol, *given, result))
        return result

    def started(self, symbol, given):
        """The result of a symbol that waits for no value."""
        return self.met(self.agent(self.compiler.start()), symbol, given)

    def bind(self, variable, point, count):
        """Makes as many copies of a value as are used: none by an eraser, and more than one by duplicators."""
        if count == 0:
            self.join(point, self.agent(self.compiler.eraser(variable.type)))
        points = [point]
        while len(points) < count:
            copies = self.wire(variable.name), self.wire(variable.name)
            self.join(points.pop(0), self.agent(self.compiler.duplicator(variable.type), *copies))
            points += copies
        self.points[variable] = points[:count]

    def taken(self, variables):
        return [self.points[variable].pop(0) for variable in variables]

    def value(self, expression):
        """The term that gives the value of an expression."""
        return getattr(self, f"value_of_{type(expression).__name__.lower()}")(expression)

    def value_of_use(self, use):
        return self.taken([use.variable])[0]

    def value_of_number(self, number):
        if number.value > WRITTEN_NUMBER:
            return self.started(self.compiler.adder(number.value), [self.agent("Z")])
        made = self.agent("Z")
        for _ in range(number.value):
            made = self.agent("S", made)
        return made

    def value_of_build(self, build):
        made = self.agent(build.head, *[self.value(part) for part in build.parts])
        if made.depth <= MOST_DEPTH:
            return made
        wire = self.wire("part")
        self.join(wire, made)
        return wire

    def value_of_let(self, let):
        value, body = let.parts
        self.bind(let.variable, self.value(value), body.uses[let.variable])
        return self.value(body)

    def value_of_call(self, call):
        given = [self.value(part) for part in call.parts]
        place = met_by(self.compiler.program.functions[call.head])
        return self.started(call.head, given) if place is None else self.met(given.pop(place), call.head, given)

    def value_of_match(self, match):
        given, symbol = self.taken(match.captured), self.compiler.inner()
        self.compiler.later(lambda: self.compiler.destructor(symbol, match, match.captured))
        return self.met(self.value(match.on), symbol, given)

    def value_of_part(self, part):
        given, symbol = self.taken(part.captured), self.compiler.inner()
        self.compiler.later(lambda: self.compiler.starter(symbol, part.body, part.captured))
        return self.started(symbol, given)

    def lines(self):
        return "".join(f"    {equation};\n" for equation in self.equations)


def met_by(function):
    """The place of the parameter by whose match a function begins, None where it doesn't begin so."""
    matched = function.body.on if isinstance(function.body, Match) else None
    return function.parameters.index(matched.variable) if isinstance(matched, Use) else None


class Compiler:
    """Writes a program as symbols, rules and a net.

    A function that begins by a match on a parameter is a symbol that waits for it, each other `match` one that waits for what is matched; all
    others meet a constructor that is there for this alone. Each input of a symbol is in braces of its own, and so is its output; the two
    copies of a duplicator are in one pair. No value is needed to compute itself, and so the net and each right member are built by steps.
    """

    def __init__(self, program):
        self.program, self.wires, self.helpers, self.waiting = program, set(), {}, []
        self.symbols = {*program.constructors, *program.functions}
        self.types, self.own, self.common, self.function = [*program.types], [], [], "main"

    # ---- names

    def symbol(self, name):
        """A name for a symbol that nothing else has: this one, or it with a number."""
        name = name[:MOST_OF_A_NAME]
        others = self.program.words, self.symbols, self.wires, functions.RESERVED, {self.program.answer}
        numbered = (f"{name}_{number}" for number in itertools.count(1))
        found = next(made for made in itertools.chain([name], numbered) if not any(made in names for names in others))
        self.symbols.add(found)
        # One of these names may be that of the type of what starts.
        self.limit(len(self.symbols) - 1, MOST_SYMBOLS, "symbols at least")
        return found

    def limit(self, count, most, what):
        """Ends the compiler where the program needs more of something than `inet` takes."""
        if count > most:
            raise Fault(self.program.main.place, f"the program needs {count} {what}, and `inet` takes {most}")

    def inner(self):
        """A symbol for a part of the function in hand."""
        return self.symbol(f"{self.function}_part")

    def once(self, key, name, make):
        """A symbol that is made at its first use."""
        if key not in self.helpers:
            self.helpers[key] = self.symbol(name)
            self.later(lambda: make(self.helpers[key]))
        return self.helpers[key]

    # ---- symbols and rules

    def later(self, make):
        """What is to be written when the rule or net in hand is."""
        self.waiting.append(make)

    @staticmethod
    def declare(lines, symbol, port, ports=()):
        lines.append(f"symbol {symbol} : {port}{''.join(f' {{{port}}}' for port in ports)};")

    def eraser(self, kind):
        def make(symbol):
            self.declare(self.common, symbol, f"{kind}-")
            for name in self.program.types[kind]:
                fields = [Term(self.eraser(field)) for field in self.program.constructors[name].fields]
                self.common.append(f"rule {head(name, fields)} >< {symbol}[];")
        return self.once(("erase", kind), f"Erase_{kind}", make)

    def duplicator(self, kind):
        def make(symbol):
            self.declare(self.common, symbol, f"{kind}-", [f"{kind}+, {kind}+"])
            for name in self.program.types[kind]:
                fields, body = self.program.constructors[name].fields, Body(self)
                pairs = [(body.wire("a"), body.wire("b")) for _ in fields]
                copiers = [body.agent(self.duplicator(field), *pair) for field, pair in zip(fields, pairs)]
                copies = [body.agent(name, *[pair[copy] for pair in pairs]) for copy in (0, 1)]
                self.common.append(f"rule {head(name, copiers)} >< {head(symbol, copies)};")
        return self.once(("copy", kind), f"Copy_{kind}", make)

    def start(self):
        """The constructor that is met by what waits for no value."""
        return self.once("start", "Start", lambda symbol: self.declare(self.common, symbol, f"{self.start_type()}+"))

    def start_type(self):
        return self.once("start type", "start", self.types.append)

    def adder(self, count):
        """The symbol that adds so much to a number: at once, or by adding half of it twice."""
        def make(symbol):
            self.declare(self.common, symbol, f"{self.start_type()}-", ["nat-", "nat+"])
            body = Body(self)
            given = result = body.wire("n")
            if count <= WRITTEN_NUMBER:
                for _ in range(count):
                    result = body.agent("S", result)
            else:
                for _ in range(2):
                    result = body.started(self.adder(count // 2), [result])
                result = body.agent("S", result) if count % 2 else result
            self.rule(self.common, head(self.start(), []), head(symbol, [given, result]), body)
        return self.once(("add", count), f"Add_{count}", make)

    @staticmethod
    def rule(lines, one, other, body):
        lines.append(f"rule {one} >< {other}" + (f" with {{\n{body.lines()}}};" if body.equations else ";"))

    def right_member(self, constructor, fields, destructor, inputs, expression):
        """A rule, in which a destructor with these inputs gives the value of the expression at its last port."""
        variables = [*fields, *inputs]
        unused = sum(variable not in expression.uses for variable in variables)
        if agents(expression) - len(expression.uses) + unused > MOST_OF_A_RULE:
            expression = fitting(expression, MOST_OF_A_RULE - unused)
        body = Body(self)
        wires = [body.wire(variable.name) for variable in variables]
        for variable, wire in zip(variables, wires):
            body.bind(variable, wire, expression.uses[variable])
        result = body.value(expression)
        if body.agents > MOST_OF_A_RULE:
            raise Fault(expression.place, f"this needs {body.agents} agents, and a rule has at most {MOST_OF_A_RULE}: make functions of some parts")
        self.rule(self.own, head(constructor, wires[:len(fields)]), head(destructor, [*wires[len(fields):], result]), body)

    def declare_own(self, symbol, principal, inputs, place, result):
        if len(inputs) >= MOST_PORTS:
            raise Fault(place, f"this takes {len(inputs)} values beside the one that it waits for, and a symbol takes at most {MOST_PORTS - 1}")
        self.declare(self.own, symbol, f"{principal}-", [*(f"{variable.type}-" for variable in inputs), f"{result}+"])

    def destructor(self, symbol, match, inputs):
        """The symbol of a match, and a rule for each of its branches."""
        self.declare_own(symbol, match.on.type, inputs, match.place, match.type)
        matched = match.on.variable if isinstance(match.on, Use) else None
        for branch in match.branches:
            kinds = self.program.constructors[branch.constructor].fields
            fields = [variable or functions.Variable("unused", kind) for variable, kind in zip(branch.fields, kinds)]
            body = branch.body
            if matched in body.uses:
                # The value that is matched is there no more: it is built anew of its fields.
                again = Build(body.place, matched.type, branch.constructor, tuple(Use(body.place, field.type, field) for field in fields))
                body = Let(body.place, body.type, matched, (again, body))
            self.right_member(branch.constructor, fields, symbol, inputs, body)

    def starter(self, symbol, expression, inputs):
        """A symbol that waits for no value, and its rule."""
        self.declare_own(symbol, self.start_type(), inputs, expression.place, expression.type)
        self.right_member(self.start(), [], symbol, inputs, expression)

    def compile_function(self, function):
        self.own.append("")
        place = met_by(function)
        if place is None:
            self.starter(function.name, function.body, function.parameters)
        else:
            self.destructor(function.name, function.body, function.parameters[:place] + function.parameters[place + 1:])

    def finish(self):
        """Writes what waits to be written, and what comes to wait by it."""
        while self.waiting:
            self.waiting.pop(0)()

    def text(self, source):
        """The program as a text of `inet`."""
        self.limit(len(self.symbols), MOST_SYMBOLS, "symbols at least")
        for name, function in self.program.functions.items():
            self.function = name
            self.compile_function(function)
            self.finish()
        self.function, main = "main", self.program.main
        body, answer = Body(self, self.program.answer), self.program.answer
        body.join(Term(answer), body.value(fitting(main.body, MOST_OF_THE_NET)))
        self.own.append("")
        self.finish()
        lines = [f"# Compiled by tools/compile.py from {source}: changes belong there.", f"type {', '.join(self.types)};", ""]
        for name, constructor in self.program.constructors.items():
            self.declare(lines, name, f"{constructor.type}+", [f"{field}-" for field in constructor.fields])
        lines += [*self.own, *self.common]
        text = "\n".join([*lines, "", f"net ({answer} : {main.result}+) {{\n{body.lines()}}}\n"])
        begun = Counter(line.split(" ", 1)[0] for line in lines)
        for count, most, what in (
            (body.agents, MOST_OF_THE_NET, "agents of the net"), (len(self.types), MOST_TYPES, "types"), (begun["symbol"], MOST_SYMBOLS, "symbols"),
            (begun["rule"], MOST_RULES, "rules"), (len(text.encode()), MOST_BYTES, "bytes"),
        ):
            self.limit(count, most, what)
        return text


def explained(fault, source, text):
    """A fault with its place in the text and the line there."""
    line = text.split("\n")[fault.place.line - 1].rstrip("\r")
    told = f"{source}:{fault.place.line}:{fault.place.column}: error: {fault}"
    if len(line) > MOST_SHOWN:
        return told
    blanks = "".join(sign if sign == "\t" else " " for sign in line[: fault.place.column - 1])
    return f"{told}\n{fault.place.line:5} | {line}\n{'':5} | {blanks}^"


def compiled(text, source):
    """The text of `inet` of a program; raises a Fault where it is none."""
    return Compiler(functions.program_of(text)).text(source)


def main():
    words = argparse.ArgumentParser(description=__doc__, formatter_class=argparse.RawDescriptionHelpFormatter)
    words.add_argument("--value", action="store_true", help="computes the value without a net")
    words.add_argument("--limit", type=streams.natural, default=USUAL_CALLS, metavar="N", help=f"the most calls for a value, {USUAL_CALLS} if it isn't given")
    words.add_argument("file", nargs="?", metavar="FILE.fun")
    asked = words.parse_args()
    source = asked.file or "<standard input>"
    text = streams.read_file(asked.file) if asked.file else streams.read_text()
    try:
        if not asked.value:
            streams.write(compiled(text, source))
            return 0
        program = functions.program_of(text)
        streams.write(f"{program.answer} = {functions.written(functions.value_of(program, asked.limit))}\n")
    except Fault as fault:
        raise streams.Refused(explained(fault, source, text)) from None
    except functions.TooLong:
        streams.tell(f"no value within {asked.limit} calls: `--limit N` allows more")
        return streams.LIMIT
    return 0


if __name__ == "__main__":
    streams.run(main)
