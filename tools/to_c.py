#!/usr/bin/env python3
"""Compiles an exported program to C: one file, in which each rule is straight-line code, and which reduces the program's net and prints it as
`inet run` does.

Usage: inet_export < PROGRAM.inet | tools/to_c.py > PROGRAM.c
       cc -std=c11 -O2 -pthread -o PROGRAM PROGRAM.c && ./PROGRAM [--limit N] [--workers N] [NET]

docs/work/TO-C.md says how the code works and why. No rule tests what acceptance promises, so the steps of a line are checked before.
"""
import argparse
import heapq
import itertools
import json
import re
import zlib
from pathlib import Path

import nets
import steps
import streams

RUNTIME, WIRES, WORKERS, MACHINES, READER = (Path(__file__).with_name(f"to_c_{part}.c") for part in ("runtime", "wires", "workers", "machines", "reader"))
# What a program has at most, with `--large`.
MOST_TYPES, MOST_SYMBOLS, MOST_ARITY, MOST_FREE_ENDS, MOST_MEMBER_AGENTS = 256, 4_096, 16, 4_096, 1_024
# All rules are one function, in which one goes on with the next by a jump, in a program of at most so many rules with at most so many wires
# together: a compiler takes more than twice as long for a function of twice the size.
MOST_RULES, MOST_WIRES = 64, 1_200
# A rule jumps to the rules of so many partners by a switch of its own.
MOST_CASES = 16


def quoted(name):
    """A name as a string of C."""
    return '"' + "".join(chr(byte) if chr(byte).isalnum() and byte < 128 or byte == ord("_") else f"\\{byte:03o}" for byte in name.encode(errors="backslashreplace")) + '"'


def in_comment(name):
    return name if name.isidentifier() else "?"


def numbers(items):
    """A list of C, which has one item at least."""
    return ", ".join(map(str, items)) or "0"


class Tags:
    """The symbols of a program with their types, and the tags of their agents: constructors are counted from 1 in each type, destructors from 1
    through all types."""

    def __init__(self, program):
        self.symbols = program.symbols
        of = lambda kind, is_constructor: [
            number for number, symbol in enumerate(program.symbols) if symbol.ports[0]["type"] == kind and symbol.is_constructor == is_constructor
        ]
        kinds = range(len(program.data["types"]))
        self.constructors = [of(kind, True) for kind in kinds]
        self.destructors = [of(kind, False) for kind in kinds]
        self.tag = {number: tag for own in self.constructors for tag, number in enumerate(own, 1)}
        self.tag.update({number: tag for tag, number in enumerate(itertools.chain(*self.destructors), 1)})

    def type_of(self, symbol):
        return self.symbols[symbol].ports[0]["type"]


def rules_text(program):
    """The line of a program up to its net: its types, symbols and rules, as `inet_export` writes them."""
    written = lambda value: json.dumps(value, ensure_ascii=False, separators=(",", ":"))
    members = ("format", "types", "symbols", "rules")
    return f"{{{''.join(f'{written(member)}:{written(program.data[member])},' for member in members)}\"net\":".encode(errors="backslashreplace")


def looping(symbol):
    """The inputs among a symbol's places that a wire may join to an output of the same class: no other wire leads from an agent of an active
    pair back to itself or to its partner."""
    ports = symbol.ports[1:]
    fits = lambda one, other: not one["output"] and other["output"] and all(one[what] == other[what] for what in ("type", "class"))
    return [place for place, port in enumerate(ports, 1) if any(fits(port, other) for other in ports)]


def joined(p, m, action):
    """The code that joins what is at two ends of a wire that is gone, where the first gives; two agents are a pair for the action."""
    return f"if (!TAG({p})) {{ *AT({p}) = {m}; if (!TAG({m})) *AT({m}) = {p}; }} else if (!TAG({m})) *AT({m}) = {p}; else {action}"


class Code:
    """The code of one rule. The constructor of the pair is c with the cell C, the destructor d with the cell D; what is found at boundary end
    number e is o{e}, and a{k} is new agent number k, with the cell C, D or n{k}."""

    def __init__(self, compiler, number):
        self.compiler, self.number = compiler, number
        program = compiler.program
        self.rule = program.rules[number]
        self.heads = [program.symbols[symbol] for symbol in self.rule.heads]
        self.agents = [program.symbols[symbol] for symbol in self.rule.agents]
        self.ends = program.places(self.rule)
        self.loops = [(head, place) for head in (0, 1) for place in looping(self.heads[head])]
        # How many words of fresh cells and how many pairs the code takes at most.
        self.words = self.pairs = 0

    def is_plus(self, point):
        """Whether what stands at a point of the right member gives: an output, or the outside at a boundary end that is an input of its head."""
        if len(point) == 2:
            return self.agents[point[0]].ports[point[1]]["output"]
        head, place = self.ends[point[0]]
        return not self.heads[head].ports[place]["output"]

    def end(self, head, place):
        return self.ends.index((head, place))

    def choose_cells(self, is_looped):
        """Which new agents stand in the cells of the pair: those of which most ports can stay as they are. And the ends that stay."""
        stays = [(end[0], point) for wire in self.rule.wires for end, point in (wire, wire[::-1]) if len(end) == 1 and len(point) == 2 and point[1]]
        same = lambda head, agent: sum(point[0] == agent and self.ends[end] == (head, point[1]) for end, point in stays)
        fitting = [[None] + [k for k, agent in enumerate(self.agents) if agent.arity and agent.arity == head.arity] for head in self.heads]
        worth = [
            {k: 0 if k is None else 10 + 4 * same(head, k) + (self.rule.agents[k] == self.rule.heads[head]) for k in fitting[head]} for head in (0, 1)
        ]
        # Of each head the two best ones suffice, since both may be one agent.
        best = [heapq.nlargest(2, fits, key=worth[head].get) for head, fits in enumerate(fitting)]
        choices = [(one, other) for one, other in itertools.product(*best) if one is None or one != other]
        self.kept = max(choices, key=lambda choice: worth[0][choice[0]] + worth[1][choice[1]])
        self.staying = set() if is_looped else {end for end, point in stays if point[0] in self.kept and self.ends[end] == (self.kept.index(point[0]), point[1])}

    def lines(self, is_looped=False):
        """The statements of the rule; `is_looped` where a wire leads from an agent of the pair back to itself."""
        self.choose_cells(is_looped)
        held = list(self.held_before()) if is_looped else []
        made, wires = self.wires()
        body = [*(held or self.reads()), *self.cells(), *wires]
        given = [f"GIVE({head.arity}, {'CD'[k]});" for k, head in enumerate(self.heads) if head.arity and self.kept[k] is None]
        own = [("own", self.rule.wires[number], len(self.ends)) for number in self.rule.active]
        if is_looped:
            last = [*given, *(self.join(pair, True) for pair in made), *self.held_after(), *map(self.join, own), "NEXT;"]
            self.pairs = max(self.pairs, len(made) + len(self.loops) + len(own))
        else:
            last = [*given, *self.pairs_of(made, own)]
            self.pairs = max(self.pairs, len(made) + len(own))
        test = self.loop_test() if self.loops and not is_looped else []
        body = [*test, *body, *last]
        heads = [f"word *const {letter.upper()} = AT({letter});" for letter in "cd" if re.search(rf"\b{letter.upper()}\b", " ".join(body))]
        return heads + body

    def loop_test(self):
        tests = " || ".join(f"LEADS_INTO({letter}[{place - 1}], {letter}, {self.heads[head].arity})" for head, place in self.loops for letter in "CD"[head])
        return [f"if ({tests}) LOOPED({self.number});"]

    def reads(self):
        return [f"word o{end} = {'CD'[head]}[{place - 1}];" for end, (head, place) in enumerate(self.ends) if end not in self.staying]

    def cells(self):
        for k, agent in enumerate(self.agents):
            tag = self.compiler.tags.tag[self.rule.agents[k]]
            name = in_comment(agent.name)
            if not agent.arity:
                yield f"const word a{k} = {tag}; // {name}"
            elif k in self.kept:
                head = self.kept.index(k)
                yield f"const word a{k} = {'cd'[head] if self.rule.agents[k] == self.rule.heads[head] else f'WIRE({chr(67 + head)}) | {tag}'}; // {name}"
            else:
                yield f"word *n{k}; TAKE({agent.arity}, n{k}); const word a{k} = WIRE(n{k}) | {tag}; // {name}"
        self.words = max(self.words, sum(agent.arity for k, agent in enumerate(self.agents) if k not in self.kept))

    def wires(self):
        """The pairs that are made over boundary ends, each with the lowest of these, and the code for the wires that make none."""
        cell = lambda agent: "CD"[self.kept.index(agent)] if agent in self.kept else f"n{agent}"
        slot = lambda point: f"{cell(point[0])}[{point[1] - 1}]"
        made, code = [], []
        for one, other in self.rule.wires:
            plus, minus = (one, other) if self.is_plus(one) else (other, one)
            inner = [point for point in (plus, minus) if len(point) == 2]
            ends = [point[0] for point in (plus, minus) if len(point) == 1]
            principal = [point for point in inner if not point[1]]
            if not inner or principal and ends:
                made.append(("both" if not inner else "plus" if principal[0] is plus else "minus", (plus, minus), min(ends)))
            elif ends:
                [point], [end] = inner, ends
                if end not in self.staying:
                    code.append(f"{slot(point)} = o{end}; if (!TAG(o{end})) *AT(o{end}) = WIRE(&{slot(point)});")
            elif len(principal) == 1:
                [port] = [point for point in inner if point[1]]
                code.append(f"{slot(port)} = a{principal[0][0]};")
            elif not principal:
                code.append(f"{slot(plus)} = WIRE(&{slot(minus)}); {slot(minus)} = WIRE(&{slot(plus)});")
        return made, code

    def join(self, pair, is_held=False):
        """What is at both ends of a wire is joined, or it is a pair, which is put behind the others, or held."""
        what, _, end = pair
        p, m = self.words_of(pair)
        action = f"HOLD({p}, {m}, lowest[{end}]);" if is_held and what != "own" else f"PUSH({p}, {m});"
        if what == "own":
            return action
        if what == "plus":
            return f"if (TAG({m})) {action} else *AT({m}) = {p};"
        if what == "minus":
            return f"if (TAG({p})) {action} else *AT({p}) = {m};"
        return joined(p, m, action)

    def words_of(self, pair):
        what, (one, other), _ = pair
        if what == "own" and not self.is_plus(one):
            one, other = other, one
        return tuple(f"a{point[0]}" if len(point) == 2 else f"o{point[0]}" for point in (one, other))

    def pairs_of(self, made, own):
        """The pairs are put behind the others in the order of `inet run`; or in any order, and the last one is gone on with."""
        if self.compiler.is_queue:
            return [*map(self.join, sorted(made, key=lambda pair: pair[2])), *map(self.join, own), "NEXT;"]
        # To go on with the pair of a new destructor, or else of a new constructor, took least time.
        pairs = sorted([*made, *own], key=lambda pair: ("both", "plus", "minus", "own").index(pair[0]))
        if not pairs:
            return ["NEXT;"]
        *others, last = pairs
        return [*map(self.join, others), *self.go_on(last)]

    def go_on(self, pair):
        what = pair[0]
        p, m = self.words_of(pair)
        stores = {
            "own": [],
            "plus": [f"if (!TAG({m})) {{ *AT({m}) = {p}; NEXT; }}"],
            "minus": [f"if (!TAG({p})) {{ *AT({p}) = {m}; NEXT; }}"],
            "both": [f"if (!TAG({p})) {{ *AT({p}) = {m}; if (!TAG({m})) *AT({m}) = {p}; NEXT; }}", f"if (!TAG({m})) {{ *AT({m}) = {p}; NEXT; }}"],
        }[what]
        return [*stores, *self.compiler.go(self, pair, p, m)]

    def held_before(self):
        """Each wire from the pair back to itself becomes two, to two words of `t` that are joined at last: so the rule is used as ever. Of all
        ends on one path the number of the lowest is kept, for the order of the pairs."""
        lowest = list(range(len(self.ends)))
        for wire in self.rule.wires:
            ends = [point[0] for point in wire if len(point) == 1]
            for end in ends:
                lowest[end] = min(ends)
        inputs = sum(1 << self.end(head, place) for head, place in self.loops)
        most, count = len(self.loops), len(self.ends)
        yield f"word o[] = {{{numbers(f'{letter}[{place - 1}]' for head, place in self.ends for letter in 'CD'[head])}}}, t[{2 * most}];"
        yield f"unsigned char lowest[] = {{{numbers(lowest)}}}, from[{most}]; int joins = 0, held = 0; struct made made[{most + count}];"
        for head, (letter, first) in enumerate((("C", 0), ("D", self.heads[0].arity))):
            if looping(self.heads[head]):
                yield f"joins = cut_loops(o, {letter}, {first}, {self.heads[head].arity}, {inputs}u, t, joins, from, lowest, {count});"
        yield from (f"word o{end} = o[{end}];" for end in range(count))

    def held_after(self):
        action = "HOLD(p, m, lowest[from[k]]);"
        yield f"for (int k = 0; k < joins; k++) {{ word p = t[2 * k + 1], m = t[2 * k]; {joined('p', 'm', action)} }}"
        yield "sort_made(made, held);"
        yield "for (int k = 0; k < held; k++) PUSH(made[k].p, made[k].m);"


class Compiler:
    def __init__(self, program, order, functions, by_mpi):
        self.program, self.tags, self.by_mpi = program, Tags(program), by_mpi
        self.is_queue = order == "queue"
        wires = sum(len(rule.wires) for rule in program.rules)
        self.is_one = functions == "one" or functions == "usual" and len(program.rules) <= MOST_RULES and wires <= MOST_WIRES
        self.words = self.pairs = 1
        self.bits = max((len(own) for own in self.tags.constructors), default=0).bit_length() or 1

    def rule_of(self, constructor, destructor):
        return self.program.rule_numbers[constructor, destructor]

    def go(self, code, pair, p, m):
        """How one rule goes on with a pair."""
        if not self.is_one:
            return [f"return (struct pair){{{p}, {m}}};"]
        what, (one, other), _ = pair
        symbol_of = lambda point: code.rule.agents[point[0]] if len(point) == 2 else None
        if what == "own" and not code.is_plus(one):
            one, other = other, one
        constructor, destructor = symbol_of(one), symbol_of(other)
        begin = f"c = {p}; d = {m};"
        if what == "own":
            return [f"{begin} goto r{self.rule_of(constructor, destructor)};"]
        if what == "both":
            head, place = code.ends[one[0]]
            return [f"{begin} goto m{code.heads[head].ports[place]['type']};"]
        kind = self.tags.type_of(constructor if what == "plus" else destructor)
        partners = self.tags.destructors[kind] if what == "plus" else self.tags.constructors[kind]
        if len(partners) > MOST_CASES:
            return [f"{begin} goto m{kind};"]
        rule = lambda partner: self.rule_of(constructor, partner) if what == "plus" else self.rule_of(partner, destructor)
        cases = " ".join(f"case {self.tags.tag[partner]}: goto r{rule(partner)};" for partner in partners)
        return [f"{begin} switch (TAG({'d' if what == 'plus' else 'c'})) {{ {cases} NO_DEFAULT }}"]

    def title(self, number, is_looped):
        heads = " >< ".join(in_comment(self.program.symbols[symbol].name) for symbol in self.program.rules[number].heads)
        return heads + (", with a wire from an agent back to itself" if is_looped else "")

    def bodies(self):
        """Each rule's code: its number, whether a wire leads back, and the statements. What is called comes before who calls it."""
        for number in range(len(self.program.rules)):
            code = Code(self, number)
            for is_looped in (True, False) if code.loops else (False,):
                yield number, is_looped, code.lines(is_looped)
            self.words, self.pairs = max(self.words, code.words), max(self.pairs, code.pairs)

    def one_function(self, bodies):
        """All rules in one function: a jump leads from each to the next one."""
        rules = []
        for number, is_looped, lines in bodies:
            label = f"r{number}_looped" if is_looped else f"r{number}"
            first = [] if is_looped else ["fuel--;"] if self.is_queue else ["if (!fuel) goto pause;", "fuel--;"]
            rules.append("\n  ".join([f"{label}: {{ // {self.title(number, is_looped)}", *first, *lines]) + "\n}")
        cases = [
            [f"case {self.tags.tag[d] << self.bits | self.tags.tag[c]}: goto r{self.rule_of(c, d)};" for d in self.tags.destructors[kind] for c in own]
            for kind, own in enumerate(self.tags.constructors)
        ]
        switch = lambda cases: f"switch (TAG(d) << {self.bits} | TAG(c)) {{ {' '.join(cases)} NO_DEFAULT }}"
        code = "\n".join(rules)
        meets = [f"m{kind}:\n  {switch(own)}" for kind, own in enumerate(cases) if f"goto m{kind};" in code]
        sizes = sorted({symbol.arity for symbol in self.program.symbols if symbol.arity})
        ended, take = "sp == w->bottom", "sp -= 2; c = sp[0]; d = sp[1];"
        if self.is_queue:
            ended, take = f"{ended} || !fuel", "c = w->bottom[0]; d = w->bottom[1]; w->bottom += 2;"
        return "\n".join([
            "#define CELLS(size) f##size\n#define BUMP bump\n#define SP sp\n#define NEXT goto next\n#define LOOPED(number) goto r##number##_looped",
            "// Interacts at most so often: how often it didn't. In its caller's code its variables would have fewer registers.",
            "__attribute__((noinline)) static int64_t reduce(struct worker *w, int64_t fuel) {\n  word c, d, *sp = w->sp, *bump = w->bump;",
            *(f"  word *f{size} = w->free[{size}];" for size in sizes),
            f"{'next:' if 'NEXT;' in code else ''}\n  if ({ended}) goto end;\n  {take}\n  {switch(itertools.chain(*cases))}",
            *meets,
            code,
            *([] if self.is_queue else ["pause:\n  PUSH(c, d);"]),
            "end:",
            *(f"  w->free[{size}] = f{size};" for size in sizes),
            "  w->sp = sp;\n  w->bump = bump;\n  return fuel;\n}",
        ])

    def functions(self, bodies):
        """Each rule in a function, which answers the pair that is gone on with, if any."""
        rules = []
        for number, is_looped, lines in bodies:
            name = f"r{number}_looped" if is_looped else f"r{number}"
            title = f"// {self.title(number, is_looped)}\nstatic struct pair {name}(struct worker *w, word c, word d) {{"
            rules.append("\n  ".join([title, "(void)w; (void)c; (void)d;", *lines]) + "\n}")
        rows, table = [0], []
        for kind, own in enumerate(self.tags.destructors):
            for destructor in own:
                rows.append(len(table))
                table += [f"r{self.rule_of(constructor, destructor)}" for constructor in self.tags.constructors[kind]]
        take = "word *at = w->bottom;\n      w->bottom += 2;" if self.is_queue else "word *at = w->sp -= 2;"
        return "\n".join([
            "struct pair { word c, d; };",
            "#define CELLS(size) w->free[size]\n#define BUMP w->bump\n#define SP w->sp\n#define NEXT return (struct pair){0, 0}",
            "#define LOOPED(number) return r##number##_looped(w, c, d)",
            *rules,
            f"static struct pair (*const rules[])(struct worker *, word, word) = {{{numbers(table)}}};",
            f"static const uint32_t first_rule[] = {{{numbers(rows)}}};",
            "// Interacts at most so often: how often it didn't.",
            "static int64_t reduce(struct worker *w, int64_t fuel) {\n  word c = 0, d = 0;\n  for (; fuel; fuel--) {\n    if (!d) {",
            f"      if (w->sp == w->bottom) return fuel;\n      {take}\n      c = at[0];\n      d = at[1];\n    }}",
            "    struct pair next = rules[first_rule[TAG(d)] + TAG(c) - 1](w, c, d);\n    c = next.c;\n    d = next.d;",
            "  }\n  if (d) PUSH(c, d);\n  return fuel;\n}",
        ])

    def rules(self):
        if not self.program.rules:
            return "static int64_t reduce(struct worker *w, int64_t fuel) {\n  (void)w;\n  return fuel;\n}"
        bodies = list(self.bodies())
        return self.one_function(bodies) if self.is_one else self.functions(bodies)

    def tables(self):
        """The symbols, the net, and the sum by which another net's line is known to be of the same rules."""
        program, net = self.program, self.program.data["net"]
        lines = []
        port = lambda data: f"{{{data['type']}, {int(not data['output'])}, {data['class']}}}"
        for number, symbol in enumerate(program.symbols):
            if symbol.arity:
                lines.append(f"static const struct port ports{number}[] = {{{', '.join(map(port, symbol.ports[1:]))}}};")
        rows = [
            f"{{{quoted(symbol.name)}, {symbol.arity}, {symbol.classes}, {self.tags.tag[number]}, {port(symbol.ports[0])}, {f'ports{number}' if symbol.arity else '0'}}}"
            for number, symbol in enumerate(program.symbols)
        ]
        first = list(itertools.accumulate(map(len, self.tags.constructors), initial=0))
        destructors = list(itertools.chain(*self.tags.destructors))
        frees = [f"{{{quoted(free['name'])}, {{{free['type']}, {int(free['output'])}, 0}}}}" for free in net["free"]]
        point = lambda data: f"{{{data[0]}, {data[1] if len(data) == 2 else -1}}}"
        is_plus = lambda data: program.symbols[net["agents"][data[0]]].ports[data[1]]["output"] if len(data) == 2 else not net["free"][data[0]]["output"]
        wires = [wire if is_plus(wire[0]) else wire[::-1] for wire in net["wires"]]
        rules = rules_text(program)
        counts = {
            "TYPES": len(program.data["types"]), "SYMBOLS": len(program.symbols), "FREE": len(frees), "AGENTS": len(net["agents"]), "WIRES": len(wires),
            "ACTIVE": len(net["active"]), "WORDS": self.words, "PUSHES": self.pairs, "IS_QUEUE": int(self.is_queue), "RULES_LENGTH": len(rules),
        }
        return "\n".join([
            *lines,
            f"static const struct symbol symbols[] = {{{', '.join(rows) or '{0}'}}};",
            "// By tag: the constructors of each type, and the destructors.",
            f"static const uint16_t constructors[] = {{{numbers(itertools.chain(*self.tags.constructors))}}}, first_constructor[] = {{{numbers(first)}}};",
            f"static const uint16_t destructors[] = {{{numbers(destructors)}}}, destructor_types[] = {{{numbers(map(self.tags.type_of, destructors))}}};",
            "// A rule takes at most WORDS words of fresh cells, and makes at most PUSHES pairs.",
            f"enum {{ {', '.join(f'{name} = {count}' for name, count in counts.items())} }};",
            "// Of the line up to the net the length, and its sum.",
            f"static const uint32_t RULES_SUM = {zlib.crc32(rules)}u;",
            f"static const struct free_end own_free_ends[] = {{{', '.join(frees) or '{0}'}}};",
            f"static const uint16_t own_symbols[] = {{{numbers(net['agents'])}}};",
            f"static const struct joint own_joints[] = {{{', '.join(f'{{{point(one)}, {point(other)}}}' for one, other in wires) or '{{0, 0}, {0, 0}}'}}};",
            f"static const uint32_t own_pairs[] = {{{numbers(net['active'])}}};",
        ])

    def text(self):
        # The code comes first: it says how many words and pairs a rule takes.
        rules = self.rules()
        runtime = streams.read_file(RUNTIME)
        for name, part in (("WIRES", WIRES), ("WORKERS", MACHINES if self.by_mpi else WORKERS), ("READER", READER)):
            runtime = runtime.replace(f"//@{name}\n", streams.read_file(part) + "\n")
        if not any(map(looping, self.program.symbols)):
            runtime = re.sub("//@LOOPS\n.*//@END\n", "", runtime, flags=re.DOTALL)
        runtime = runtime.replace("//@MACHINES\n", "#define MACHINES\n" if self.by_mpi else "")
        return runtime.replace("//@TABLES\n", self.tables() + "\n").replace("//@RULES\n", rules + "\n").replace("//@LOOPS\n", "").replace("//@END\n", "")


def check(program):
    """Needs what the code relies on: the limits of a program, and the steps by which its rules and its net are built."""
    net = program.data["net"]
    need = nets.need
    need(len(program.symbols) <= MOST_SYMBOLS and len(program.data["types"]) <= MOST_TYPES, "too many symbols or types")
    need(all(symbol.arity <= MOST_ARITY for symbol in program.symbols), "a symbol has too many ports")
    need(len(net["free"]) <= MOST_FREE_ENDS, "the net has too many free ends")
    need(all(len(rule.agents) <= MOST_MEMBER_AGENTS for rule in program.rules), "a right member has too many agents")
    for number, item in enumerate([*program.data["rules"], net]):
        try:
            steps.check_steps(program, item)
        except (steps.Wrong, LookupError, TypeError, ValueError, AttributeError) as why:
            name = "the net" if item is net else f"rule {number}"
            raise streams.Refused(f"the steps of {name} don't build it: {why}") from None


def main():
    words = argparse.ArgumentParser(description=__doc__, formatter_class=argparse.RawDescriptionHelpFormatter)
    words.add_argument("--order", choices=("newest", "queue"), default="newest",
                       help="which pair is taken first: the newest, which is faster, or the oldest, as `inet run` does with one worker")
    words.add_argument("--functions", choices=("one", "each", "usual"), default="usual",
                       help="all rules in one function, which is faster, or each in its own, which is compiled faster (usually where there are many)")
    words.add_argument("--mpi", action="store_true", help="the program runs as several processes, by MPI, in place of several threads")
    asked = words.parse_args()
    program = nets.Program.read()
    check(program)
    streams.write(Compiler(program, asked.order, asked.functions, asked.mpi).text())


if __name__ == "__main__":
    streams.run(main)
