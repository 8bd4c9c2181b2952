"""Programs as `inet_export` writes them, and nets that are reduced by their rules: what the tools of this folder share.

docs/use/EXPORT.md has the format. A point is a tuple: (agent, place) for an agent's port, place 0 being the principal one, and (number,) for
a free end. An active pair is a tuple of two agents, the constructor first.
"""
import itertools
import json
import random
import shutil
import subprocess
from collections import Counter

import streams

# Limits of `inet run`: it stops at as many interactions where it isn't told otherwise.
USUAL_LIMIT = 1_000_000
# The form of the line that these tools read.
FORMAT = 1


def is_principal(point):
    return len(point) == 2 and point[1] == 0


class Symbol:
    def __init__(self, data):
        self.name = data["name"]
        self.ports = data["ports"]
        self.arity = len(self.ports) - 1
        self.is_constructor = self.ports[0]["output"]
        # How many classes the auxiliary ports are in.
        self.classes = max(port["class"] for port in self.ports)


class Rule:
    def __init__(self, data):
        self.heads = data["constructor"], data["destructor"]
        self.agents = data["agents"]
        self.wires = [(tuple(one), tuple(other)) for one, other in data["wires"]]
        self.active = data["active"]


class Program:
    def __init__(self, data):
        self.data = data
        self.symbols = [Symbol(symbol) for symbol in data["symbols"]]
        self.rules = [Rule(rule) for rule in data["rules"]]
        self.rule_numbers = {rule.heads: number for number, rule in enumerate(self.rules)}

    @staticmethod
    def read():
        """The program on standard input. What is no line of this form is refused, with the reason: where the program was refused or memory ran
        out, with its line."""
        text = streams.read_text()
        if text.startswith(("refused", "memory")):
            raise streams.Refused(text.strip())
        if not text.startswith("{"):
            raise streams.Refused("no exported program on standard input: write ./inet_export < PROGRAM.inet | ..")
        try:
            data = json.loads(text)
        except (ValueError, RecursionError):
            raise streams.Refused("this begins as an exported program, and goes on as none: is it cut off?") from None
        if data.get("format") != FORMAT:
            raise streams.Refused(f"this line has format {data.get('format', 'none')}, and this tool reads format {FORMAT} alone (docs/use/EXPORT.md)")
        check_form(data)
        return Program(data)

    def places(self, rule):
        """The auxiliary ports that a rule's boundary ends stand for: the number of a head (0: the constructor) and the place."""
        return [(head, place) for head in (0, 1) for place in range(1, self.symbols[rule.heads[head]].arity + 1)]


def need(condition, what):
    if not condition:
        raise streams.Refused(f"this line isn't as docs/use/EXPORT.md says: {what}")


def is_list_of(items, test):
    return isinstance(items, list) and all(map(test, items))


def numbers_below(most):
    """Whether something is a number from 0 on that is below this one."""
    return lambda number: type(number) is int and 0 <= number < most


def is_port(types):
    """Whether something is the type and the sign of a port or a free end."""
    return lambda port: isinstance(port, dict) and numbers_below(types)(port.get("type")) and isinstance(port.get("output"), bool)


def check_form(data):
    """Needs of a line what a reduction relies on: numbers that name something, each point in one wire, wires that fit, one rule for each pair."""
    types, symbols = data.get("types"), data.get("symbols")
    need(is_list_of(types, lambda name: isinstance(name, str)), "`types`")
    port, number = is_port(len(types)), numbers_below(1 << 32)
    need(is_list_of(symbols, lambda symbol: isinstance(symbol, dict) and isinstance(symbol.get("name"), str)), "`symbols`")
    for symbol in symbols:
        ports = symbol.get("ports")
        need(is_list_of(ports, lambda one: port(one) and number(one.get("class"))) and ports, f"the ports of `{symbol['name']}`")
    is_symbol, rules, net = numbers_below(len(symbols)), data.get("rules"), data.get("net")
    need(is_list_of(rules, lambda rule: isinstance(rule, dict)), "`rules`")
    met = Counter()
    for place, rule in enumerate(rules):
        heads = rule.get("constructor"), rule.get("destructor")
        need(all(map(is_symbol, heads)), f"the heads of rule {place}")
        met[heads] += 1
        check_part(symbols, rule, [end for head in heads for end in symbols[head]["ports"][1:]], f"rule {place}")
    kinds = {}
    for number, symbol in enumerate(symbols):
        kinds.setdefault((symbol["ports"][0]["type"], symbol["ports"][0]["output"]), []).append(number)
    pairs = [pair for kind in range(len(types)) for pair in itertools.product(kinds.get((kind, True), ()), kinds.get((kind, False), ()))]
    need(met == dict.fromkeys(pairs, 1), "not each pair of symbols that match has one rule")
    need(isinstance(net, dict) and is_list_of(net.get("free"), lambda end: port(end) and isinstance(end.get("name"), str)), "`net`")
    check_part(symbols, net, net["free"], "the net")


def check_part(symbols, part, free, name):
    """Needs the same of a right member or of the net, with these free ends."""
    agents, wires, active = (part.get(word) for word in ("agents", "wires", "active"))
    need(is_list_of(agents, numbers_below(len(symbols))), f"the agents of {name}")
    need(all(isinstance(part.get(word), list) for word in ("nodes", "steps")), f"nodes or steps of {name}")
    # What stands at each point, seen from inside: its type, and whether it gives; a free end has the opposite sign of its declaration.
    signs = {(number, place): (port["type"], port["output"]) for number, agent in enumerate(agents) for place, port in enumerate(symbols[agent]["ports"])}
    signs.update({(number,): (end["type"], not end["output"]) for number, end in enumerate(free)})
    need(is_list_of(wires, lambda wire: is_list_of(wire, lambda point: is_list_of(point, lambda number: type(number) is int)) and len(wire) == 2), f"the wires of {name}")
    points = Counter(tuple(point) for wire in wires for point in wire)
    need(points == dict.fromkeys(signs, 1), f"not each point of {name} is in one wire")
    ends = [[signs[tuple(point)] for point in wire] for wire in wires]
    need(all(one[0] == other[0] and one[1] != other[1] for one, other in ends), f"a wire of {name} doesn't fit")
    need(is_list_of(active, numbers_below(len(wires))), f"the active pairs of {name}")
    pairs = [number for number, wire in enumerate(wires) if all(is_principal(point) for point in wire)]
    need(sorted(active) == pairs, f"the active pairs of {name}")


class Net:
    """A net under reduction: its agents by number, the partner of each point, and its active pairs in the order of the queue."""

    def __init__(self, program, agents, wires, free, active):
        self.program = program
        self.agents = dict(enumerate(agents))
        self.free = free
        self.partner = {}
        for one, other in wires:
            self.join(one, other)
        self.queue = [self.pair(*wires[number]) for number in active]
        self.unused = len(agents)
        self.interactions = 0

    @staticmethod
    def initial(program):
        net = program.data["net"]
        wires = [(tuple(one), tuple(other)) for one, other in net["wires"]]
        return Net(program, net["agents"], wires, [end["name"] for end in net["free"]], net["active"])

    @staticmethod
    def member(program, rule):
        """A rule's right member as a net, whose free ends are its boundary ends."""
        return Net(program, rule.agents, rule.wires, [str(number) for number, _ in enumerate(program.places(rule))], rule.active)

    def symbol(self, agent):
        return self.program.symbols[self.agents[agent]]

    def join(self, one, other):
        self.partner[one] = other
        self.partner[other] = one

    def pair(self, one, other):
        """The active pair of two principal ports that are joined."""
        a, b = one[0], other[0]
        return (a, b) if self.symbol(a).is_constructor else (b, a)

    def rule_of(self, pair):
        """The number of the rule of an active pair."""
        return self.program.rule_numbers[self.agents[pair[0]], self.agents[pair[1]]]

    def interact(self, pair):
        """One interaction: the pair is replaced by the right member of its rule. Lafont 1990."""
        rule = self.program.rules[self.rule_of(pair)]
        new = {number: self.unused + number for number in range(len(rule.agents))}
        self.unused += len(new)
        self.interactions += 1
        self.queue.remove(pair)
        # The right member stands beside the net. Its boundary ends are tuples of three, which no point of the net is.
        inside = lambda point: (new[point[0]], point[1]) if len(point) == 2 else ("boundary", "end", point[0])
        for number, symbol in enumerate(rule.agents):
            self.agents[new[number]] = symbol
        for one, other in rule.wires:
            self.join(inside(one), inside(other))
        # What is joined to a boundary end and to the port that it stands for is joined to each other. From the last end to the first: so a
        # pair is made at the first end on its path.
        made = []
        for number, (head, place) in reversed(list(enumerate(self.program.places(rule)))):
            outer = self.partner.pop((pair[head], place))
            inner = self.partner.pop(("boundary", "end", number))
            self.join(outer, inner)
            if is_principal(outer) and is_principal(inner):
                made.append(self.pair(outer, inner))
        for agent in pair:
            del self.agents[agent], self.partner[agent, 0]
        own = [self.pair(*map(inside, rule.wires[number])) for number in rule.active]
        self.queue += made[::-1] + own

    def run(self, choose, limit=USUAL_LIMIT):
        """Interacts until no active pair is left, or as often as the limit says; `choose` takes one of the queue."""
        while self.queue and self.interactions < limit:
            self.interact(choose(self.queue))

    # ---- text

    def term(self, point, numbers):
        """The term at a point: the agent whose principal port its partner is, or the variable of its wire."""
        written, waiting = [], [point]
        while waiting:
            here = waiting.pop()
            if isinstance(here, str):
                written.append(here)
                continue
            partner = self.partner[here]
            if not is_principal(partner):
                number = numbers.setdefault(frozenset((here, partner)), len(numbers) + 1)
                written.append(f"v{number}")
                continue
            symbol = self.symbol(partner[0])
            written.append(symbol.name)
            if symbol.arity:
                places = [(partner[0], place) for place in range(1, symbol.arity + 1)]
                parts = [part for place in places for part in (", ", place)][1:]
                waiting += [")", *reversed(parts), "("]
        return "".join(written)

    def lines(self):
        """The net as `inet run` prints it: a line for each free end, and then one for each active pair of the queue."""
        numbers = {}
        free = [f"{name} = {self.term((number,), numbers)}" for number, name in enumerate(self.free)]
        return free + [f"{self.term((b, 0), numbers)} ~ {self.term((a, 0), numbers)}" for a, b in self.queue]


def rule_text(program, rule):
    """A rule in the language: its two heads with the terms at their places, and its own equations."""
    member, numbers = Net.member(program, rule), {}
    terms = {place: member.term((number,), numbers) for number, place in enumerate(program.places(rule))}
    heads = [
        f"{program.symbols[symbol].name}[{', '.join(terms[head, place] for place in range(1, program.symbols[symbol].arity + 1))}]"
        for head, symbol in enumerate(rule.heads)
    ]
    own = [f"{member.term((b, 0), numbers)} ~ {member.term((a, 0), numbers)};" for a, b in member.queue]
    return f"rule {heads[0]} >< {heads[1]}" + (f" with {{ {' '.join(own)} }}" if own else "") + ";"


def chooser(order, seed=0):
    """Which active pair of a queue is taken: the first one (as `inet run` does with one worker), the last one, or any."""
    if order == "random":
        return random.Random(seed).choice
    return (lambda queue: queue[0]) if order == "queue" else (lambda queue: queue[-1])


# ---- pictures

MARKED = "#c0392b"


def quoted(text):
    return '"' + text.replace("\\", "\\\\").replace('"', '\\"') + '"'


def dot(net, next_pair=None):
    """The net in the language of Graphviz: agents are circles, free ends are names, and each principal port is an arrow out of its agent.
    Active pairs are marked, and of these the next one is filled."""
    name = lambda point: f"agent{point[0]}" if len(point) == 2 else f"free{point[0]}"
    active = {agent for pair in net.queue for agent in pair}
    lines = ["graph net {", "  graph [rankdir=TB, nodesep=0.35, ranksep=0.45];", '  node [fontname="sans-serif", fontsize=13];',
             '  edge [fontname="sans-serif", fontsize=9, dir=both, arrowsize=0.8];']
    for number, free in enumerate(net.free):
        lines.append(f"  free{number} [shape=plaintext, label={quoted(free)}];")
    for agent in net.agents:
        colour = f', color="{MARKED}", penwidth=2' if agent in active else ""
        filled = ', style=filled, fillcolor="#fadbd8"' if next_pair and agent in next_pair else ""
        lines.append(f"  agent{agent} [shape=circle, margin=0.04, label={quoted(net.symbol(agent).name)}{colour}{filled}];")
    there = [point for point in net.partner if len(point) == 1 or point[0] in net.agents]
    for one in there:
        other = net.partner[one]
        if one > other:
            continue
        # The two ends of a wire: an arrow out of the agent at a principal port, the number of the place at another port.
        ends = [f"arrow{end}={'inv' if is_principal(point) else 'none'}" for end, point in (("tail", one), ("head", other))]
        ends += [f'{end}label="{point[1]}"' for end, point in (("tail", one), ("head", other)) if len(point) == 2 and point[1]]
        marked = is_principal(one) and is_principal(other)
        ends += [f'color="{MARKED}"', "penwidth=2.5"] if marked else []
        lines.append(f"  {name(one)} -- {name(other)} [{', '.join(ends)}];")
    return "\n".join([*lines, "}", ""])


def svg(text):
    """A picture of this text of Graphviz as SVG, None where Graphviz isn't there or draws nothing."""
    if not shutil.which("dot"):
        return None
    drawn = subprocess.run(["dot", "-Tsvg"], input=text.encode(errors="backslashreplace"), stdout=subprocess.PIPE, check=False).stdout.decode()
    return drawn[drawn.index("<svg"):] if "<svg" in drawn else None
