"""The order in which the nodes of an open net are taken out, by two ways, with `in_harness orders`: found one by one, and guessed. On random right
members and nets both ways come to one order, the check says yes to it, and it has all nodes exactly when steps build the net."""
import os
import random
import re
from concurrent.futures import ThreadPoolExecutor
from functools import partial

from harness.asked import harness_program

TEXTS, RULES = 100, 50
# The greatest number of nodes that grow in a right member and in a net, before ends are closed.
OF_MEMBER, OF_NET = 24, 90
# The least number of nets that are built, that are stuck, and that are built though they have extra wires.
LEAST = {"derived": 1_500, "stuck": 1_500, "derived with extra wires": 200}
LINE = re.compile(r"(\d+) nodes, (\d+) taken out, (derived|stuck at (\d+)): same, yes")


class Growing:
    """Nodes with classes of ports, put together as steps do, so that steps build the net; then with extra wires, which may hinder that."""

    def __init__(self, chance):
        self.chance = chance
        self.classes, self.wires, self.pieces = [], [], []

    def graft(self, classes):
        """A new node: the ports of each class may lead into pieces that no other class leads into. All of these become one piece."""
        node = len(self.classes)
        self.classes.append(classes)
        taken, opened = {}, []
        for number, ports in enumerate(classes):
            for port in ports:
                fits = [piece for piece in self.pieces if piece and taken.get(id(piece), number) == number]
                if fits and self.chance.random() < 0.75:
                    piece = self.chance.choice(fits)
                    taken[id(piece)] = number
                    self.wires.append(((node, port), piece.pop(self.chance.randrange(len(piece)))))
                else:
                    opened.append((node, port))
        for piece in self.pieces:
            if id(piece) in taken:
                opened += piece
        self.pieces = [piece for piece in self.pieces if id(piece) not in taken] + [opened]

    def add_wires(self, most):
        """Joins up to so many ends of one piece each: how many."""
        done = 0
        for _ in range(most):
            fits = [piece for piece in self.pieces if len(piece) > 1]
            if fits:
                piece = self.chance.choice(fits)
                self.chance.shuffle(piece)
                self.wires.append((piece.pop(), piece.pop()))
                done += 1
        return done

    def ends(self):
        return [end for piece in self.pieces for end in piece]


def symbol_classes(chance):
    """The classes of a symbol's ports, the principal port first."""
    classes, port = [[0]], 1
    for _ in range(chance.choice((0, 1, 1, 2, 2, 3, 4))):
        size = chance.choice((1, 1, 2, 2, 3, 4))
        classes.append(list(range(port, port + size)))
        port += size
    return classes


def declared(name, classes):
    return f"symbol {name} : t+{''.join(' {' + ', '.join('t-' for _ in ports) + '}' for ports in classes[1:])};"


def applied(name, variables):
    return f"{name}({', '.join(variables)})" if variables else name


def equations(growing, names, variables):
    """An equation for each node that has a name, in an order by chance."""
    lines = []
    for node, name in enumerate(names):
        if name:
            first, *others = (variables[node, port] for port in sorted(port for ports in growing.classes[node] for port in ports))
            lines.append(f"{applied(name, others)} ~ {first};")
    growing.chance.shuffle(lines)
    return " ".join(lines)


def grown(chance, symbols, most, fixed, most_ends):
    """A net of the given nodes, which have no name, and up to so many with one, where it has no more than `most_ends` of these and of open ends: the
    net, its open ends, the names of its nodes, the numbers of the given ones, and whether it has no extra wire."""
    while True:
        growing, names, places = Growing(chance), [], {}
        grafts = [(None, classes) for classes in fixed] + [chance.choice(symbols) for _ in range(chance.randint(1, most))]
        chance.shuffle(grafts)
        for name, classes in grafts:
            places[id(classes)] = len(names)
            names.append(name)
            growing.graft(classes)
        extra = growing.add_wires(chance.choice((0, 0, 1, 2, 5)))
        ends = growing.ends()
        if len(ends) + len(names) <= most_ends:
            return growing, ends, names, [places[id(classes)] for classes in fixed], not extra


def variables_of(growing, closed):
    """The variable at each port; those of the given open ends are numbered from 0."""
    variables = {end: f"e{number}" for number, end in enumerate(closed)}
    for number, wire in enumerate(growing.wires):
        variables.update((end, f"w{number}") for end in wire)
    return variables


def some_rule(chance, symbols):
    """A rule, and whether its right member has no extra wire. A class of a head is a node whose ports are a class each."""
    heads = [chance.choice(symbols) for _ in range(2)]
    fixed = [[[port] for port in range(len(ports))] for _, classes in heads for ports in classes[1:]]
    growing, closed, names, nodes, is_plain = grown(chance, symbols, OF_MEMBER, fixed, 64)
    variables = variables_of(growing, closed)
    told, at = [], iter(nodes)
    for name, classes in heads:
        terms = [variables[node, port] for ports, node in zip(classes[1:], at) for port in range(len(ports))]
        told.append(f"{name}[{', '.join(terms)}]")
    body = equations(growing, names, variables) + "".join(f" End ~ e{number};" for number in range(len(closed)))
    return f"rule {told[0]} >< {told[1]} with {{ {body} }};", is_plain


def some_net(chance, symbols):
    growing, free, names, _, is_plain = grown(chance, symbols, OF_NET, [], 256)
    declarations = ", ".join(f"e{number} : t+" for number in range(len(free)))
    return f"net ({declarations}) {{ {equations(growing, names, variables_of(growing, free))} }}", is_plain


def some_text(seed):
    """A text, and for each of its rules and its net whether it has no extra wire. It is read; types and pairs of symbols aren't checked."""
    chance = random.Random(seed)
    symbols = [(f"s{number}", symbol_classes(chance)) for number in range(12)]
    rules = [some_rule(chance, symbols) for _ in range(RULES)]
    net = some_net(chance, symbols)
    lines = ["type t;", declared("End", [[0]]), *(declared(*symbol) for symbol in symbols), *(text for text, _ in (*rules, net))]
    return "\n".join(lines), [plain for _, plain in (*rules, net)]


class Compared:
    """What is said of the open nets of a text: what is wrong, and how many of each kind there are."""

    def __init__(self, harness, seed):
        text, plain = some_text(seed)
        answer = harness.run(["orders"], text.encode())
        lines = answer.output.decode().splitlines()
        self.kinds = []
        self.wrong = None if answer.status == 0 and len(lines) == len(plain) else f"{answer}: {text}"
        for number, (line, is_plain) in enumerate(zip(lines, plain)):
            found = LINE.fullmatch(line)
            if not found or not self.is_right(found, is_plain):
                self.wrong = f"net {number}: {line!r}: {text}"
                break

    def is_right(self, found, is_plain):
        nodes, taken, derived = int(found[1]), int(found[2]), found[3] == "derived"
        self.kinds.append("derived" if derived else "stuck")
        if derived and not is_plain:
            self.kinds.append("derived with extra wires")
        return derived == (nodes == taken) and (derived or not is_plain) and (derived or int(found[4]) < nodes)


def wrong_kinds(kinds):
    """What is wrong with the kinds of nets: some of each have to be among them."""
    counts = {kind: kinds.count(kind) for kind in LEAST}
    return None if all(counts[kind] >= least for kind, least in LEAST.items()) else f"too few: {counts}"


def orders(program):
    harness = harness_program(program, "orders")
    kinds = []
    with ThreadPoolExecutor(os.cpu_count()) as pool:
        for seed, compared in enumerate(pool.map(partial(Compared, harness), range(TEXTS))):
            kinds += compared.kinds
            yield f"text {seed}", lambda wrong=compared.wrong: wrong
    yield "nets of each kind", partial(wrong_kinds, kinds)
