"""What stands where in a text of `inet`: its tokens, its items, their terms and wires, and what each name is. It takes any text, one that is being
typed too; `inet` alone judges it. Not proved.

A reserved word is no name, so each begins an item anew: what is wrong in one item leaves the others as they are.
"""
import re
from collections import defaultdict
from dataclasses import dataclass, field
from functools import cached_property
from itertools import groupby
from typing import NamedTuple, Optional

# The kinds of tokens.
NAME, RESERVED, SIGN, COMMENT, BAD = "name", "reserved", "sign", "comment", "bad"
# What a name is, where it is one of these.
TYPE, SYMBOL, VARIABLE, FREE = "type", "symbol", "variable", "free"
RESERVED_WORDS = ("type", "symbol", "rule", "net")
MOST_CHARACTERS = 64
PATTERN = re.compile(r"[ \t\r\n]+|(?P<comment>#[^\n]*)|(?P<sign>><|[,;:+\-{}()\[\]~])|(?P<word>[A-Za-z0-9_\u0080-\U0010ffff]+)|(?P<bad>.)", re.DOTALL)


class Token(NamedTuple):
    """A token, and where it begins in the text."""

    kind: str
    text: str
    start: int

    @property
    def end(self):
        return self.start + len(self.text)


def word_tokens(word, start):
    """The tokens of a word: its names, and what no name begins with."""
    place = 0
    while place < len(word):
        end = place + 1
        if ("_" + word[place]).isidentifier():
            while end < len(word) and ("_" + word[end]).isidentifier():
                end += 1
        kind = NAME if word[place].isidentifier() else BAD
        yield Token(kind, word[place:end], start + place)
        place = end


def tokens(text):
    """The tokens of a text, comments among them."""
    for found in PATTERN.finditer(text):
        kind, word, start = found.lastgroup, found.group(), found.start()
        if kind == "word" and word in RESERVED_WORDS:
            yield Token(RESERVED, word, start)
        elif kind == "word" and word.isidentifier():
            yield Token(NAME, word, start)
        elif kind == "word":
            yield from word_tokens(word, start)
        elif kind:
            yield Token(kind, word, start)


def is_name(text):
    """Whether a text is a name of the language."""
    return len(text) <= MOST_CHARACTERS and [token[:2] for token in tokens(text)] == [(NAME, text)]


@dataclass
class Port:
    """A port: the token of its type, its sign, and the number of its pair of braces, 0 for a principal port."""

    type: Token
    sign: str
    braces: int = 0

    def __str__(self):
        return self.type.text + self.sign


@dataclass
class Symbol:
    """A symbol as it is declared, its principal port first."""

    name: Token
    ports: list = field(default_factory=list)

    @property
    def principal(self):
        return self.ports[0] if self.ports else None

    @property
    def auxiliary(self):
        return self.ports[1:]

    def __str__(self):
        pairs = groupby(self.auxiliary, lambda port: port.braces)
        return f"symbol {self.name.text} : {self.principal or ''}{''.join(' {' + ', '.join(map(str, ports)) + '}' for _, ports in pairs)};"


@dataclass
class Term:
    """A term or a head: its name, the terms in its brackets with the places of the ports, and whether it has brackets."""

    name: Token
    arguments: list = field(default_factory=list)
    bracketed: bool = False
    is_head: bool = False


@dataclass
class Equation:
    """The two terms of an equation, or the two heads of a rule, and the sign between them; what isn't there yet is missing."""

    sides: list
    sign: Optional[Token] = None


@dataclass
class Wire:
    """What is joined: points, variables, and the places of the joints. A point is an agent's or a head's term with a port's number, or a free end."""

    points: list
    variables: set
    places: list

    @property
    def is_pair(self):
        """Whether it joins two principal ports of agents."""
        return len(self.points) == 2 and all(isinstance(term, Term) and number == 0 for term, number in self.points)


@dataclass
class Item:
    """A declaration, a rule or the net, from its reserved word to its end."""

    word: Token
    end: int
    symbol: Optional[Symbol] = None
    types: list = field(default_factory=list)
    heads: Optional[Equation] = None
    equations: list = field(default_factory=list)
    free: list = field(default_factory=list)

    @property
    def start(self):
        return self.word.start

    @cached_property
    def free_names(self):
        return {name.text: name for name, _ in self.free}

    @property
    def head_names(self):
        """The names of a rule's heads, those that are there."""
        return [side.name.text for side in self.heads.sides] if self.heads else []

    def terms(self):
        """All terms, heads among them, from the outside in."""
        waiting = [side for equation in [*([self.heads] if self.heads else []), *self.equations] for side in equation.sides]
        while waiting:
            term = waiting.pop()
            yield term
            waiting += [argument for _, argument in term.arguments]


class Name(NamedTuple):
    """A name in the text: its token, what it is, whether it is declared there, and in which item."""

    token: Token
    kind: str
    declared: bool
    item: Item

    @property
    def key(self):
        """What all occurrences of this name have in common."""
        return (self.kind, self.token.text, None if self.kind in (TYPE, SYMBOL) else self.item.start)


# ---- items


def following(found, number):
    """The text of the token after this one."""
    return found[number + 1].text if number + 1 < len(found) else ""


def port_at(found, number, braces=0):
    """The port whose type's name is this token."""
    sign = following(found, number)
    return Port(found[number], sign if sign in ("+", "-") else "", braces)


def read_type(item, found):
    item.types = [token for token in found if token.kind == NAME]


def read_symbol(item, found):
    braces, colon = 0, False
    for number, token in enumerate(found):
        colon |= token.text == ":"
        braces += token.text == "{"
        if token.kind == NAME and colon and item.symbol:
            item.symbol.ports.append(port_at(found, number, braces))
        elif token.kind == NAME and colon:
            # The name is still missing.
            item.types.append(token)
        elif token.kind == NAME and not item.symbol:
            item.symbol = Symbol(token)


class Equations:
    """Reads terms one token after another into equations; a rule's heads are like one."""

    def __init__(self, signs):
        self.signs, self.found, self.current, self.open, self.last = signs, [], None, [], None

    def close(self):
        """The equation ends, and with it all its brackets."""
        self.current, self.open, self.last = None, [], None

    def take(self, token):
        last, self.last = self.last, None
        if token.kind == NAME:
            self.last = Term(token)
            if self.open:
                term, place = self.open[-1]
                term.arguments.append((place, self.last))
            elif self.current and len(self.current.sides) < 2:
                self.current.sides.append(self.last)
            else:
                self.current = Equation([self.last])
                self.found.append(self.current)
        elif token.text in ("(", "["):
            # A bracket behind no name is one more of the term around it.
            if last or self.open:
                self.open.append([last or self.open[-1][0], 1])
                self.open[-1][0].bracketed = True
        elif token.text in (")", "]"):
            self.open[-1:] = []
        elif token.text == ",":
            if self.open:
                self.open[-1][1] += 1
        elif token.text in self.signs:
            self.open = []
            if self.current and not self.current.sign:
                self.current.sign = token
        elif token.text in (";", "{", "}"):
            self.close()

    @property
    def is_complete(self):
        """Whether both terms are there, and their brackets are closed."""
        return bool(self.current) and len(self.current.sides) == 2 and not self.open


def read_rule(item, found):
    heads, begin = Equations(("><",)), len(found)
    for number, token in enumerate(found):
        # A word behind both heads is `with`, or wrong.
        is_word = token.kind == NAME and heads.is_complete and heads.current.sides[1].bracketed
        if is_word or token.text in ("{", ";"):
            begin = number + is_word
            break
        heads.take(token)
    item.heads = heads.found[0] if heads.found else None
    for head in item.heads.sides if item.heads else []:
        head.is_head = True
    read_body(item, found[begin:])


def read_net(item, found):
    begin = next((number for number, token in enumerate(found) if token.text == "{"), len(found))
    for number, token in enumerate(found[:begin]):
        if token.kind == NAME and number and found[number - 1].text == ":":
            if item.free and item.free[-1][1] is None:
                item.free[-1] = (item.free[-1][0], port_at(found, number))
        elif token.kind == NAME:
            item.free.append((token, None))
    read_body(item, found[begin:])


def read_body(item, found):
    equations = Equations(("~",))
    for token in found:
        equations.take(token)
    item.equations = equations.found


READ = {"type": read_type, "symbol": read_symbol, "rule": read_rule, "net": read_net}


def of_item(found):
    """The tokens of an item that belong to it: those up to the `;` or `}` that ends it."""
    word, inside = found[0].text, False
    for number, token in enumerate(found):
        inside = inside and token.text != "}" or token.text == "{" and word in ("rule", "net")
        if token.text == ";" and not inside and word != "net" or token.text == "}" and word == "net":
            return found[: number + 1]
    return found


# ---- the whole


class Reading:
    """A text, as far as it can be read."""

    def __init__(self, text):
        self.text = text
        self.tokens = list(tokens(text))
        self.items = list(self._items())
        self._wires = {}
        self.symbols = {}
        for item in self.items:
            if item.symbol:
                self.symbols.setdefault(item.symbol.name.text, item.symbol)

    def _items(self):
        found = [token for token in self.tokens if token.kind != COMMENT]
        begins = [number for number, token in enumerate(found) if token.kind == RESERVED]
        for begin, end in zip(begins, [*begins[1:], len(found)]):
            own = of_item(found[begin:end])
            item = Item(own[0], own[-1].end)
            READ[item.word.text](item, own[1:])
            yield item

    @cached_property
    def rules(self):
        """The rules by the names of their two heads."""
        rules = {}
        for item in self.items:
            if len(item.head_names) == 2:
                rules.setdefault(frozenset(item.head_names), item)
        return rules

    def is_symbol(self, term):
        """Whether a term is an agent or a head: it has brackets, or its name is a symbol's."""
        return term.bracketed or term.is_head or term.name.text in self.symbols

    def kind_of(self, term, item):
        if self.is_symbol(term):
            return SYMBOL
        return FREE if term.name.text in item.free_names else VARIABLE

    def _names_of(self, item):
        declares = item.word.text == "type"
        yield from (Name(token, TYPE, declares, item) for token in item.types)
        if item.symbol:
            yield Name(item.symbol.name, SYMBOL, True, item)
            yield from (Name(port.type, TYPE, False, item) for port in item.symbol.ports)
        for name, port in item.free:
            yield Name(name, FREE, True, item)
            if port:
                yield Name(port.type, TYPE, False, item)
        yield from (Name(term.name, self.kind_of(term, item), False, item) for term in item.terms())

    @cached_property
    def names(self):
        """All names of which it is known what they are, in the order of the text."""
        return sorted((name for item in self.items for name in self._names_of(item)), key=lambda name: name.token.start)

    @cached_property
    def by_key(self):
        found = defaultdict(list)
        for name in self.names:
            found[name.key].append(name)
        return found

    def same(self, name):
        """All occurrences of what a name is the name of."""
        return self.by_key[name.key]

    def wires(self, item):
        """The wires of a rule or of the net, in the order of their places, each with all that is joined."""
        if item.start not in self._wires:
            self._wires[item.start] = sorted(joined(self, item), key=lambda wire: max(wire.places))
        return self._wires[item.start]


def joined(reading, item):
    """What is joined in a rule or in the net."""
    edges = defaultdict(list)
    agents = {}

    def node(term):
        kind = reading.kind_of(term, item)
        if kind != SYMBOL:
            return (kind, term.name.text)
        agents[term.name.start] = term
        return (SYMBOL, term.name.start, 0)

    def join(one, other, place):
        edges[one].append((other, place))
        edges[other].append((one, place))

    for term in item.terms():
        for place, argument in term.arguments:
            node(term)
            join((SYMBOL, term.name.start, place), node(argument), argument.name.start)
    for equation in item.equations:
        if equation.sign and len(equation.sides) == 2:
            join(*map(node, equation.sides), equation.sign.start)
    met = set()
    for begin in edges:
        if begin in met:
            continue
        wire, waiting = Wire([], set(), []), [begin]
        met.add(begin)
        while waiting:
            one = waiting.pop()
            if one[0] == SYMBOL:
                wire.points.append((agents[one[1]], one[2]))
            elif one[0] == FREE:
                wire.points.append((item.free_names[one[1]], None))
            else:
                wire.variables.add(one[1])
            for other, place in edges[one]:
                wire.places.append(place)
                if other not in met:
                    met.add(other)
                    waiting.append(other)
        yield wire
