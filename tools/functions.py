"""A small functional language of first order: its texts, what they must satisfy, and what a program means without any net.

A program is a list of items, and `;` begins a comment:

    (data nat Z (S nat))                            a type and its constructors, each with the types of its fields
    (fun add ((x nat) (y nat)) nat EXPRESSION)      a function: its parameters, the type of its result, its body
    (main nat EXPRESSION)                           what is computed

    EXPRESSION = NAME | NUMBER | (CONSTRUCTOR EXPRESSION ..) | (FUNCTION EXPRESSION ..)
               | (let NAME EXPRESSION EXPRESSION) | (match EXPRESSION (PATTERN EXPRESSION) ..)
    PATTERN    = CONSTRUCTOR | (CONSTRUCTOR NAME ..)

A variable may be used any number of times, `_` in a pattern is a field that isn't used, and a number is one of the type `nat`, which is
declared as above. Arguments are computed first; of a match the branch of the value alone is.
"""
import re
from collections import Counter
from dataclasses import dataclass, field
from difflib import get_close_matches
from functools import lru_cache
from typing import NamedTuple

from streams import Refused

# Brackets within brackets; the largest number, so that a net could hold it; the most characters of a name.
MOST_DEPTH = 500
MOST_NUMBER = 1_000_000
MOST_CHARACTERS = 64
# The most fields of a constructor.
MOST_FIELDS = 16
# The most constructors of a value that is written.
MOST_WRITTEN = 10_000_000
# Words of `inet`, which no name may be, and those of this language.
RESERVED = {"type", "symbol", "rule", "net", "let", "match", "data", "fun", "main", "_"}
WORD = re.compile(r";[^\n]*|[()]|[^\s();]+")


class Place(NamedTuple):
    """A line and a column, both from 1."""

    line: int
    column: int


class Fault(Exception):
    """What is wrong with a program, and where."""

    def __init__(self, place, what):
        super().__init__(what)
        self.place = place


class Word(NamedTuple):
    place: Place
    text: str


class Group(NamedTuple):
    """What stands in one pair of brackets."""

    place: Place
    parts: tuple


def read(text):
    """The words and groups of a text."""
    opened, line, begin, before = [(None, [])], 1, 0, -1
    for found in WORD.finditer(text):
        line += text.count("\n", begin, found.start())
        before = max(before, text.rfind("\n", begin, found.start()))
        begin = found.start()
        place, word = Place(line, begin - before), found[0]
        if word == "(":
            opened.append((place, []))
            if len(opened) > MOST_DEPTH + 1:
                raise Fault(place, f"more than {MOST_DEPTH} brackets stand within each other: make a function of a part")
        elif word == ")":
            if len(opened) == 1:
                raise Fault(place, "this bracket closes none")
            where, parts = opened.pop()
            opened[-1][1].append(Group(where, tuple(parts)))
        elif not word.startswith(";"):
            opened[-1][1].append(Word(place, word))
    if len(opened) > 1:
        raise Fault(opened[-1][0], "this bracket isn't closed")
    return opened[0][1]


# ---- expressions

class Kept:
    """A property that is computed once. Unlike `functools.cached_property` before Python 3.12 it has no lock, for which two threads could wait."""

    def __init__(self, compute):
        self.compute = compute

    def __get__(self, made, _):
        value = made.__dict__[self.compute.__name__] = self.compute(made)
        return value


@dataclass(eq=False)
class Variable:
    """What is bound at one place: a parameter, a field of a pattern, or the name of a `let`."""

    name: str
    type: str


@dataclass(frozen=True, eq=False)
class Expression:
    place: Place
    type: str

    # What is computed at this place before the expression itself.
    parts = ()

    @Kept
    def uses(self):
        """How often each variable is used; what a rule of its own takes along counts once."""
        total = Counter()
        for part in self.parts:
            total.update(part.uses)
        return total


@dataclass(frozen=True, eq=False)
class Use(Expression):
    variable: Variable

    @Kept
    def uses(self):
        return Counter([self.variable])


@dataclass(frozen=True, eq=False)
class Number(Expression):
    value: int


@dataclass(frozen=True, eq=False)
class Build(Expression):
    """A constructor with its fields."""

    head: str
    parts: tuple


@dataclass(frozen=True, eq=False)
class Call(Expression):
    """A function with its arguments."""

    head: str
    parts: tuple


@dataclass(frozen=True, eq=False)
class Let(Expression):
    variable: Variable
    parts: tuple  # the value and the body

    @Kept
    def uses(self):
        value, body = self.parts
        return value.uses + Counter({name: count for name, count in body.uses.items() if name is not self.variable})


@dataclass(frozen=True, eq=False)
class Branch:
    constructor: str
    fields: tuple  # a variable for each; None where it isn't used
    body: Expression


@dataclass(frozen=True, eq=False)
class Match(Expression):
    branches: tuple
    parts: tuple  # what is matched, alone

    @property
    def on(self):
        return self.parts[0]

    @Kept
    def captured(self):
        """What the branches use and don't bind, but the variable that is matched: each branch has its parts."""
        matched = self.on.variable if isinstance(self.on, Use) else None
        found = {name: None for branch in self.branches for name in branch.body.uses if name not in branch.fields and name is not matched}
        return list(found)

    @Kept
    def uses(self):
        return self.on.uses + Counter(self.captured)


# ---- programs

@dataclass
class Constructor:
    type: str
    fields: list


@dataclass
class Function:
    place: Place
    name: str
    parameters: list
    result: str
    body: Expression = None


@dataclass
class Program:
    """A program whose names and types are right."""

    types: dict = field(default_factory=dict)  # the names of each type's constructors
    constructors: dict = field(default_factory=dict)
    functions: dict = field(default_factory=dict)
    words: set = field(default_factory=set)
    main: Function = None

    @Kept
    def answer(self):
        """The name of the result, which is no other name of the program."""
        names = ("answer" + "_" * count for count in range(len(self.words) + 1))
        return next(name for name in names if name not in self.words)


def several(count, what):
    """So many of these, in words."""
    return f"{count} {what}{'' if count == 1 else 's'}"


class Checker:
    """Makes a program of a text, or says what is wrong with it."""

    def __init__(self, text):
        self.program = Program()
        items = [self.item(part) for part in read(text)]
        for word, parts in items:
            if word.text == "data":
                self.declare_type(word, parts)
        functions = [self.declare_function(word, parts) for word, parts in items if word.text == "fun"]
        mains = [(word, parts) for word, parts in items if word.text == "main"]
        if len(mains) != 1:
            where = mains[1][0].place if mains else Place(text.count("\n") + 1, len(text) - text.rfind("\n"))
            raise Fault(where, "a program has one `main`, and this is a second one" if mains else "there is no `main`: write (main TYPE EXPRESSION)")
        self.declare_fields(items)
        for function, body in functions:
            scope = {variable.name: variable for variable in function.parameters}
            function.body = self.typed(body, scope, function.result, f"the result of `{function.name}`")
        word, parts = mains[0]
        if len(parts) != 2:
            raise Fault(word.place, "write (main TYPE EXPRESSION)")
        kind = self.type_name(parts[0])
        self.program.main = Function(word.place, "main", [], kind, self.typed(parts[1], {}, kind, "`main`"))

    # -- declarations

    @staticmethod
    def item(part):
        """The word with which an item begins, and the rest."""
        if isinstance(part, Word) or not part.parts or not isinstance(part.parts[0], Word) or part.parts[0].text not in ("data", "fun", "main"):
            raise Fault(part.place, "here an item begins: (data ..), (fun ..) or (main ..)")
        return part.parts[0], part.parts[1:]

    def name(self, part, what):
        """The name that is declared here."""
        if not isinstance(part, Word):
            raise Fault(part.place, f"here stands {what}")
        if not part.text.isidentifier():
            raise Fault(part.place, f"`{part.text}` is no name: it has letters, digits and _, and begins with no digit")
        if part.text in RESERVED:
            raise Fault(part.place, f"`{part.text}` is a word of the language, and so it can't be {what}")
        if len(part.text) > MOST_CHARACTERS:
            raise Fault(part.place, f"a name has at most {MOST_CHARACTERS} characters")
        self.program.words.add(part.text)
        return part.text

    def type_name(self, part):
        """The type that is named here."""
        if not isinstance(part, Word):
            raise Fault(part.place, "here stands a type's name: types have no parameters")
        if part.text not in self.program.types:
            raise Fault(part.place, f"there is no type `{part.text}`: declare it with (data {part.text} ..)")
        return part.text

    def declare_type(self, word, parts):
        if len(parts) < 2:
            raise Fault(word.place, "write (data NAME CONSTRUCTOR ..), where a constructor with fields is (NAME TYPE ..)")
        kind = self.name(parts[0], "a type's name")
        if kind in self.program.types:
            raise Fault(parts[0].place, f"the type `{kind}` is declared twice")
        heads = [form.parts[0] if isinstance(form, Group) and form.parts else form for form in parts[1:]]
        self.program.types[kind] = [self.new(head, "a constructor") for head in heads]
        self.program.constructors.update({name: Constructor(kind, []) for name in self.program.types[kind]})

    def declare_fields(self, items):
        """The fields of the constructors: their types may be declared further on."""
        for word, parts in items:
            for form in parts[1:] if word.text == "data" else ():
                if isinstance(form, Group):
                    head, *fields = form.parts
                    self.program.constructors[head.text].fields += [self.type_name(field) for field in fields]
                    if len(fields) > MOST_FIELDS:
                        raise Fault(form.place, f"`{head.text}` has {len(fields)} fields, and a constructor has at most {MOST_FIELDS}")

    def new(self, part, what):
        """A name of a constructor or a function, which no other one has."""
        name = self.name(part, f"{what}'s name")
        if name in self.program.constructors or name in self.program.functions:
            raise Fault(part.place, f"`{name}` is declared twice")
        self.program.constructors[name] = None
        return name

    def declare_function(self, word, parts):
        if len(parts) != 4 or not isinstance(parts[1], Group):
            raise Fault(word.place, "write (fun NAME ((NAME TYPE) ..) TYPE EXPRESSION)")
        name = self.new(parts[0], "a function")
        del self.program.constructors[name]
        parameters = []
        for part in parts[1].parts:
            if isinstance(part, Word) or len(part.parts) != 2:
                raise Fault(part.place, "a parameter is (NAME TYPE)")
            variable = Variable(self.name(part.parts[0], "a parameter"), self.type_name(part.parts[1]))
            if any(variable.name == other.name for other in parameters):
                raise Fault(part.place, f"two parameters have the name `{variable.name}`")
            parameters.append(variable)
        function = Function(parts[0].place, name, parameters, self.type_name(parts[2]))
        self.program.functions[name] = function
        return function, parts[3]

    # -- expressions

    def typed(self, part, scope, wanted, what):
        """The expression of a part, which must have this type."""
        made = self.expression(part, scope, wanted)
        if wanted is not None and made.type != wanted:
            raise Fault(part.place, f"this is of the type `{made.type}`, and {what} is of the type `{wanted}`")
        return made

    def expression(self, part, scope, wanted):
        """The expression of a part; what is wanted is known where something stands around it, and else None."""
        if isinstance(part, Word):
            return self.bare(part, scope)
        if not part.parts or not isinstance(part.parts[0], Word):
            raise Fault(part.place, "a bracket begins with a constructor, a function, `let` or `match`")
        head, *rest = part.parts
        if head.text == "let":
            return self.let(part, rest, scope, wanted)
        if head.text == "match":
            return self.match(part, rest, scope, wanted)
        if head.text in scope or head.text.isdigit():
            raise Fault(head.place, f"`{head.text}` is no function: write it without brackets")
        return self.applied(part.place, head, rest, scope)

    def bare(self, word, scope):
        if word.text in scope:
            return Use(word.place, scope[word.text].type, scope[word.text])
        if word.text.isascii() and word.text.isdigit():
            shape = [(name, self.program.constructors[name].fields) for name in self.program.types.get("nat", ())]
            if shape != [("Z", []), ("S", ["nat"])]:
                raise Fault(word.place, "numbers are of the type `nat`: declare it with (data nat Z (S nat))")
            if len(word.text) > len(str(MOST_NUMBER)) or int(word.text) > MOST_NUMBER:
                raise Fault(word.place, f"a number is at most {MOST_NUMBER}")
            return Number(word.place, "nat", int(word.text))
        return self.applied(word.place, word, [], scope)

    def applied(self, place, head, rest, scope):
        """A constructor or a function with what it is applied to."""
        if head.text in self.program.constructors:
            of, form, what = self.program.constructors[head.text], Build, "field"
            kinds, kind = of.fields, of.type
        elif head.text in self.program.functions:
            of, form, what = self.program.functions[head.text], Call, "parameter"
            kinds, kind = [variable.type for variable in of.parameters], of.result
        else:
            raise Fault(head.place, f"`{head.text}` is not known here{self.nearest(head.text, scope)}")
        if len(kinds) != len(rest):
            raise Fault(place, f"`{head.text}` has {several(len(kinds), what)}, and {len(rest) or 'none'} {'is' if len(rest) < 2 else 'are'} given")
        parts = [self.typed(part, scope, kind, f"this {what} of `{head.text}`") for part, kind in zip(rest, kinds)]
        return form(place, kind, head.text, tuple(parts))

    def nearest(self, name, scope):
        """A question for the name that may be meant."""
        found = get_close_matches(name, [*scope, *self.program.functions, *self.program.constructors], 1)
        return f": `{found[0]}`?" if found else ""

    def let(self, part, rest, scope, wanted):
        if len(rest) != 3:
            raise Fault(part.place, "write (let NAME EXPRESSION EXPRESSION)")
        name = self.name(rest[0], "a variable")
        value = self.expression(rest[1], scope, None)
        variable = Variable(name, value.type)
        body = self.typed(rest[2], {**scope, name: variable}, wanted, "what is needed here")
        return Let(part.place, body.type, variable, (value, body))

    def match(self, part, rest, scope, wanted):
        if len(rest) < 2:
            raise Fault(part.place, "write (match EXPRESSION (PATTERN EXPRESSION) ..)")
        on = self.expression(rest[0], scope, None)
        branches = {}
        for branch in rest[1:]:
            if isinstance(branch, Word) or len(branch.parts) != 2:
                raise Fault(branch.place, "a branch is (PATTERN EXPRESSION)")
            pattern, body = branch.parts
            constructor, fields = self.pattern(pattern, on.type)
            if constructor in branches:
                raise Fault(pattern.place, f"a second branch for `{constructor}`")
            inner = {**scope, **{variable.name: variable for variable in fields if variable}}
            body = self.typed(body, inner, wanted, "what is needed here")
            wanted = body.type
            branches[constructor] = Branch(constructor, tuple(fields), body)
        lacking = [name for name in self.program.types[on.type] if name not in branches]
        if lacking:
            raise Fault(part.place, f"a branch for `{lacking[0]}` is missing: `{on.type}` has {several(len(self.program.types[on.type]), 'constructor')}")
        return Match(part.place, wanted, tuple(branches[name] for name in self.program.types[on.type]), (on,))

    def pattern(self, pattern, kind):
        """The constructor of a pattern, and the variables of its fields."""
        head, *names = pattern.parts if isinstance(pattern, Group) and pattern.parts else (pattern,)
        if not isinstance(head, Word) or head.text not in self.program.constructors:
            raise Fault(pattern.place, "a pattern is a constructor, with a name for each field: (CONSTRUCTOR NAME ..)")
        constructor = self.program.constructors[head.text]
        if constructor.type != kind:
            raise Fault(pattern.place, f"`{head.text}` is of the type `{constructor.type}`, and what is matched is of the type `{kind}`")
        if len(names) != len(constructor.fields):
            raise Fault(pattern.place, f"`{head.text}` has {several(len(constructor.fields), 'field')}, and the pattern {len(names) or 'none'}")
        fields = []
        for part, of in zip(names, constructor.fields):
            unused = isinstance(part, Word) and part.text == "_"
            fields.append(None if unused else Variable(self.name(part, "a field"), of))
        known = [variable.name for variable in fields if variable]
        twice = [name for name, count in Counter(known).items() if count > 1]
        if twice:
            raise Fault(pattern.place, f"two fields have the name `{twice[0]}`")
        return head.text, fields


def program_of(text):
    """The program of a text; raises a Fault where it is none."""
    return Checker(text).program


# ---- what a program means

class Value(NamedTuple):
    """A constructor with its fields, and how many constructors it has in all."""

    size: int
    constructor: str
    fields: tuple


class TooLong(Exception):
    """A value wasn't reached within the calls that were allowed."""


def built(constructor, fields=()):
    return Value(1 + sum(part.size for part in fields), constructor, tuple(fields))


@lru_cache(maxsize=8)
def number_of(count):
    value = built("Z")
    for _ in range(count):
        value = built("S", (value,))
    return value


def value_of(program, most):
    """The value of `main`, by at most so many calls. What waits for a value is kept in a list, so that no depth is too much."""
    waiting, calls = [], 0
    expression, scope = program.main.body, {}
    while True:
        if expression.parts:
            waiting.append((expression, scope, ()))
            expression = expression.parts[0]
            continue
        value, goes_on = None, None
        if isinstance(expression, Use):
            value = scope[expression.variable]
        elif isinstance(expression, Number):
            value = number_of(expression.value)
        elif isinstance(expression, Build):
            value = built(expression.head)
        else:
            goes_on = program.functions[expression.head].body, {}
            calls += 1
        while goes_on is None:
            if not waiting:
                return value
            above, outer, before = waiting.pop()
            given = (*before, value)
            if isinstance(above, Let):
                goes_on = above.parts[1], {**outer, above.variable: value}
            elif isinstance(above, Match):
                branch = next(branch for branch in above.branches if branch.constructor == value.constructor)
                goes_on = branch.body, {**outer, **dict(zip(branch.fields, value.fields))}
            elif len(given) < len(above.parts):
                waiting.append((above, outer, given))
                goes_on = above.parts[len(given)], outer
            elif isinstance(above, Build):
                value = built(above.head, given)
            else:
                function = program.functions[above.head]
                goes_on = function.body, dict(zip(function.parameters, given))
                calls += 1
        if calls > most:
            raise TooLong
        expression, scope = goes_on


def written(value):
    """A value as `inet` writes a term."""
    if value.size > MOST_WRITTEN:
        raise Refused(f"the value has {value.size} constructors, and at most {MOST_WRITTEN} are written")
    parts, waiting = [], [value]
    while waiting:
        here = waiting.pop()
        if isinstance(here, str):
            parts.append(here)
            continue
        parts.append(here.constructor)
        if here.fields:
            inner = [part for part_of in here.fields for part in (", ", part_of)][1:]
            waiting += [")", *reversed(inner), "("]
    return "".join(parts)
