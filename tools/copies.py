#!/usr/bin/env python3
"""Writes the duplicators and erasers of types, with a rule for each constructor that a program declares.

Usage: tools/copies.py [--copy NAME] [--erase NAME] TYPE .. < PROGRAM.inet

For each type, and for those that its constructors hold, `symbol Copy_TYPE` and `symbol Erase_TYPE`, which are left out where the program
declares them. `--copy` and `--erase` give other beginnings of these names; an empty one leaves that kind out. A constructor with an output among its
auxiliary ports (a stream, a function) can't be copied port by port: that is told on standard error, with status 1, as is a type without
constructors. The program itself isn't checked.
"""
import argparse

import streams
from declarations import declarations, types

MOST_CHARACTERS = 64


def beginning(word):
    """The beginning of a symbol's name, or none at all."""
    if word and not word.isidentifier():
        raise argparse.ArgumentTypeError(f"no name begins so: {word!r}")
    return word


def agent(symbol, parts):
    return f"{symbol}({', '.join(parts)})" if parts else symbol


def head(symbol, parts):
    return f"{symbol}[{', '.join(parts)}]"


class Copies:
    """The constructors of a program by their types, and what is written of them."""

    def __init__(self, text):
        self.declared, self.known, self.constructors = set(), types(text), {}
        for declaration in declarations(text):
            self.declared.add(declaration.name)
            if declaration.is_constructor:
                self.constructors.setdefault(declaration.type, []).append(declaration)
        self.lines, self.faults = [], []

    def all_types(self, named):
        """These types, and those that their constructors hold."""
        found = list(dict.fromkeys(named))
        for kind in found:
            if kind not in self.constructors:
                self.faults.append(f"no constructor gives `{kind}`" if kind in self.known else f"the program declares no type `{kind}`")
            for constructor in self.constructors.get(kind, ()):
                found += dict.fromkeys(other for other, sign in constructor.ports if sign == "-" and other not in found)
        return [kind for kind in found if kind in self.constructors]

    def write(self, kind, begin, copies):
        """The symbol that makes so many copies of what is of a type, and its rules."""
        symbol = begin + kind
        if symbol in self.declared:
            return
        if len(symbol) > MOST_CHARACTERS:
            self.faults.append(f"`{symbol}` has more than {MOST_CHARACTERS} characters: give a shorter beginning")
        letters = "ab"[:copies]
        self.lines.append(f"symbol {symbol} : {kind}-{' {' + ', '.join([kind + '+'] * copies) + '}' if copies else ''};")
        for constructor in self.constructors[kind]:
            if any(sign == "+" for _, sign in constructor.ports):
                self.faults.append(f"`{constructor.name}` has an output at an auxiliary port: write its rule with `{symbol}` yourself")
                continue
            # A constructor may have the name of a letter.
            names = [[self.variable(f"{letter}{place}") for place in range(1, len(constructor.ports) + 1)] for letter in letters]
            inner = [agent(begin + other, [name[place] for name in names]) for place, (other, _) in enumerate(constructor.ports)]
            outer = [agent(constructor.name, name) for name in names]
            self.lines.append(f"rule {head(constructor.name, inner)} >< {head(symbol, outer)};")

    def variable(self, name):
        while name in self.declared:
            name += "_"
        return name


def main():
    words = argparse.ArgumentParser(description=__doc__, formatter_class=argparse.RawDescriptionHelpFormatter)
    words.add_argument("--copy", type=beginning, default="Copy_", metavar="NAME", help="how the names of duplicators begin; Copy_ if it isn't given")
    words.add_argument("--erase", type=beginning, default="Erase_", metavar="NAME", help="how the names of erasers begin; Erase_ if it isn't given")
    words.add_argument("types", nargs="+", metavar="TYPE")
    asked = words.parse_args()
    copies = Copies(streams.read_text())
    for kind in copies.all_types(asked.types):
        for begin, count in ((asked.copy, 2), (asked.erase, 0)):
            if begin:
                copies.write(kind, begin, count)
    streams.write("".join(f"{line}\n" for line in copies.lines))
    for fault in copies.faults:
        streams.tell(f"tools/copies.py: {fault}")
    return streams.REFUSED if copies.faults else 0


if __name__ == "__main__":
    streams.run(main)
