#!/usr/bin/env python3
"""Finds braces with which a program is accepted: of its declarations the pairs of braces are changed, and nothing else.

Usage: tools/braces.py [--fix] [--all] [--most N] [--inet COMMAND] < PROGRAM.inet

`inet check` judges each attempt, so what is found is accepted. The usual braces are tried first: each input of a symbol in a pair of its own,
all outputs in one. Of these as few declarations are changed as are needed. Where the usual braces are refused, the search goes on from the program as it is: each
symbol that the diagnosis names is given each other way to put its ports into braces. With `--all` each symbol is; where that ends without an
answer, there is none with the ports in their order.

It prints the declarations to change, or with `--fix` the whole program with these changed. Status 0; 1 where the program is refused for another
reason, whose line is printed and whose diagnosis is told, or where nothing is found; 3 where as many checks as are allowed weren't enough.
"""
import argparse
import collections
import os
import re
import subprocess
from dataclasses import dataclass, replace

import streams
from declarations import COMMENT, braces, declarations

TOP = os.path.dirname(os.path.dirname(os.path.abspath(__file__)))
USUAL_CHECKS = 3_000
ACCEPTED = 0
# The refusals that other braces may mend: no steps build a rule, or the net.
OF_BRACES = re.compile("refused E1[23] ")


class Enough(Exception):
    """As many checks were made as are allowed."""


@dataclass(frozen=True)
class Answer:
    status: int
    line: str
    told: str

    @property
    def is_of_braces(self):
        return OF_BRACES.match(self.line) is not None

    @property
    def names(self):
        """What the diagnosis names, in its order."""
        return list(dict.fromkeys(re.findall(r"`(\w+)`", self.told)))


class Search:
    """A program, and what `inet check` says of it in other braces."""

    def __init__(self, text, command, most):
        self.text, self.command, self.most, self.checks = text, command, most, 0
        self.symbols = {declaration.name: declaration for declaration in declarations(text)}

    def written(self, changed):
        """The text with these declarations in place of those of their names. Comments in a declaration come behind its braces."""
        text, done = [], 0
        for declaration in self.symbols.values():
            if declaration.name in changed:
                begin, end = declaration.place
                comments = COMMENT.findall(self.text[begin:end])
                text += [self.text[done:begin], *(" " + braces(ports) for ports in changed[declaration.name].classes), *(f" {comment}\n" for comment in comments)]
                done = end
        return "".join([*text, self.text[done:]])

    def ask(self, changed):
        if self.checks >= self.most:
            raise Enough
        self.checks += 1
        try:
            done = subprocess.run([self.command, "check"], input=self.written(changed).encode(), capture_output=True, check=False)
        except OSError as error:
            raise streams.Refused(f"{self.command} can't be run: {error.strerror}") from None
        return Answer(done.returncode, done.stdout.decode(errors="replace"), done.stderr.decode(errors="replace"))

    def usual(self):
        """The symbols that aren't in the usual braces, as they are in these: each input by itself, outputs that are neighbours together."""
        changed = {}
        for name, declaration in self.symbols.items():
            classes = []
            for port in declaration.ports:
                if port[1] == "+" and classes and classes[-1][-1][1] == "+":
                    classes[-1].append(port)
                else:
                    classes.append([port])
            classes = tuple(map(tuple, classes))
            if classes != declaration.classes:
                changed[name] = replace(declaration, classes=classes)
        return changed

    def fewest(self, changed):
        """Of an accepted change the declarations that are needed: none of them can be left out by itself."""
        for name in list(changed):
            others = {other: declaration for other, declaration in changed.items() if other != name}
            if self.ask(others).status == ACCEPTED:
                changed = others
        return changed

    def ways(self, name):
        """Each way to put a symbol's ports into braces, in their order."""
        declaration = self.symbols[name]
        ports = declaration.ports
        for bits in range(2 ** max(len(ports) - 1, 0)):
            cuts = [0, *(place for place in range(1, len(ports)) if bits >> (place - 1) & 1), len(ports)]
            yield replace(declaration, classes=tuple(tuple(ports[begin:end]) for begin, end in zip(cuts, cuts[1:]) if begin < end))

    def found(self, first, of_all):
        """The fewest changes with which the program is accepted, breadth first; None where there are none."""
        queue, met = collections.deque([({}, first)]), {()}
        while queue:
            changed, answer = queue.popleft()
            for name in self.symbols if of_all else [name for name in answer.names if name in self.symbols]:
                for declaration in self.ways(name):
                    other = {**changed, name: declaration}
                    if declaration.classes == self.symbols[name].classes:
                        del other[name]
                    key = tuple(sorted((symbol, made.classes) for symbol, made in other.items()))
                    if key in met:
                        continue
                    met.add(key)
                    said = self.ask(other)
                    if said.status == ACCEPTED:
                        return other
                    if said.is_of_braces:
                        queue.append((other, said))
        return None


def mended(search, first, of_all):
    """The declarations to change; None where none are found."""
    usual = search.usual()
    if usual and search.ask(usual).status == ACCEPTED:
        return search.fewest(usual)
    return search.found(first, of_all)


def main():
    words = argparse.ArgumentParser(description=__doc__, formatter_class=argparse.RawDescriptionHelpFormatter)
    words.add_argument("--fix", action="store_true", help="prints the whole program")
    words.add_argument("--all", action="store_true", help="changes symbols that the diagnosis doesn't name, too")
    words.add_argument("--most", type=streams.natural, default=USUAL_CHECKS, metavar="N", help=f"the most checks, {USUAL_CHECKS} if it isn't given")
    words.add_argument("--inet", default=os.path.join(TOP, "inet"), metavar="COMMAND", help="the program that checks, `./inet` if none is named")
    asked = words.parse_args()
    search = Search(streams.read_text(), asked.inet, asked.most)
    try:
        first = search.ask({})
        if first.status != ACCEPTED and not first.is_of_braces:
            streams.write(first.line)
            streams.tell(first.told.rstrip("\n"))
            return first.status
        changed = {} if first.status == ACCEPTED else mended(search, first, asked.all)
    except Enough:
        streams.tell(f"no answer within {search.most} checks: `--most N` allows more")
        return streams.LIMIT
    if changed is None:
        streams.write(first.line)
        kinds = "no braces mend it, with the ports in their order" if asked.all else "none found that change the symbols of the diagnosis: `--all` changes others too"
        streams.tell(f"{kinds} ({search.checks} checks)")
        return streams.REFUSED
    if not changed:
        streams.tell("the program is accepted as it is")
    streams.write(search.written(changed) if asked.fix else "".join(f"{declaration.text}\n" for declaration in changed.values()))
    return 0


if __name__ == "__main__":
    streams.run(main)
