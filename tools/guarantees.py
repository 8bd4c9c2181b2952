#!/usr/bin/env python3
"""Prints the contract of a public call of the crates: its comment, its signature with its clauses, and the definitions and the laws behind
these, each with file and line; and where its proof is. It reads the sources, and nothing of it is proved.

    tools/guarantees.py check Symbols::build in_order::laws::runs_end_alike
    tools/guarantees.py --proof build_net
    tools/guarantees.py --define IsAsPromised
    tools/guarantees.py --files in_check

The *definitions* are those that the clauses name; of a law, those that its statement names too. The *laws* are those whose statement names a
definition of the call's `ensures` clauses, other than a word that many laws share. `--proof` adds the *answers*, which close the goals of the
call and of the functions below it in its crate, and the *lemmas* that these cite, each file with the first sentence of its head; of a law, a
second list has those on which its lemmas rest. `--define` prints definitions by their names, and `--files` the files of definitions of crates,
each after those that it imports, with the first sentence of its head.

`docs/proof/GUARANTEES.md` has a row for each call, and `tests/run --only documents` compares the two.
"""
import argparse
import glob
import os
import re
from collections import defaultdict
from functools import lru_cache
from typing import NamedTuple

import streams

TOP = os.path.normpath(os.path.join(os.path.dirname(os.path.abspath(__file__)), ".."))
# The heading of the crates in crates.txt that no program has.
FOR_TESTS = "For tests alone"
# A definition that more laws name is a word of the subject, such as `Net`, and leads to none of them.
MOST_LAWS = 12
# What a crate's first file gives out: a whole module, names of a module, an item.
MODULE = re.compile(r"^pub mod (\w+);", re.MULTILINE)
EXPORT = re.compile(r"^pub use (\w+)::(?:(\w+)|\{([^}]*)\});", re.MULTILINE)
OWNER = re.compile(r"^(?:unsafe )?impl(?:<[^{]*?>)? (?:[\w:]+(?:<.*>)? for )?(\w+)|^pub trait (\w+)")
FUNCTION = re.compile(r'^( *)(pub )?(?:const )?(?:unsafe )?(?:extern "C" )?fn (\w+)')
CLAUSE = re.compile(r"^\s*(requires|ensures)\b")
# What a file imports of definitions, and of lemmas; what the body of a function calls.
IMPORT = re.compile(r"^(?:unfoldable )?(?:pub )?(?:ghost )?use (?:package\.)?Rattle\.([\w.\-]+)\.\{([^}]*)\}", re.MULTILINE)
LEMMAS = re.compile(r"^\s*(?:pub )?use (?:package\.)?Rattle\.(in_\w+)\.proofs\.([\w.]+?)(?:\.\{([^}]*)\}| as (\w+))?$", re.MULTILINE)
CALLED = re.compile(r"\b([a-z]\w*)(?:::<[^(]*>)?\(")
# A word of a definition, which may have marks in it, and the line that declares one.
WORD = re.compile(r"[A-Za-z_][\w'\-]*")
DECLARED = re.compile(r"^(?:(?:unfoldable |abbrev )*pub (?!use |mod )(?:data |record )?| +(?:unfoldable )?abbrev pub | +pub (?:data|record) )([A-Za-z_][\w'\-]*)")
VARIANT = re.compile(r"^ +(?:pub )?([A-Z][\w'\-]*) : ")


class Call(NamedTuple):
    """A public call: its crate, the module of a law, the type or trait of a method, and where and how it is written."""

    crate: str
    module: str
    owner: str
    name: str
    path: str
    line: int
    comment: tuple
    signature: tuple

    def said(self):
        """The name as one writes it in another crate."""
        return "::".join(part for part in (self.crate, self.module, self.owner, self.name) if part)

    def clauses(self, kinds=("requires", "ensures")):
        """The clauses of these kinds, each as the lines of it."""
        found = []
        for line in self.signature:
            if CLAUSE.match(line):
                found.append([line])
            elif found:
                found[-1].append(line)
        return [lines for lines in found if CLAUSE.match(lines[0])[1] in kinds]


class Definition(NamedTuple):
    """A definition in a folder `specs/`, and the words of its text."""

    name: str
    path: str
    line: int
    words: frozenset


@lru_cache(maxsize=None)
def lines_of(path):
    with open(os.path.join(TOP, path), encoding="utf-8") as file:
        return file.read().split("\n")


def crates():
    """The crates that have a library, but for those of tests."""
    of_tests = False
    for line in lines_of("crates.txt"):
        of_tests = line.startswith(f"# {FOR_TESTS}") or of_tests and not line.startswith("#")
        name = re.match(r"\w+", line)
        if name and not of_tests and os.path.exists(os.path.join(TOP, "crates", name[0], "src", "lib.rt")):
            yield name[0]


def exported(crate):
    """What a crate gives out: the modules that are public, and the names of its other modules."""
    text = "\n".join(lines_of(f"crates/{crate}/src/lib.rt"))
    own = {os.path.basename(path)[:-3] for path in glob.glob(os.path.join(TOP, "crates", crate, "src", "*.rt"))}
    names = {
        name.split()[-1]
        for module, one, several in EXPORT.findall(text)
        if module in own
        for name in ([one] if one else several.split(","))
        if name.strip()
    }
    return set(MODULE.findall(text)), names


def signature_from(lines, begin):
    """The lines of a function from its first one to where its body begins, which is left out."""
    indent = len(lines[begin]) - len(lines[begin].lstrip())
    kept = []
    for number in range(begin, len(lines)):
        line = lines[number]
        rest = line[indent:]
        if number > begin and rest.startswith("{"):
            break
        ended = rest.endswith(";") or number == begin and rest.endswith((" {", "{}")) or rest.startswith(")") and rest.endswith(" {")
        kept.append(re.sub(r"\s*\{\}?$", "", rest) if ended and not rest.endswith(";") else rest)
        if ended:
            break
    return tuple(kept)


def comment_before(lines, begin):
    """The lines of comment above a function, over its attributes."""
    kept = []
    for line in reversed(lines[:begin]):
        if line.lstrip().startswith("///"):
            kept.append(line.strip())
        elif not line.lstrip().startswith("#["):
            break
    return tuple(reversed(kept))


def calls_in(crate):
    """The public calls of a crate."""
    modules, names = exported(crate)
    for full in sorted(glob.glob(os.path.join(TOP, "crates", crate, "src", "*.rt"))):
        path = os.path.relpath(full, TOP)
        module = os.path.basename(path)[:-3]
        lines, owner, is_trait = lines_of(path), "", False
        for number, line in enumerate(lines):
            if line.startswith("}"):
                owner, is_trait = "", False
            found = OWNER.match(line)
            if found and not line.endswith("}"):
                owner, is_trait = found[1] or found[2], bool(found[2])
            written = FUNCTION.match(line)
            if not written or not (written[2] or is_trait):
                continue
            given_out = owner in names if owner else written[3] in names or module == "lib" or module in modules
            if given_out and bool(owner) == bool(written[1]):
                of_module = module if module in modules else ""
                yield Call(crate, of_module, owner, written[3], path, number + 1, comment_before(lines, number), signature_from(lines, number))


def all_calls():
    return [call for crate in crates() for call in calls_in(crate)]


def public_types(crate):
    """The names of types and constants that a crate gives out."""
    return exported(crate)[1]


@lru_cache(maxsize=None)
def definitions_in(path):
    """The definitions of a file of `specs/`, by their names."""
    found, lines = {}, lines_of(path)
    begins = [(number, it[1]) for number, it in enumerate(map(DECLARED.match, lines)) if it]
    for (begin, name), (end, _) in zip(begins, [*begins[1:], (len(lines), "")]):
        if name not in found:
            text = "\n".join(line.split("--")[0] for line in lines[begin:end])
            found[name] = Definition(name, path, begin + 1, frozenset(WORD.findall(text)))
    for number, it in enumerate(map(VARIANT.match, lines)):
        if it:
            found.setdefault(it[1], Definition(it[1], path, number + 1, frozenset()))
    return found


@lru_cache(maxsize=None)
def imports(path):
    """Of each name that a file imports of a folder `specs/`, the file there and the name that it has in it."""
    found = {}
    for module, names in IMPORT.findall("\n".join(lines_of(path))):
        crate, _, rest = module.partition(".")
        home = f"crates/{crate}/{rest.replace('.', '/')}.antt"
        if rest.startswith("specs.") and os.path.exists(os.path.join(TOP, home)):
            for name in filter(None, map(str.strip, names.split(","))):
                there, _, here = name.partition(" as ")
                found[here or there] = home, there
    return found


def definition_of(path, word):
    """The definition that a word of a file names: one that it imports, from where that is declared, or its own; None where there is none."""
    if word in imports(path):
        return definition_of(*imports(path)[word])
    return definitions_in(path).get(word) if path.endswith(".antt") else None


def named_in(path, words):
    """The definitions that words of a file name."""
    return list(filter(None, (definition_of(path, word) for word in sorted(words))))


def cited(call, kinds=("requires", "ensures")):
    """The definitions that a call's clauses name."""
    words = {word for lines in call.clauses(kinds) for line in lines for word in WORD.findall(line)}
    return named_in(call.path, words)


def is_law(call):
    """A module that a crate gives out whole has laws, and nothing else."""
    return bool(call.module)


def with_statements(call):
    """The definitions that a call's clauses name; of a law also those that its statements name."""
    direct = cited(call)
    below = [other for definition in direct for other in named_in(definition.path, definition.words)] if is_law(call) else []
    return list(dict.fromkeys([*direct, *below]))


def laws_by_definition(calls):
    """Of each definition the laws of which the statement names it."""
    found = defaultdict(list)
    for law in filter(is_law, calls):
        for definition in with_statements(law):
            found[definition].append(law)
    return found


def laws_of(call, laws):
    """The laws that speak of what a call's `ensures` clauses name."""
    own = cited(call, ("ensures",))
    few = [laws[definition] for definition in own if len(laws[definition]) <= MOST_LAWS]
    return [] if is_law(call) else list(dict.fromkeys(law for found in few for law in found))


@lru_cache(maxsize=None)
def functions_of(crate):
    """Of each function of a crate, public or not, by its name: the names of what it calls."""
    found = defaultdict(set)
    for full in sorted(glob.glob(os.path.join(TOP, "crates", crate, "src", "*.rt"))):
        name, end = None, ""
        for line in lines_of(os.path.relpath(full, TOP)):
            written = FUNCTION.match(line)
            if written:
                name, end = written[3], written[1] + "}"
            elif name and line.startswith(end):
                name = None
            elif name:
                found[name].update(CALLED.findall(line))
    return found


def below(call):
    """The names of a call and of all functions of its crate that it calls, directly or not; of its own name that call alone."""
    functions, found, left = functions_of(call.crate), {call.name}, [call.name]
    while left:
        new = (functions[left.pop()] & functions.keys()) - found
        found |= new
        left += sorted(new)
    return found


def answers_of(call):
    """The files that answer the goals of a call and of the functions below it."""
    names = {call.name} if is_law(call) else below(call)
    for full in sorted(glob.glob(os.path.join(TOP, "crates", call.crate, "proofs", "**", "Answers.antt"), recursive=True)):
        path = os.path.relpath(full, TOP)
        *_, owner, name, _ = path.split(os.sep)
        if name in names and (name != call.name or not call.owner or owner == call.owner) and (call.module in ("", owner)):
            yield path


def lemma_files(path):
    """The files of lemmas that a file names, behind the modules `Public` that hand lemmas on."""
    found, text = [], "\n".join(lines_of(path))
    for crate, module, names, short in LEMMAS.findall(text):
        home = f"crates/{crate}/proofs/{module.replace('.', '/')}.antt"
        if module == "Public":
            wanted = {name.partition(" as ")[0].strip() for name in names.split(",")} | {*(re.findall(rf"\b{short}\.(\w+)", text) if short else ())}
            listed = LEMMAS.findall("\n".join(lines_of(home)))
            homes = [f"crates/{of}/proofs/{inner.replace('.', '/')}.antt" for of, inner, given, _ in listed if wanted & {it.strip() for it in given.split(",")}]
        else:
            homes = [home]
        found += [home for home in homes if os.path.exists(os.path.join(TOP, home)) and not home.endswith("/Goals.antt")]
    return list(dict.fromkeys(found))


def head_of(path):
    """The first sentence of a file's head."""
    kept = []
    for line in lines_of(path):
        if not line.startswith("--"):
            break
        kept.append(line[2:].strip())
    return re.split(r"(?<=\.)\s", " ".join(kept))[0]


def proof_of(call):
    """The answers of a call and the lemmas behind them, as titles with lines."""
    answers = list(answers_of(call))
    lemmas = list(dict.fromkeys(home for path in answers for home in lemma_files(path)))
    over = list(dict.fromkeys(home for path in lemmas for home in lemma_files(path) if home not in lemmas)) if is_law(call) else []
    yield "answers", answers or ["none: the prover finds the proof"]
    yield "lemmas", [f"{path}  {head_of(path)}" for path in lemmas]
    yield "over", [f"{path}  {head_of(path)}" for path in over]


def is_called(call, name):
    """Whether a name is the call's, or the end of it."""
    return f"::{call.said()}".endswith(f"::{name}")


def printed(call, laws, has_proof):
    """The contract of a call, as lines, and its proof if that is asked for."""
    yield f"{call.said()}  {call.path}:{call.line}"
    yield from (f"    {line}" for line in (*call.comment, *call.signature))
    for title, found in (
        ("definitions", [f"{it.name}  {it.path}:{it.line}" for it in with_statements(call)]),
        ("laws", [f"{law.said()}  {law.path}:{law.line}" for law in laws_of(call, laws)]),
        *(proof_of(call) if has_proof else ()),
    ):
        if found:
            yield f"    {title}:"
            yield from (f"        {line}" for line in found)
    yield ""


def spec_files(crate):
    """The files of definitions of a crate, each after those of the crate that it imports."""
    inside = os.path.join(TOP, "crates", crate, "specs", "**", "*.antt")
    paths = [os.path.relpath(full, TOP) for full in sorted(glob.glob(inside, recursive=True)) if not full.endswith("Lib.antt")]
    done = []

    def add(path):
        if path not in done:
            for home in sorted({home for home, _ in imports(path).values()} & set(paths) - {path}):
                add(home)
            done.append(path)

    for path in paths:
        add(path)
    return done


def defined(name):
    """The definitions of this name in all crates, each with its place and its text under its comment."""
    for crate in crates():
        for path in spec_files(crate):
            definition = definitions_in(path).get(name)
            if definition:
                lines, begin = lines_of(path), definition.line - 1
                while begin and lines[begin - 1].lstrip().startswith("--"):
                    begin -= 1
                end = next((number for number in range(definition.line, len(lines)) if not lines[number].strip()), len(lines))
                yield f"{name}  {path}:{definition.line}"
                yield from (f"    {line}" for line in lines[begin:end])
                yield ""


def chosen_calls(names, calls):
    """The calls of these names, all if there are none."""
    for name in names:
        if not any(is_called(call, name) for call in calls):
            raise streams.Refused(f"no public call {name}")
    return [call for call in calls if not names or any(is_called(call, name) for name in names)]


def lines_for(asked):
    """What is printed."""
    if asked.define:
        lines = [line for name in asked.names for line in defined(name)]
        if not lines:
            raise streams.Refused("no such definition")
        return lines
    if asked.files:
        known = list(crates())
        if not set(asked.names) <= set(known):
            raise streams.Refused("no such crate")
        return [f"{path}  {head_of(path)}" for crate in known if not asked.names or crate in asked.names for path in spec_files(crate)]
    calls = all_calls()
    chosen = chosen_calls(asked.names, calls)
    if asked.list:
        return [f"{call.said()} {len(call.clauses())}" for call in chosen]
    laws = laws_by_definition(calls)
    return [line for call in chosen for line in printed(call, laws, asked.proof)]


def main():
    words = argparse.ArgumentParser(description=__doc__, formatter_class=argparse.RawDescriptionHelpFormatter)
    kinds = words.add_mutually_exclusive_group()
    kinds.add_argument("--list", action="store_true", help="prints the names of calls alone, each with the number of its clauses")
    kinds.add_argument("--proof", action="store_true", help="adds the answers and the lemmas")
    kinds.add_argument("--define", action="store_true", help="prints the definitions of these names")
    kinds.add_argument("--files", action="store_true", help="prints the files of definitions of these crates")
    words.add_argument("names", nargs="*", metavar="NAME", help="a call's name, or the end of it; all calls if none is given")
    streams.write("".join(f"{line}\n" for line in lines_for(words.parse_args())))
    return 0


if __name__ == "__main__":
    streams.run(main)
