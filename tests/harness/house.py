"""What no proof says of the house: which lemmas a crate may cite of another, that a name of a type has one home, that mutants can be tried, and which
words are gone."""
import glob
import os
import re
import sys
from collections import defaultdict

HERE = os.path.dirname(os.path.abspath(__file__))
TOP = os.path.join(HERE, "..", "..")
CRATES = os.path.join(TOP, "crates")
sys.path.insert(0, os.path.join(TOP, "tools"))
import edits
import layers
import libraries
# The lemmas on lists and graphs are for everybody: this crate has them by subject, in no module Public.
FOR_EVERYBODY = {"in_base"}
CITED = re.compile(r"^\s*(?:unfoldable )?(?:pub )?use (?:package\.)?Rattle\.(in\w+)\.proofs\.(\w+)", re.MULTILINE)
TYPE = re.compile(r"^\s*(?:pattern |unfoldable |abbrev )*pub (?:data |record )?([A-Z]\w*)", re.MULTILINE)
# What a crate gives out of its own modules, and what its first file declares.
EXPORT = re.compile(r"^pub use (?!in_)([\w:]+?)(?:::\{([^}]*)\})?;", re.MULTILINE)
DECLARED = re.compile(r"^pub (?:fn|struct|enum|trait|const) (\w+)", re.MULTILINE)
# Words that were used here, and what the field says in their place.
RETIRED = {
    r"want of (?:memory|cells|steps)": "out of memory, lack of cells",
    r"memory(?: \w+){0,6} (?:is|are|was|be) (?:not )?wanted": "memory runs out",
    r"exactly where": "exactly when",
    r"looking call": "accessor",
    r"spaces? of names": "namespace",
    r"goes on so": "an unexpected token",
}
# The marks with which a line of a comment begins, and the blanks around them.
MARK = re.compile(r"^\s*(?://[/!]?|--|#|\*)?\s*")


def texts_of(folder):
    """The crate, the path in it and the text of each file that lies in such a folder of a crate."""
    for path in sorted(glob.glob(os.path.join(CRATES, "*", folder, "**", "*.antt"), recursive=True)):
        with open(path, encoding="utf-8") as file:
            crate, name = os.path.relpath(path, CRATES).split(os.sep, 1)
            yield crate, name, file.read()


def wrong_citations():
    """Lemmas of another crate that don't come by its module Public."""
    wrong = []
    for folder in ("proofs", "specs"):
        for crate, name, text in texts_of(folder):
            others = {cited for cited in CITED.findall(text) if cited[0] != crate and cited[0] not in FOR_EVERYBODY}
            wrong += [f"crates/{crate}/{name} cites {other}.proofs.{module}" for other, module in sorted(others) if module != "Public"]
    return "; ".join(wrong)


def wrong_homes():
    """Names of types that are declared in several files of specs/: one name, one home."""
    homes = defaultdict(set)
    for crate, name, text in texts_of("specs"):
        for declared in TYPE.findall(text):
            homes[declared].add(f"{crate}/{name}")
    return "; ".join(f"{name} in {' and '.join(sorted(files))}" for name, files in sorted(homes.items()) if len(files) > 1)


def wrong_exports():
    """Names that two crates give out as their own: a name is found by itself."""
    homes = defaultdict(set)
    for path in sorted(glob.glob(os.path.join(CRATES, "*", "src", "lib.rt"))):
        with open(path, encoding="utf-8") as file:
            text = file.read()
        names = DECLARED.findall(text)
        for module, several in EXPORT.findall(text):
            names += [name.split()[-1] for name in several.split(",") if name.strip()] if several else [module.split("::")[-1]]
        for name in names:
            homes[name].add(os.path.relpath(path, CRATES).split(os.sep)[0])
    return "; ".join(f"{name} of {' and '.join(sorted(crates))}" for name, crates in sorted(homes.items()) if len(crates) > 1)


def wrong_libraries():
    """Crates whose line in crates.txt isn't what they name."""
    return "; ".join(f"{crate}: too many {' '.join(unnamed) or 'none'}, lacking {' '.join(lacking) or 'none'}" for crate, (unnamed, lacking) in libraries.wrong().items())


def wrong_layers():
    """Which picture of the crates isn't as crates.txt has it."""
    return ", ".join(os.path.relpath(path, TOP) for path, text in layers.made().items() if layers.read(path) != text)


def wrong_mutants():
    """Mutants that can't be tried: each old text has to stand once in its file."""
    wrong = []
    for path in sorted(glob.glob(os.path.join(CRATES, "*", "*", "*.edit"))):
        crate = os.path.dirname(os.path.dirname(path))
        for name, old, new in edits.changes(path):
            with open(os.path.join(crate, name), encoding="utf-8") as file:
                times = file.read().count(old)
            if times != 1:
                wrong.append(f"{os.path.relpath(path, TOP)}: its old text stands {times} times in {name}")
            if old == new:
                wrong.append(f"{os.path.relpath(path, TOP)} changes nothing")
    return "; ".join(wrong)


def prose():
    """What people read: each file of the crates, the documents, the tests and the measurements, as one line without the marks of comments."""
    patterns = ["README.md", "crates.txt", "docs/**/*.md", "tests/**/*", "bench/**/*", "tools/*", "include/*"]
    patterns += [f"crates/*/{folder}/**/*.*t*" for folder in ("src", "specs", "proofs")]
    for pattern in patterns:
        for path in sorted(glob.glob(os.path.join(TOP, pattern), recursive=True)):
            if os.path.isfile(path) and not os.path.samefile(path, __file__) and not path.endswith(".pyc"):
                with open(path, encoding="utf-8", errors="replace") as file:
                    yield os.path.relpath(path, TOP), " ".join(MARK.sub("", line).strip() for line in file)


def retired_words():
    """Words that the field doesn't use."""
    return "; ".join(
        f"{path}: {found.group()}, for which the field says {said}"
        for path, text in prose()
        for word, said in RETIRED.items()
        for found in [re.search(word, text, re.IGNORECASE)]
        if found
    )


def house(_program):
    """The group: it needs no program."""
    yield "only Public is cited across crates", wrong_citations
    yield "one name, one home", wrong_homes
    yield "one name, one crate", wrong_exports
    yield "crates.txt lists what each crate names", wrong_libraries
    yield "the layers of the crates are as crates.txt has them", wrong_layers
    yield "each mutant can be tried", wrong_mutants
    yield "words of the field", retired_words
