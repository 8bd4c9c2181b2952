"""The documents: each link and path in README.md and docs/ leads to a file, each line of a file that is named with a call has the call, each
crate named there is one, each command runs and prints what is shown, each page says first whom it is for, and each public call with a clause
has its row in GUARANTEES.

A command in a block is `$ ./inet WORDS < FILE`, `$ cat FILE` or `$ tools/NAME.py WORDS < FILE`; the lines up to the next command are what it
prints, those on standard error last. All other commands of a page run in turn in one folder, where the top of the repository is linked and the
library lies in out/inet: each has to end with status 0, and print what is shown, if it is shown; so have the sessions of Python. Not tried are
those that build the library or the pages, prove, measure, or need other machines or an editor (`OTHERS`).
"""
import glob
import os
import re
import shutil
import subprocess
import sys
import tempfile
from functools import lru_cache, partial

from harness.programs import HERE, LONGEST, shortened

TOP = os.path.normpath(os.path.join(HERE, "..", ".."))
sys.path.insert(0, os.path.join(TOP, "tools"))
import guarantees  # noqa: E402  (the tools stand beside the tests)

GUARANTEES = os.path.join("docs", "proof", "GUARANTEES.md")
FOLDERS = ("bench", "bindings", "crates", "docs", "examples", "include", "tests", "tools")
# Words that stand for any name.
ANY = {"NAME", "LAW", "FOLDER", "MODULE", "CALL", "F"}
# A fence at both ends, and the lines between.
BLOCK = re.compile(r"^```[a-z]*\n(.*?)^```$", re.MULTILINE | re.DOTALL)
LINK = re.compile(r"\]\(([^)\s]+)\)")
WORD = re.compile(r"`([^`\n]+)`")
CRATE = re.compile(r"`(in_\w+)(?:::[^`\n]*)?`")
# A call in the first cell of a row, which may be a link.
CALL = re.compile(r"`([\w:]+)`(?:\]\(([^)]+)\))?")
COMMAND = re.compile(r"\$ (?:\./)?(inet|cat|tools/\w+\.py)\b(?: ([^>|]*?))?(?: ?< (\S+))?$")
# A line that is a command without a sign before it, and the words after it that only say what it is.
LINE = re.compile(r"(?:\./|\.ci/|tools/|cc |mpicc |mpirun |python3 |bindings/|web/|bench/|code |cd |PREFIX=|\(cd ).*")
REMARK = re.compile(r" +#.*$|  +\S.*$")
# What other groups try (library, web, machines), what a gate does, and what only a person can.
OTHERS = re.compile(r"\.ci/|bindings/(?:library|rust)|web/|bench/|rt_once|mpi|\bcode |npm ")
# A call and the line that has it, in a row.
PLACE = re.compile(r"\| `(?:\w+::)?(\w+)` \| \[([\w/]+\.rt):(\d+)\]\(")


def pages():
    """README.md and all pages of docs/, by their paths from the top."""
    yield "README.md"
    for folder, _, files in sorted(os.walk(os.path.join(TOP, "docs"))):
        yield from (os.path.relpath(os.path.join(folder, file), TOP) for file in sorted(files) if file.endswith(".md"))


def text_at(path):
    with open(os.path.join(TOP, path), encoding="utf-8") as file:
        return file.read()


def anchors(path):
    """The anchors of a page's headings: in small letters, with a hyphen for each space, and without other signs."""
    for heading in re.findall(r"^#+ (.*)$", BLOCK.sub("", text_at(path)), re.MULTILINE):
        yield re.sub(r"[^\w\- ]", "", heading.lower()).replace(" ", "-")


def wrong_beginning(page):
    """What is wrong with how a page of docs/ begins: with whom it is for, and what one knows or can do after it."""
    first = text_at(page).split("\n\n")[1]
    return None if first.startswith("For ") and "after this page" in first.lower() else "doesn't say first whom it is for, and what one has after it"


def wrong_link(page, target):
    """What is wrong with a link on a page, None where it leads somewhere."""
    name, _, anchor = target.partition("#")
    path = os.path.normpath(os.path.join(os.path.dirname(page), name)) if name else page
    if not os.path.exists(os.path.join(TOP, path)):
        return f"no file {path}"
    return f"no heading for #{anchor} in {path}" if anchor and anchor not in anchors(path) else None


def path_in(word):
    """The path that a word between backticks is, from the top; None where it is none, or one that is made or stands for any."""
    path = word.split()[0].rstrip("/")
    first, *others = path.split("/")
    if not others:
        return f"examples/{path}" if re.fullmatch(r"[a-z_]+\.inet", path) else None
    stands_for_any = {part.split(".")[0] for part in others} & ANY
    if stands_for_any or "out" in others or "::" in path:
        return None
    if re.fullmatch(r"in_\w+|inet\w*", first) and others[0] in ("src", "specs", "proofs"):
        return f"crates/{path}"
    return path if first in FOLDERS else None


def wrong_path(path):
    """What is wrong with a path, which may have stars for parts of names and no ending."""
    return None if any(glob.glob(os.path.join(TOP, path + ending)) for ending in ("", ".antt")) else f"no file {path}"


def wrong_crate(name):
    """What is wrong with a name that begins as those of crates do, and may be that of a mutant."""
    found = os.path.isdir(os.path.join(TOP, "crates", name, "src")) or any(glob.glob(os.path.join(TOP, "crates", "*", "*", name + ".edit")))
    return None if found else f"no crate {name}"


def commands(text):
    """The commands that a page's blocks show, each with its words, its file and what it prints."""
    for block in BLOCK.findall(text):
        for part in re.split(r"^(?=\$ )", block, flags=re.MULTILINE):
            line, _, shown = part.partition("\n")
            found = COMMAND.fullmatch(re.sub(r" +#.*$", "", line))
            if found:
                yield line[2:], *found.groups(), shown


def wrong_print(program, name, words, file, shown):
    """What is wrong with what a command prints, None where it is what is shown."""
    if name == "cat":
        printed = text_at(words).encode()
    elif name.startswith("tools/"):
        command = [sys.executable, "-B", name, *(words or "").split()]
        ran = subprocess.run(command, input=text_at(file).encode() if file else b"", cwd=TOP, capture_output=True, timeout=LONGEST, check=False)
        printed = ran.stdout + ran.stderr
    else:
        answer = program.run((words or "").split(), text_at(file).encode())
        printed = answer.output + answer.errors
    return None if printed == shown.encode() else f"prints {shortened(printed)}; shown: {shortened(shown.encode())}"


def further_commands(text):
    """The other commands of a page, in their order, each with what it prints, None where that isn't shown; a session of Python as `>>>`."""
    for block in BLOCK.findall(text):
        if block.startswith(">>> "):
            yield ">>>", block
            continue
        for part in re.split(r"^(?=\$ )", block, flags=re.MULTILINE):
            line, _, shown = part.partition("\n")
            if line.startswith("$ "):
                if not COMMAND.fullmatch(REMARK.sub("", line)):
                    yield REMARK.sub("", line[2:]), shown
            else:
                yield from ((REMARK.sub("", line), None) for line in part.split("\n") if LINE.fullmatch(line))


def needs_library(line):
    """Whether a command takes the library."""
    return line == ">>>" or "out/inet" in line or "bindings/python" in line


def lacking(line):
    """Whether a command needs a program that isn't on this machine."""
    # What isn't a script of the project was compiled by a line before.
    needs_compiler = needs_library(line) or re.match(r"cc |\./(?!inet(?:_export)? )", line)
    return "--svg" in line and not shutil.which("dot") or needs_compiler and not shutil.which("cc")


def wrong_commands(lines):
    """What is wrong with the first of a page's further commands that fails or prints something else."""
    with tempfile.TemporaryDirectory(prefix="inet-documents-") as room:
        for name in os.listdir(TOP):
            if not name.startswith(".") and name != "out":
                os.symlink(os.path.join(TOP, name), os.path.join(room, name))
        # The programs that a reader writes.
        os.makedirs(os.path.join(room, "mine"))
        shutil.copy(os.path.join(TOP, "examples", "greater_of_two.inet"), os.path.join(room, "mine", "max.inet"))
        made = os.path.join(room, "out", "inet")
        if any(needs_library(line) for line, _ in lines):
            subprocess.run([os.path.join(TOP, "bindings", "library"), "make", made], capture_output=True, timeout=LONGEST, check=True)
        around = {
            **os.environ,
            "INET_C_KEPT": os.path.join(room, "kept"),
            "INET_LIBRARY": os.path.join(made, "lib", "libinet.so"),
            "PYTHONPATH": os.path.join(TOP, "bindings", "python"),
            "PYTHONDONTWRITEBYTECODE": "1",
        }
        for line, shown in lines:
            command = ["bash", "-o", "pipefail", "-c", line]
            if line == ">>>":
                with open(os.path.join(room, "session.txt"), "w", encoding="utf-8") as file:
                    file.write(shown)
                # It prints what differs.
                command, shown = [sys.executable, "-m", "doctest", "session.txt"], ""
            ran = subprocess.run(command, cwd=room, env=around, stdin=subprocess.DEVNULL, capture_output=True, timeout=LONGEST, check=False)
            if ran.returncode:
                return f"{line}: status {ran.returncode}, {shortened(ran.stderr or ran.stdout)}"
            if shown is not None and ran.stdout != shown.encode():
                return f"{line}: prints {shortened(ran.stdout)}; shown: {shortened(shown.encode())}"
    return None


def wrong_place(call, path, number):
    """What is wrong with a line that is to declare a call."""
    lines = text_at(os.path.join("crates", path)).split("\n")
    declares = number <= len(lines) and re.search(rf"\bfn {call}\b", lines[number - 1])
    return None if declares else f"no `fn {call}` there"


@lru_cache(maxsize=None)
def public_calls():
    return guarantees.all_calls()


def rows():
    """The rows of GUARANTEES, each as the crates of its part and the cell that names calls."""
    crates = []
    for line in text_at(GUARANTEES).split("\n"):
        if line.startswith("## "):
            crates = CRATE.findall(line)
        elif crates and line.startswith("| ") and not line.startswith(("| Call ", "| Law ")):
            yield crates, line.split(" | ")[0]


def calls_of_row(crates, cell):
    """Each name in a row's cell, with its link and its call: a name without a type belongs to the type before it, if that has such a call."""
    owner = ""
    for name, link in CALL.findall(cell):
        before, _, last = name.rpartition("::")
        owner = before or owner
        named = {call.owner: call for call in public_calls() if call.crate in crates and call.name == last}
        yield name, link, named.get(owner) or (None if before else named.get(""))


def wrong_row(crates, cell):
    """What is wrong with a row: it names no call or type of its crates, or links another file."""
    types = {name for crate in crates for name in guarantees.exported(crate)[1]}
    for name, link, call in calls_of_row(crates, cell):
        if call is None and name not in types:
            return f"no public call {name} in {', '.join(crates)}"
        home = os.path.normpath(os.path.join(os.path.dirname(GUARANTEES), link))
        if call and link and home != call.path:
            return f"{name} is in {call.path}, and the link leads to {home}"
    return None


def calls_without_row(crate):
    """The public calls of a crate that have a clause and no row."""
    named = {call for crates, cell in rows() for _, _, call in calls_of_row(crates, cell)}
    return ", ".join(call.said() for call in public_calls() if call.crate == crate and call.clauses() and call not in named)


def definitions_not_found():
    """The definitions that a file with a public call imports, and that the tool doesn't find."""
    paths = sorted({call.path for call in public_calls()})
    return ", ".join(f"{name} of {path}" for path in paths for name in guarantees.imports(path) if not guarantees.definition_of(path, name))


def documents(program):
    yield "tools/guarantees.py: definitions", definitions_not_found
    for crates, cell in rows():
        yield f"{GUARANTEES}: {cell}", partial(wrong_row, crates, cell)
    for crate in guarantees.crates():
        yield f"{GUARANTEES}: rows of {crate}", partial(calls_without_row, crate)
    for page in pages():
        text = text_at(page)
        outside = BLOCK.sub("", text)
        if page != "README.md":
            yield f"{page}: its beginning", partial(wrong_beginning, page)
        for target in sorted(set(LINK.findall(outside))):
            if "://" not in target:
                yield f"{page}: link to {target}", partial(wrong_link, page, target)
        for path in sorted({path for word in WORD.findall(outside) if (path := path_in(word))}):
            yield f"{page}: {path}", partial(wrong_path, path)
        for name in sorted(set(CRATE.findall(outside))):
            yield f"{page}: {name}", partial(wrong_crate, name)
        for call, path, number in PLACE.findall(outside):
            yield f"{page}: {path}:{number}", partial(wrong_place, call, path, int(number))
        for line, name, words, file, shown in commands(text):
            if file or name != "inet":
                yield f"{page}: {line}", partial(wrong_print, program, name, words, file, shown)
        lines = [(line, shown) for line, shown in further_commands(text) if not OTHERS.search(line) and not lacking(line)]
        if lines:
            yield f"{page}: further commands", partial(wrong_commands, lines)
