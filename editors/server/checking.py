"""What the checker says of a document, as the protocol has it: diagnoses, and changes that mend them. The checker is libinet. Not proved."""
import fcntl
import os
import re
import subprocess
import sys

TOP = os.path.dirname(os.path.dirname(os.path.dirname(os.path.abspath(__file__))))
sys.path[1:1] = [os.path.join(TOP, *names) for names in (("bindings", "python"), ("tools",))]
import braces  # noqa: E402  (these stand beside the folder editors/)
import inet  # noqa: E402
from documents import changed  # noqa: E402

ERROR, WARNING = 1, 2
QUICK_FIX = "quickfix"
# No token begins there, unexpected token: the text isn't one of the grammar.
SYNTAX = (1, 2)
# A search for braces checks so many bytes at most, however long the text is.
MOST_SEARCHED = 8_000_000


# ---- the library


def made():
    """Makes the library as bindings/library does; says what is wrong. Of several servers that begin at once one makes it."""
    folder = os.path.join(TOP, "out")
    os.makedirs(folder, exist_ok=True)
    with open(os.path.join(folder, "library.lock"), "w", encoding="utf-8") as lock:
        fcntl.flock(lock, fcntl.LOCK_EX)
        try:
            return inet.Inet()
        except inet.LibraryError:
            ran = subprocess.run([os.path.join(TOP, "bindings", "library"), "make"], stdin=subprocess.DEVNULL, capture_output=True, check=False)
        if ran.returncode:
            raise inet.LibraryError(f"bindings/library make: {ran.stderr.decode(errors='replace').strip()}")
        return inet.Inet()


def library():
    """The calls of libinet, as its binding finds it, or made here; None and the reason where it can't be had."""
    try:
        return inet.Inet(), None
    except inet.LibraryError as error:
        wrong = error
    if os.environ.get("INET_LIBRARY"):
        return None, str(wrong)
    try:
        return made(), None
    except (OSError, inet.LibraryError) as error:
        return None, str(error)


def is_spoilt(calls, one, other):
    """Whether a text is accepted, and another one isn't, or has other counts."""
    usual = calls.check(one)
    return usual.status == inet.OK and calls.check(other) != usual


# ---- diagnoses


def range_at(document, place):
    """The range of a place in bytes; one that has none, and isn't at the end of the text, has the next character."""
    begin, end = (document.characters(number) for number in place["bytes"])
    return document.range(begin, max(end, min(begin + 1, len(document.text))))


def said(data, with_places):
    """The sentences of a diagnosis: those of notes with places too, where nothing else shows them."""
    lines = [part["message"] for part in data["errors"]]
    for part in data["notes"]:
        if not part["place"]:
            lines.append(f"note: {part['message']}")
        elif with_places:
            lines.append(f"note, line {part['place']['line']}: {part['message']}")
    return "\n".join([*lines, *(f"help: {part['message']}" for part in data["helps"])])


def diagnostics(document, status, data, shows_related):
    """The diagnoses of a document, in the protocol's form: none or one."""
    if status == inet.MEMORY:
        return [{"range": document.range(0, 0), "severity": WARNING, "source": "inet", "message": "not checked: out of memory"}]
    if not data:
        return []
    found = {"range": range_at(document, data), "severity": ERROR, "source": "inet", "code": f"E{data['code']:02}", "message": said(data, not shows_related)}
    if shows_related:
        related = [part for part in data["notes"] if part["place"]]
        found["relatedInformation"] = [{"location": {"uri": document.uri, "range": range_at(document, part["place"])}, "message": part["message"]} for part in related]
    return [found]


# ---- what mends them


class Search(braces.Search):
    """The search of tools/braces.py, over the library."""

    def __init__(self, calls, text):
        super().__init__(text, None, min(braces.USUAL_CHECKS, MOST_SEARCHED // (len(text) + 1)))
        self.calls = calls

    def ask(self, changed):
        if self.checks >= self.most:
            raise braces.Enough
        self.checks += 1
        text = self.written(changed)
        status, line = self.calls.check(text)
        answer = braces.Answer(status, line.decode(errors="replace"), "")
        return braces.Answer(status, answer.line, self.calls.diagnose(text).text) if answer.is_of_braces else answer

    def changes(self):
        """The declarations to change, with where their braces stand and what comes there; none where none are found."""
        try:
            first = self.ask({})
            found = braces.mended(self, first, False) if first.is_of_braces else None
        except braces.Enough:
            found = None
        for name, declaration in (found or {}).items():
            begin, end = self.symbols[name].place
            alone = self.written({name: declaration})
            yield name, (begin, end, alone[begin:end + len(alone) - len(self.text)])


def remedies(data):
    """What the diagnosis offers: a title, its changes, and whether the program is accepted with them."""
    for part in [*data["notes"], *data["helps"]]:
        if part["remedy"]:
            title, *more = part["message"].split("\n")
            names = [found[1] for line in more if (found := re.match(r" *symbol (\w+)", line))]
            changes = [(*change["characters"], change["words"]) for change in part["remedy"]["changes"]]
            yield title.rstrip(":") + (f": {', '.join(names)}" if names else ""), changes, part["remedy"]["accepted"]


def mends(calls, document, data):
    """All changes that are offered for a diagnosis, each once: title, changes, and whether the program is accepted with them."""
    found, met = [], set()
    changes = dict(Search(calls, document.text).changes())
    offers = list(remedies(data))
    if changes:
        offers.append((f"mend the braces of {', '.join(changes)}", sorted(changes.values()), True))
    for title, changes, accepted in offers:
        text = changed(document.text, changes)
        if text not in met:
            found.append((title, changes, accepted))
        met.add(text)
    return found
