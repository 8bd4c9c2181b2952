"""The language server of editors/: over its protocol, on each example and on odd messages, beside what the program says; its reader beside the
export; the colours of VS Code's grammar; and in headless Neovim, where it is there.

What the server says is compared with the program: verdict, code, place and sentences. What it offers is applied, and the program says what it
makes of the text then.
"""
import contextlib
import itertools
import json
import os
import queue
import random
import re
import shutil
import subprocess
import sys
import threading
from functools import partial

from harness.export import BUILT
from harness.generated import small
from harness.library import LIBRARY, Library
from harness.programs import ACCEPTED, EXAMPLES, HERE, MOST_BYTES, Program, differing, text_of
from harness.tools import MENDED, NOT_MENDED, SCRAMBLED, altered_text, put_at_random

TOP = os.path.normpath(os.path.join(HERE, "..", ".."))
EDITORS = os.path.join(TOP, "editors")
SERVER = os.path.join(EDITORS, "server", "main.py")
sys.path.insert(1, os.path.join(EDITORS, "server"))
import layout  # noqa: E402  (the server stands beside the tests)
import reader  # noqa: E402
from documents import Document, changed  # noqa: E402

# No answer may take longer, in seconds.
WAIT = 120
# So many examples are tried with one server, and of each example so many names are renamed.
AT_ONCE, RENAMED = 12, 8
# So many generated programs are read, and so many texts are changed by chance.
GENERATED, CHANGED = 60, 400
# What a client may say of itself.
ABLE = {
    "textDocument": {
        "publishDiagnostics": {"relatedInformation": True},
        "codeAction": {"codeActionLiteralSupport": {"codeActionKind": {"valueSet": ["quickfix"]}}},
        "hover": {"contentFormat": ["plaintext"]},
        "rename": {"prepareSupport": True},
    },
    "workspace": {"workspaceEdit": {"documentChanges": True}},
}
BLANKS = " \t\r\n"
# `with` is a reserved word behind the heads of a rule alone.
NAMED_WITH = (
    "type with; symbol Z : with+; symbol S : with+ {with-}; symbol with : with- {with-} {with+};\n"
    "rule Z[] >< with[a, b] with { a ~ b; }; rule S[x] >< with[a, S(r)] with { x ~ with(a, r); };\nnet (r : with+) { S(Z) ~ with(Z, r); }\n",
    "type t; symbol Z : t+; symbol S : t+ {t-}; symbol A : t- {t-} {t+};\n"
    "rule Z[] >< A[with, with]; rule S[with] >< A[a, S(r)] with { with ~ A(a, r); };\nnet (with : t+) { S(Z) ~ A(Z, with); }\n",
)
# With its braces put at random, fewer declarations need a change than the diagnosis shows.
SEARCHED = "fold_of_a_tree"
# A name is too long, or declared twice: another name mends that.
FAULTS_OF_NAMES = (b"E03", b"E04")
ENDED, WENT_AWAY, WRONG_WORDS = range(3)
PARSE_ERROR, INVALID_REQUEST, METHOD_NOT_FOUND, INVALID_PARAMS = -32700, -32600, -32601, -32602
NOT_INITIALIZED, REQUEST_FAILED = -32002, -32803
EVERYTHING = {"start": {"line": 0, "character": 0}, "end": {"line": 2_000_000, "character": 0}}


class Wrong(Exception):
    """What is wrong with an answer."""


# ---- a client


class Client:
    """A server, as an editor has it."""

    def __init__(self, shared, capabilities=ABLE, server=SERVER):
        self.capabilities, self.numbers, self.published, self.shown = capabilities, itertools.count(1), {}, []
        environment = {**os.environ, **({"INET_LIBRARY": shared} if shared else {})}
        self.process = subprocess.Popen([sys.executable, server], stdin=subprocess.PIPE, stdout=subprocess.PIPE, stderr=subprocess.PIPE, env=environment)
        self.messages = queue.SimpleQueue()
        self.reads = threading.Thread(target=self._read, daemon=True)
        self.reads.start()

    def __enter__(self):
        self.ask("initialize", capabilities=self.capabilities)
        self.note("initialized")
        return self

    def __exit__(self, kind, *_):
        try:
            if kind is None:
                self.ask("shutdown")
                self.note("exit")
                if (status := self.ended()) != ENDED:
                    raise Wrong(f"the server ends with status {status}")
        finally:
            self.process.kill()
            self.process.wait()
            self.reads.join()
            for stream in (self.process.stdin, self.process.stdout, self.process.stderr):
                with contextlib.suppress(OSError):
                    stream.close()

    def _read(self):
        stream = self.process.stdout
        while head := stream.readline():
            stream.readline()
            self.messages.put(json.loads(stream.read(int(head.split(b":")[1]))))
        self.messages.put(None)

    def ended(self):
        """The status with which the server ends; what it told besides is wrong."""
        status = self.process.wait(WAIT)
        if told := self.process.stderr.read():
            raise Wrong(f"on standard error: {told!r}")
        return status

    def send_bytes(self, data):
        self.process.stdin.write(data)
        self.process.stdin.flush()

    def send(self, **message):
        data = json.dumps({"jsonrpc": "2.0", **message}).encode()
        self.send_bytes(b"Content-Length: %d\r\n\r\n" % len(data) + data)

    def received(self):
        """The next message; what is published and shown is kept too."""
        try:
            message = self.messages.get(timeout=WAIT)
        except queue.Empty:
            raise Wrong("no answer") from None
        if message is None:
            raise Wrong(f"the server ended: {self.process.stderr.read()!r}")
        params = message.get("params", {})
        if message.get("method") == "textDocument/publishDiagnostics":
            self.published[params["uri"]] = params
        elif message.get("method") == "window/showMessage":
            self.shown.append(params["message"])
        elif "method" in message:
            raise Wrong(f"{message}")
        return message

    def answer(self, number):
        """The answer to the request of this number."""
        while (message := self.received()).get("id", "") != number:
            pass
        return message

    def reply(self, method, **params):
        number = next(self.numbers)
        self.send(id=number, method=method, params=params)
        return self.answer(number)

    def ask(self, method, **params):
        """What the server answers; an error is wrong."""
        message = self.reply(method, **params)
        if "result" not in message:
            raise Wrong(f"{method}: {message['error']}")
        return message["result"]

    def note(self, method, **params):
        self.send(method=method, params=params)


class Text:
    """A text that is open in a client."""

    def __init__(self, client, text, name="text"):
        self.client, self.text, self.version = client, text, 1
        self.uri = f"file:///{name}-{next(client.numbers)}.inet"
        client.note("textDocument/didOpen", textDocument={"uri": self.uri, "languageId": "inet", "version": 1, "text": text})

    def ask(self, method, offset=None, **params):
        place = {} if offset is None else {"position": position(self.text, offset)}
        return self.client.ask(f"textDocument/{method}", textDocument={"uri": self.uri}, **place, **params)

    def put(self, text):
        """Exchanges the whole text."""
        self._change(text, [{"text": text}])

    def edit(self, edits):
        """Makes these changes of the protocol: those behind first, so that places stay."""
        last_first = sorted(edits, key=lambda edit: (edit["range"]["start"]["line"], edit["range"]["start"]["character"]), reverse=True)
        self._change(edited(self.text, last_first), [{"range": edit["range"], "text": edit["newText"]} for edit in last_first])

    def _change(self, text, changes):
        self.text, self.version = text, self.version + 1
        self.client.note("textDocument/didChange", textDocument={"uri": self.uri, "version": self.version}, contentChanges=changes)

    def diagnoses(self):
        """What is published of the text as it is now."""
        while self.client.published.get(self.uri, {}).get("version") != self.version:
            self.client.received()
        return self.client.published[self.uri]["diagnostics"]

    def actions(self):
        return self.ask("codeAction", range=EVERYTHING, context={"diagnostics": self.diagnoses()})

    def edits_in(self, answer):
        """The changes of a workspace edit, which are all of this text."""
        (one,) = answer["documentChanges"]
        if one["textDocument"] != {"uri": self.uri, "version": self.version}:
            raise Wrong(f"changes of {one['textDocument']}")
        return one["edits"]


# Places, as the protocol has them, in another way than the server's.
END_OF_LINE = re.compile("\r\n|\r|\n")


def position(text, offset):
    lines = END_OF_LINE.split(text[:offset])
    return {"line": len(lines) - 1, "character": len(lines[-1].encode("utf-16-le", "surrogatepass")) // 2}


def edited(text, edits):
    """The text after changes of the protocol, one after another."""
    for edit in edits:
        begin, end = (offset_at(text, edit["range"][which]) for which in ("start", "end"))
        text = text[:begin] + edit["newText"] + text[end:]
    return text


def offset_at(text, place):
    lines = re.split("(\r\n|\r|\n)", text)
    line = lines[2 * place["line"]].encode("utf-16-le", "surrogatepass")[: 2 * place["character"]]
    return len("".join(lines[: 2 * place["line"]])) + len(line.decode("utf-16-le", "surrogatepass"))


# ---- beside the program


def wrong_diagnosis(program, text):
    """What is wrong with what is published of a text: the program has the same verdict, place and sentences."""
    found, answer = text.diagnoses(), program.run(["check"], text.text.encode("utf-8", "surrogatepass"))
    if answer.status == ACCEPTED:
        return f"accepted, and {found} is published" if found else None
    code, line, column = re.match(rb"refused (E\d\d) at (\d+):(\d+)", answer.output).groups()
    before = text.text.split("\n")[: int(line) - 1]
    place = position(text.text, sum(len(one) + 1 for one in before) + int(column) - 1)
    if len(found) != 1 or (found[0]["code"].encode(), found[0]["range"]["start"]) != (code, place):
        return f"{found}; wanted: {answer}"
    sentences = [re.sub("^(?:error|note): ", "", row) for row in answer.errors.decode(errors="replace").splitlines() if row.startswith(("error: ", "note: ", "help: "))]
    shown = [found[0]["message"], *(one["message"] for one in found[0]["relatedInformation"])]
    return next((f"{sentence!r} isn't in {shown}" for sentence in sentences if not any(sentence in one for one in shown)), None)


def wrong_actions(program, name, text):
    """What is wrong with the changes that are offered: each changes the text, to what the server says of it, and a preferred one mends it."""
    whole, preferred = text.text, 0
    for action, edits in [(action, text.edits_in(action["edit"])) for action in text.actions()]:
        text.edit(edits)
        status = program.run(["check"], text.text.encode()).status
        preferred += action["isPreferred"]
        if text.text == whole or action["isPreferred"] and status != ACCEPTED:
            return f"not mended by {action}"
        if wrong := wrong_diagnosis(program, text):
            return f"after {action['title']}: {wrong}"
        text.put(whole)
    if name in MENDED and not preferred or name in NOT_MENDED and preferred:
        return f"{preferred} changes mend it"
    return wrong_diagnosis(program, text)


def same_verdict(one, other):
    """Whether two texts are accepted with the same counts, or refused with the same code."""
    parts = [answer.output if answer.status == ACCEPTED else answer.output.split()[1] for answer in (one, other)]
    return one.status == other.status and parts[0] == parts[1]


def wrong_run(program, text, other, names):
    """What is wrong with the run of a text with other names: what it prints is the same but for these."""
    one, two = (program.run(["run"], each.encode()) for each in (text, other))
    back = re.sub(r"\w+", lambda found: names.get(found[0], found[0]), two.output.decode())
    return differing(one, two.status, back.encode())


def wrong_renames(program, name, text):
    """What is wrong where some names of a text are changed one after another: the program says and prints the same but for the names, unless a name
    was the fault."""
    whole, chance = text.text, random.Random(name)
    one, back = program.run(["check"], whole.encode()), {}
    keys = sorted({(found.kind, found.token.text, found.token.start) for found in reader.Reading(whole).names if found.declared or found.kind == reader.VARIABLE})
    for kind, old, _ in chance.sample(keys, min(RENAMED, len(keys))):
        there = [found for found in reader.Reading(text.text).names if (found.kind, found.token.text) == (kind, old)]
        if there:
            back[f"renamed_{len(back)}"] = old
            offset = there[0].token.start
            if text.ask("prepareRename", offset)["placeholder"] != old:
                return f"another name than {old}"
            text.edit(text.edits_in(text.ask("rename", offset, newName=f"renamed_{len(back) - 1}")))
    two = program.run(["check"], text.text.encode())
    if not same_verdict(one, two) and one.output.split()[1] not in FAULTS_OF_NAMES:
        return f"renamed {back}: {two}; before: {one}"
    wrong = wrong_diagnosis(program, text) or (wrong_run(program, whole, text.text, back) if one.status == ACCEPTED else None)
    return f"renamed {back}: {wrong}" if wrong else None


def wrong_layout(program, text):
    """What is wrong with the layout of a text: it has the same tokens and verdict in it, and no more changes."""
    whole = text.text
    text.edit(text.ask("formatting", options={"tabSize": 4, "insertSpaces": True}))
    if [token[:2] for token in reader.tokens(whole)] != [token[:2] for token in reader.tokens(text.text)]:
        return f"other tokens: {text.text}"
    if again := text.ask("formatting", options={"tabSize": 4, "insertSpaces": True}):
        return f"formatted again: {again}"
    one, two = (program.run(["check"], each.encode()) for each in (whole, text.text))
    return wrong_diagnosis(program, text) or (None if same_verdict(one, two) else f"{two}; before: {one}")


def wrong_questions(text):
    """What is wrong where all is asked at some places of a text: no answer is an error, and a definition has the name that is there."""
    chance = random.Random(text.text)
    for _ in range(12):
        offset = chance.randrange(len(text.text) + 1)
        for method in ("hover", "references", "documentHighlight", "completion", "prepareRename"):
            text.ask(method, offset, context={"includeDeclaration": True})
        for found in text.ask("definition", offset):
            begin, end = (offset_at(text.text, found["range"][which]) for which in ("start", "end"))
            if not text.text[begin:end].isidentifier():
                return f"defined at {found}"
    return None


def wrong_example(program, client, name):
    """What is wrong with what the server says and does of an example."""
    whole = text_of(name).decode(errors="replace")
    text = Text(client, whole, name)
    wrong = wrong_diagnosis(program, text) or wrong_actions(program, name, text) or wrong_questions(text) or wrong_renames(program, name, text)
    text.put(whole)
    wrong = wrong or wrong_layout(program, text)
    client.note("textDocument/didClose", textDocument={"uri": text.uri})
    return wrong


def wrong_braces(program, shared, name, seed):
    """What is wrong with the changes that are offered for a program whose braces are put at random: some are preferred, and each of these mends it.
    Of one program the search finds fewer declarations than the diagnosis."""
    with Client(shared) as client:
        whole = put_at_random(text_of(name).decode(), random.Random(seed))
        text = Text(client, whole)
        offered = [(action["title"], text.edits_in(action["edit"])) for action in text.actions() if action["isPreferred"]]
        for _, edits in offered:
            text.put(whole)
            text.edit(edits)
            if text.diagnoses() or program.run(["check"], text.text.encode()).status != ACCEPTED:
                return f"not mended: {text.text}"
    searched = any(title.startswith("mend the braces") for title, _ in offered) or name != SEARCHED
    return None if searched and (offered or program.run(["check"], whole.encode()).status == ACCEPTED) else f"{offered} for {whole}"


def wrong_for_simple_client(shared):
    """What is wrong for a client that says nothing of itself: all sentences stand in the diagnosis, and changes have no version."""
    with Client(shared, {}) as client:
        text = Text(client, text_of("declared_twice").decode())
        words = text.diagnoses()[0]["message"]
        if words != "the symbol `Z` is declared twice\nnote, line 3: it is declared here first\nhelp: rename one of them, or remove one":
            return words
        offset = offset_of(text.text, 4, "S")
        found = text.ask("rename", offset, newName="T"), text.ask("completion", offset), text.ask("hover", offset)
        is_plain = list(found[0]) == ["changes"] and not any("insertTextFormat" in item for item in found[1]) and found[2]["contents"]["kind"] == "plaintext"
        return None if is_plain else f"{found}"


def wrong_for_able_client(shared):
    """What is wrong for a client that takes marks, and texts to be filled in."""
    able = {"textDocument": {"hover": {"contentFormat": ["markdown", "plaintext"]}, "completion": {"completionItem": {"snippetSupport": True}}}}
    with Client(shared, able) as client:
        text = Text(client, "type a; symbol A : a+ {a-} {a-}; symbol B : a- {a+}; rule A[x, y] >< ")
        offered = [item["textEdit"]["newText"] for item in text.ask("completion", len(text.text))]
        said = text.ask("hover", text.text.index("A :"))["contents"]
        return None if offered == ["B[${1:a+}]"] and said["value"].startswith("```inet\nsymbol A : a+ {a-} {a-};\n```") else f"{offered}, {said}"


def wrong_examples(program, shared, names):
    with Client(shared) as client:
        return "; ".join(f"{name}: {wrong}" for name in names if (wrong := wrong_example(program, client, name))) or None


# ---- the reader, the layout and the places, beside the export and by chance


def exported(reading):
    """What the export says of a program, but for nodes and steps, as the reader has it."""
    types = [token.text for item in reading.items if item.word.text == "type" for token in item.types]
    symbols = list(reading.symbols.values())
    numbers = {symbol.name.text: number for number, symbol in enumerate(symbols)}
    port = lambda port: {"type": types.index(port.type.text), "output": port.sign == "+"}
    is_input = lambda head: reading.symbols[head.name.text].principal.sign == "-"

    def body(item):
        agents = sorted((term for term in item.terms() if not term.is_head and reading.is_symbol(term)), key=lambda term: term.name.start)
        ends = {(head.name, place): [] for head in sorted(item.heads.sides if item.heads else [], key=is_input) for place in range(1, len(reading.symbols[head.name.text].ports))}
        places = {key: [number] for number, key in enumerate([*ends, *((name, None) for name, _ in item.free)])}
        places |= {(agent.name, place): [number, place] for number, agent in enumerate(agents) for place in range(len(reading.symbols[agent.name.text].ports))}
        wires = reading.wires(item)
        return {
            "agents": [numbers[agent.name.text] for agent in agents],
            "wires": [sorted(places[getattr(what, "name", what), place] for what, place in wire.points) for wire in wires],
            "active": [number for number, wire in enumerate(wires) if wire.is_pair],
        }

    rules = [item for item in reading.items if item.word.text == "rule"]
    (net,) = (item for item in reading.items if item.word.text == "net")
    return {
        "types": types,
        "symbols": [{"name": symbol.name.text, "ports": [{**port(one), "class": one.braces} for one in symbol.ports]} for symbol in symbols],
        "rules": [{**dict(zip(("constructor", "destructor"), (numbers[head.name.text] for head in sorted(rule.heads.sides, key=is_input)))), **body(rule)} for rule in rules],
        "net": {"free": [{"name": name.text, **port(one)} for name, one in net.free], **body(net)},
    }


def wrong_reading(exporter, text, must_be_accepted=False):
    """What is wrong with the reading of a text that is accepted: it has what the export has."""
    answer = exporter.run([], text.encode())
    if answer.status != ACCEPTED:
        return f"{answer}" if must_be_accepted else None
    wanted = json.loads(answer.output)
    del wanted["format"]
    for item in (*wanted["rules"], wanted["net"]):
        del item["nodes"], item["steps"]
        item["wires"] = [sorted(wire) for wire in item["wires"]]
    found = exported(reader.Reading(text))
    return None if found == wanted else f"{found}; wanted: {wanted}, of {text}"


def wrong_tolerance(text):
    """What is wrong with the reading and the layout of any text: each character is a token's or a blank, places ascend, and a layout keeps the tokens and
    is laid out."""
    reading = reader.Reading(text)
    names = [name.token.start for name in reading.names]
    for item in reading.items:
        reading.wires(item)
    rest = list(text)
    for token in reading.tokens:
        if text[token.start:token.end] != token.text or not token.text.strip(BLANKS):
            return f"{token} isn't in {text!r}"
        rest[token.start:token.end] = " " * len(token.text)
    laid_out = changed(text, layout.formatted(text))
    if "".join(rest).strip(BLANKS) or names != sorted(set(names)) or list(layout.edits(laid_out)):
        return f"read {reading.tokens}, names at {names}, laid out {laid_out!r}: {text!r}"
    return None


def wrong_beginning(text, chance):
    """What is wrong with the reading of a text that is being typed: what is complete before the cursor is read as in the whole text."""
    whole = reader.Reading(text)
    cut = chance.randrange(len(text))
    reading = reader.Reading(text[:cut])
    known = {name.token: name for name in reading.names}
    for name in whole.names:
        # A bare name is a symbol's where one is declared, which may come later.
        declared = [other.token.end for other in whole.same(name) if other.declared]
        if name.item.end <= cut and (not declared or declared[0] <= cut) and (known[name.token].kind, known[name.token].declared) != (name.kind, name.declared):
            return f"{name.token} is a {known[name.token].kind} in {text[:cut]!r}"
    return None


def wrong_by_chance(seed):
    """What is wrong with texts that are changed by chance."""
    chance = random.Random(seed)
    files = sorted(file.removesuffix(".inet") for file in os.listdir(EXAMPLES) if file.endswith(".run"))
    odd = ["\r", "\r\n", "\ufeff", "\0", "\u00b2", "\U0001d4b3", "é", "#", "><", "[[", "))", "{", "\ud800", "1a", "with", "net"]
    for _ in range(CHANGED // 8):
        whole = text_of(chance.choice(files).removesuffix(".run")).decode()
        text = altered_text(whole.encode(), chance).decode()
        for _ in range(chance.randrange(4)):
            place = chance.randrange(len(text) + 1)
            text = text[:place] + chance.choice(odd) + text[place:]
        if wrong := wrong_tolerance(text) or wrong_beginning(whole, chance):
            return wrong
    return None


def wrong_places(seed):
    """What is wrong with places and changes of a document, beside those of the tests: in lines of each kind, characters of one unit and of two."""
    chance = random.Random(seed)
    document, text = Document("file:///a", 0, ""), ""
    for _ in range(300):
        words = "".join(chance.choice(["a", "é", "\U0001d4b3", "\r", "\n", "\r\n", " ~ "]) for _ in range(chance.randrange(6)))
        begin, end = sorted(chance.randrange(len(text) + 1) for _ in range(2))
        # No place is between the two characters that end a line.
        begin, end = (place - (text[place - 1:place + 1] == "\r\n") for place in (begin, end))
        range_ = {"start": position(text, begin), "end": position(text, end)}
        if document.range(begin, end) != range_ or document.offsets(range_) != [begin, end]:
            return f"{document.range(begin, end)} and {document.offsets(range_)}, wanted {range_}: {text!r}"
        document = document.changed({"range": range_, "text": words})
        text = edited(text, [{"range": range_, "newText": words}])
        if document.text != text:
            return f"{document.text!r}; wanted: {text!r}"
    return None


# ---- what is asked of a place

# In the example, on a line: where the name is, what is asked, and what has to be in the answer.
HOVERS = {
    (6, "Add"): [
        "symbol Add : nat- {nat-} {nat+};", "a destructor: its principal port takes a `nat`", "auxiliary port 1 takes a `nat`", "auxiliary port 2 gives a `nat`",
        "rules with `Z` (line 9), `S` (line 8)",
    ],
    (3, "nat"): ["type nat;", "constructors: `Z`, `S`", "destructors: `Add`"],
    (8, "><"): ["symbol S : nat+ {nat-};", "symbol Add : nat- {nat-} {nat+};"],
    (8, "sum"): ["auxiliary port 1 of `S`, `nat-` (line 8)", "auxiliary port 2 of `Add`, `nat+` (line 8)"],
    (9, "y"): ["auxiliary port 1 of the head `Add`, `nat-` (line 9)", "auxiliary port 2 of the head `Add`, `nat+` (line 9)"],
    (11, "sum"): ["sum : nat+", "the free end `sum`", "auxiliary port 2 of `Add`, `nat+` (line 12)"],
    (12, "~"): ["an active pair; its rule is in line 8", "rule S[Add(y, sum)] >< Add[y, S(sum)];"],
    (12, "Add"): ["symbol Add : nat- {nat-} {nat+};", "an active pair; its rule is in line 8"],
}
DEFINITIONS = {(12, "Add"): [(6, "Add")], (12, "sum"): [(11, "sum")], (8, "nat"): [], (4, "nat"): [(3, "nat")], (12, "~"): [(8, "rule")], (8, "sum"): [(8, "sum)];")]}
# The other name of what is there, and what the server says of it.
REFUSED_NAMES = {
    (12, "Add"): {
        "Z": "the symbol `Z` is there already", "y": "the variable `y` is there already", "sum": "is there already", "rule": "`rule` is a reserved word",
        **dict.fromkeys(("A-b", "", "1", "n" * 65), "is no name"),
    },
    (8, "sum"): {"y": "the variable `y` is there already", "Add": "the symbol `Add` is there already"},
    (12, "sum"): {"S": "the symbol `S` is there already"},
    (3, "nat"): {"net": "`net` is a reserved word", "a b": "is no name", "#": "is no name"},
    (10, ""): {"a": "no name stands here"},
}
# What is written at the end of the line before the mark, and what is offered.
OFFERED = {
    "type a; sym|": ["net", "rule", "symbol", "type"],
    "type a, b; symbol A : |": ["a", "b"],
    "type a, b; symbol A : a+ {b|": ["a", "b"],
    "type a; symbol |": [],
    "type a; symbol A : a+; symbol B : a- {a+}; rule A[] >< |": ["B"],
    "type a; symbol A : a+; symbol B : a- {a+}; rule |": ["A", "B"],
    "type a; symbol A : a+; rule A[x|": ["A"],
    "type a; symbol A : a+; symbol B : a-; rule A[] >< B[] |": ["with"],
    "type a; symbol A : a+; net (x : |": ["a"],
    "type a; symbol A : a+; net (x : a+) { |": ["A", "x"],
    "type a; symbol A : a+; net () { A ~ y; A ~ z; y ~ |": ["A", "z"],
    "type a; # sym|": [],
    "": ["net", "rule", "symbol", "type"],
}


def offset_of(text, line, word):
    """Where a word is on a line, which is counted from 1: in it, where it has several characters."""
    begin = len("".join(text.splitlines(keepends=True)[: line - 1]))
    return text.index(word, begin) + min(1, len(word) - 1 if word else 0)


def wrong_answers(shared):
    """What is wrong with the answers on an example."""
    with Client(shared) as client:
        whole = text_of("sum").decode()
        text = Text(client, whole)
        for (line, word), parts in HOVERS.items():
            said = text.ask("hover", offset_of(whole, line, word))["contents"]["value"]
            if any(part not in said for part in parts):
                return f"on {word} in line {line}: {said}"
        for (line, word), wanted in DEFINITIONS.items():
            found = [one["range"]["start"] for one in text.ask("definition", offset_of(whole, line, word))]
            if word != "nat" and found != [position(whole, offset_of(whole, *one) - 1) for one in wanted]:
                return f"{word} in line {line} is defined at {found}"
        for (line, word), names in REFUSED_NAMES.items():
            for name, why in names.items():
                said = client.reply("textDocument/rename", textDocument={"uri": text.uri}, position=position(whole, offset_of(whole, line, word)), newName=name)
                if said.get("error", {}).get("code") != REQUEST_FAILED or why not in said["error"]["message"]:
                    return f"{word} in line {line} as {name}: {said}"
        for written, wanted in OFFERED.items():
            text.put(written.replace("|", ""))
            found = sorted(item["label"] for item in text.ask("completion", written.find("|") if written else 0))
            if found != wanted:
                return f"{written}: offered {found}"
    return None


# ---- odd texts and messages


def framed(data):
    return b"Content-Length: %d\r\n\r\n" % len(data) + data


def of_json(value):
    return framed(json.dumps(value).encode())


# Bytes that are sent, and the errors that the server answers to them, in turn.
ODD = {
    "no JSON": (framed(b"{"), [PARSE_ERROR]),
    "no bytes": (framed(b""), [PARSE_ERROR]),
    "bytes that are no UTF-8": (framed(b'{"method":"\xff\xfe\xfd"}'), [PARSE_ERROR]),
    "deep JSON": (framed(b"[" * 200_000), [PARSE_ERROR]),
    "a number": (of_json(1), [INVALID_REQUEST]),
    "a list": (of_json([]), [INVALID_REQUEST]),
    "no method": (of_json({"id": 1}), [INVALID_REQUEST]),
    "a method that is a number": (of_json({"id": 1, "method": 5}), [INVALID_REQUEST]),
    "an unknown request": (of_json({"id": "x", "method": "textDocument/paint"}), [METHOD_NOT_FOUND]),
    "an unknown notification": (of_json({"method": "$/paint", "params": [1]}), []),
    "an answer": (of_json({"id": 1, "result": None}), []),
    "a second beginning": (of_json({"id": 1, "method": "initialize", "params": {}}), [METHOD_NOT_FOUND]),
    "no parameters": (of_json({"id": 1, "method": "textDocument/hover"}), [INVALID_PARAMS]),
    "parameters that are a list": (of_json({"id": 1, "method": "textDocument/rename", "params": [1, 2]}), [INVALID_PARAMS]),
    "no such document": (of_json({"id": 1, "method": "textDocument/hover", "params": {"textDocument": {"uri": "file:///none"}, "position": {"line": 0, "character": 0}}}), [INVALID_PARAMS]),
    "a document without an address": (of_json({"method": "textDocument/didOpen", "params": {"textDocument": {"uri": [], "text": "net"}}}), []),
    "a document without a text": (of_json({"method": "textDocument/didOpen", "params": {"textDocument": {"uri": "file:///odd", "text": 7}}}), []),
    "a change of no document": (of_json({"method": "textDocument/didChange", "params": {"textDocument": {"uri": "file:///none"}, "contentChanges": [{"text": ""}]}}), []),
    "no changes": (of_json({"method": "textDocument/didChange", "params": {"textDocument": {"uri": "file:///none"}, "contentChanges": None}}), []),
    "the end of no document": (of_json({"method": "textDocument/didClose", "params": {"textDocument": {"uri": "file:///none"}}}), []),
    "a head without a length": (b"Content-Type: text\r\n\r\n", []),
    "lengths that are none": (b"Content-Length: -5\r\n\r\nContent-Length: 1e3\r\n\r\nContent-Length: " + b"9" * 40 + b"\r\n\r\n", []),
    "blank lines": (b"\r\n\n\r\n\r\n", []),
    "a head in small letters": (b"content-length:2\n\n{}", [INVALID_REQUEST]),
    "a long line": (b"x" * 200_000 + b"\r\n\r\n", []),
    "a message that is too long": (framed(b" " * (64 * 1024 * 1024 + 1)), [PARSE_ERROR]),
}
# Places of a text, and whether a request for them is an error.
ODD_PLACES = [
    ({"line": 10**9, "character": 10**9}, False), ({"line": 0, "character": 10**30}, False), ({"line": 0, "character": 0}, False), ({"line": -1, "character": 0}, True),
    ({"line": 0}, True), ({"line": "a", "character": 0}, True), ([], True), (None, True), ({"line": None, "character": {}}, True), ({"line": 1e400, "character": 0}, True),
]


def wrong_after(shared, data, errors):
    """What is wrong where odd bytes were sent: the server answers these errors, and then goes on."""
    with Client(shared) as client:
        client.send_bytes(data)
        client.send(id="next", method="textDocument/hover", params={})
        found = []
        while (message := client.received()).get("id", "") != "next":
            if "error" in message:
                found.append(message["error"]["code"])
        text = Text(client, "net () { }")
        return None if found == errors and not text.diagnoses() else f"errors {found}, {text.diagnoses()}; wanted: {errors}"


def wrong_at_odd_places(shared):
    """What is wrong with answers about places that aren't in a text, or are none."""
    with Client(shared) as client:
        text = Text(client, text_of("sum").decode())
        for place, is_error in ODD_PLACES:
            for method in ("hover", "definition", "completion", "prepareRename", "references"):
                answer = client.reply(f"textDocument/{method}", textDocument={"uri": text.uri}, position=place)
                if ("error" in answer) != is_error or is_error and answer["error"]["code"] != INVALID_PARAMS:
                    return f"{method} at {place}: {answer}"
    return None


def odd_texts():
    """Texts that are long, empty, or of odd characters."""
    whole = text_of("sum").decode()
    yield "no character", ""
    yield "half of a pair", whole.replace("sum", "s\ud800")
    yield "a byte order mark", "\ufeff" + whole
    yield "no character of a text", "\0\x01\x1b\x7f\u2028\u2029"
    yield "lines that end by two characters", whole.replace("\n", "\r\n").replace("S(S(Z))", "S(S(Z)")
    yield "lines that end by a carriage return", whole.replace("\n", "\r")
    yield "characters of two units before a fault", "# \U0001d4b3\n" + whole.replace("net (sum", "# \U0001d4b3\U0001d4b3\nnet (\U0001d4b3\U0001d4b3\U0001d4b3 : nat+, sum")
    for size in (MOST_BYTES, MOST_BYTES + 1):
        yield f"{size} bytes", whole + " " * (size - len(whole))
    yield "one line of a mebibyte", "net () { " + "a ~ b; " * (MOST_BYTES // 7)
    yield "deep terms", "net () { " + "S(" * 50_000
    yield "many items", "symbol " * 30_000
    yield "brackets", "net (){" + "(" * 100_000
    yield "letters of two bytes", "é" * (MOST_BYTES // 2)


def wrong_text(program, shared, text):
    """What is wrong with what the server says of an odd text, and what it says when it is asked there."""
    with Client(shared) as client:
        opened = Text(client, text)
        if wrong := wrong_diagnosis(program, opened):
            return wrong[:2000]
        opened.actions()
        for method, offset in (("hover", 0), ("definition", len(text) // 2), ("completion", len(text))):
            opened.ask(method, offset)
        opened.ask("formatting", options={})
    return None


def wrong_end(shared, what):
    """What is wrong with how a server ends."""
    client = Client(shared)
    try:
        if what == "before the beginning":
            if (said := client.reply("textDocument/hover")).get("error", {}).get("code") != NOT_INITIALIZED:
                return f"{said}"
            client.note("exit")
        elif what == "unasked":
            client.__enter__().note("exit")
        elif what == "without a word":
            client.__enter__().process.stdin.close()
        elif what == "within a message":
            client.__enter__().send_bytes(b"Content-Length: 100\r\n\r\n{")
            client.process.stdin.close()
        elif what == "as asked":
            client.__enter__().ask("shutdown")
            if (said := client.reply("textDocument/hover")).get("error", {}).get("code") != INVALID_REQUEST:
                return f"{said}"
            client.note("exit")
        status = client.ended()
        return None if status == (ENDED if what == "as asked" else WENT_AWAY) else f"status {status}"
    finally:
        client.process.kill()
        client.process.wait()


def wrong_without_reader(shared):
    """What is wrong with how a server ends whose answers nobody reads any more."""
    process = subprocess.Popen([sys.executable, SERVER], stdin=subprocess.PIPE, stdout=subprocess.PIPE, stderr=subprocess.PIPE, env={**os.environ, "INET_LIBRARY": shared})
    process.stdout.close()
    with contextlib.suppress(OSError):
        for number in range(1000):
            process.stdin.write(of_json({"id": number, "method": "initialize"}))
    with contextlib.suppress(OSError):
        process.stdin.close()
    status, told = process.wait(WAIT), process.stderr.read()
    process.stderr.close()
    return None if (status, told) == (WENT_AWAY, b"") else f"status {status}, {told!r}"


def wrong_words(words, status):
    ran = subprocess.run([sys.executable, SERVER, *words], stdin=subprocess.DEVNULL, capture_output=True, timeout=WAIT, check=False)
    return None if ran.returncode == status and b"Usage: " in ran.stdout and not ran.stderr else f"status {ran.returncode}, {ran.stdout!r}, {ran.stderr!r}"


def wrong_without_library(shared):
    """What is wrong with a server that has no library: it says so, and answers what the text answers."""
    with Client(shared) as client:
        text = Text(client, text_of("waits_for_itself").decode())
        said, found = text.ask("hover", offset_of(text.text, 6, "Add")), text.diagnoses()
        return None if len(client.shown) == 1 and "checks nothing" in client.shown[0] and said and not found else f"{client.shown}, {said}, {found}"


def wrong_first_library(room):
    """What is wrong with two servers that begin where no library was made yet: one makes it, and both have it."""
    os.makedirs(os.path.join(room, "bindings"))
    for name in os.listdir(TOP):
        if name not in ("out", "bindings", ".git"):
            os.symlink(os.path.join(TOP, name), os.path.join(room, name))
    for name in os.listdir(os.path.dirname(LIBRARY)):
        if name == "library":
            shutil.copy(LIBRARY, os.path.join(room, "bindings"))
        else:
            os.symlink(os.path.join(os.path.dirname(LIBRARY), name), os.path.join(room, "bindings", name))
    server = os.path.join(room, os.path.relpath(SERVER, TOP))
    with Client(None, server=server) as one, Client(None, server=server) as other:
        for client in (one, other):
            text = Text(client, "net () { ~ }")
            if len(text.diagnoses()) != 1 or client.shown:
                return f"{text.diagnoses()}, {client.shown}"
    return None


# ---- editors

VSCODE = os.path.join(EDITORS, "vscode")
# How colours are called, in VS Code's grammar and in Vim's; of a name without brackets a grammar doesn't know whether it is a symbol's.
SCOPES = {reader.TYPE: ["entity.name.type.inet"], reader.SYMBOL: ["entity.name.function.inet"], reader.VARIABLE: ["variable.other.inet"]}
GROUPS = {reader.TYPE: ["inetType", "inetDeclaredType"], reader.SYMBOL: ["inetSymbol"], reader.VARIABLE: ["inetVariable"]}
MENDED_IN_NEOVIM = ("misspelt_symbol", "sum_before_its_copies")
# Stands in for what VS Code hands to its extensions, and prints how the server is started.
STAND_IN = """
const Module = require("module"), load = Module._load;
class LanguageClient {
  constructor(id, name, server, client) { console.log(JSON.stringify([server, client])); }
  start() { return Promise.resolve(); }
  stop() { return Promise.resolve(); }
}
Module._load = (name, ...more) => name === "vscode-languageclient/node" ? { LanguageClient } : load(name, ...more);
const extension = require(process.argv[1]);
extension.activate().then(extension.deactivate);
"""


def colours(text):
    """Which colour each name of a text has: that of a type or of a symbol where it is declared or its sign or bracket follows, else of a variable."""
    follows = {reader.TYPE: re.compile(r"\s*[+-]"), reader.SYMBOL: re.compile(r"\s*[(\[]")}
    for name in reader.Reading(text).names:
        is_known = name.kind in follows and (name.declared or follows[name.kind].match(text, name.token.end))
        yield name.token, name.kind if is_known else reader.VARIABLE


def scopes(grammar, text):
    """The scope of each place of a text, by a grammar of VS Code that has matches, and rules with a beginning and an end, within which are matches."""
    found, offset, patterns, end = {}, 0, grammar["patterns"], None
    for line in text.splitlines(keepends=True):
        place = 0
        while True:
            rules = [{"match": end, "is_end": True}] * bool(end) + patterns
            hits = [(hit.start(), number) for number, rule in enumerate(rules) if (hit := re.compile(rule.get("match") or rule["begin"]).search(line, place))]
            if not hits:
                break
            start, number = min(hits)
            rule = rules[number]
            hit = re.compile(rule.get("match") or rule["begin"]).match(line, start)
            captures = {**rule.get("captures", {}), **rule.get("beginCaptures", {}), **({"0": {"name": rule["name"]}} if "name" in rule else {})}
            for group, capture in captures.items():
                for at in range(*hit.span(int(group))):
                    found[offset + at] = capture["name"]
            if "begin" in rule:
                patterns, end = rule["patterns"], rule["end"]
            elif "is_end" in rule:
                patterns, end = grammar["patterns"], None
            place = hit.end()
        offset += len(line)
    return found


def wrong_grammar(names):
    """What is wrong with the colours that VS Code's grammar gives to the names, words and comments of examples."""
    with open(os.path.join(VSCODE, "inet.tmLanguage.json"), encoding="utf-8") as file:
        grammar = json.load(file)
    for name in names:
        text = text_of(name).decode(errors="replace")
        found = scopes(grammar, text)
        wanted = [(token, SCOPES[kind]) for token, kind in colours(text)]
        wanted += [(token, ["keyword.declaration.inet"]) for token in reader.tokens(text) if token.kind == reader.RESERVED]
        wanted += [(token, ["comment.line.number-sign.inet"]) for token in reader.tokens(text) if token.kind == reader.COMMENT]
        for token, allowed in wanted:
            if found.get(token.start) not in allowed:
                return f"{name}: {token} is a {found.get(token.start)}"
    return None


def wrong_extension(room):
    """What is wrong with VS Code's extension: the files that it names are there, and it starts the server, from a link too."""
    with open(os.path.join(VSCODE, "package.json"), encoding="utf-8") as file:
        package = json.load(file)
    paths = [package["main"], *(one["configuration"] for one in package["contributes"]["languages"]), *(one["path"] for one in package["contributes"]["grammars"])]
    lacking = [path for path in paths if not os.path.exists(os.path.join(VSCODE, path))]
    if lacking or not shutil.which("node"):
        return f"no {lacking}" if lacking else None
    link = os.path.join(room, "inet of VS Code")
    os.symlink(VSCODE, link)
    ran = subprocess.run(["node", "-e", STAND_IN, link], capture_output=True, timeout=WAIT, check=False)
    server, client = json.loads(ran.stdout)
    wanted = [{"command": "python3", "args": [os.path.realpath(SERVER)]}, {"documentSelector": [{"language": package["contributes"]["languages"][0]["id"]}]}]
    return None if [server, client] == wanted and not ran.returncode and not ran.stderr else f"{server}, {client}, {ran.stderr!r}"


def wrong_neovim(program, shared, name):
    """What is wrong in headless Neovim: a diagnosis appears, a change mends it, names are known, and what is typed is checked again."""
    room = os.path.join(program.room, f"Neovim {name}")
    os.mkdir(room)
    file, text = os.path.join(room, f"{name}.inet"), text_of(name)
    with open(file, "wb") as opened:
        opened.write(text)
    homes = {key: room for key in ("HOME", "XDG_CONFIG_HOME", "XDG_DATA_HOME", "XDG_STATE_HOME", "XDG_CACHE_HOME")}
    words = ["--headless", "-n", "-u", "NONE", "-i", "NONE", "--cmd", f"set runtimepath^={os.path.join(EDITORS, 'vim')}", "--cmd", "filetype plugin on | syntax on"]
    command = ["nvim", *words, file, "-c", f"luafile {os.path.join(HERE, 'editors.lua')}"]
    ran = subprocess.run(command, stdin=subprocess.DEVNULL, capture_output=True, env={**os.environ, **homes, "INET_LIBRARY": shared}, timeout=10 * WAIT, check=False)
    try:
        seen = json.loads(ran.stdout)
    except ValueError:
        return f"status {ran.returncode}, {ran.stdout!r}, {ran.stderr!r}"
    line, column = re.match(rb"refused E\d\d at (\d+):(\d+)", program.run(["check"], text).output).groups()
    lacking = [key for key in ("diagnosed", "mended", "renamed", "typed", "typed_again") if seen[key] is not True]
    if lacking or seen["filetype"] != "inet" or seen["place"] != [int(line), int(column)] or "symbol Add : nat- {nat-} {nat+};" not in seen["hover"] or not seen["completions"]:
        return f"lacking {lacking}: {seen}"
    for token, kind in colours(text.decode()):
        place = position(text.decode(), token.start)
        group = seen["colours"][place["line"]][place["character"]]
        if group not in GROUPS[kind]:
            return f"{token} is a {group}"
    answer = program.run(["check"], seen["text"].encode())
    return None if answer.status == ACCEPTED else f"not mended: {answer}"


def editors(program):
    made = Library(os.path.join(program.room, "library of editors"))
    shared = made.path("lib", "libinet.so.0")
    names = sorted(file.removesuffix(".inet") for file in os.listdir(EXAMPLES) if file.endswith(".inet"))
    for begin in range(0, len(names), AT_ONCE):
        some = names[begin:begin + AT_ONCE]
        yield f"examples {some[0]} to {some[-1]}", partial(wrong_examples, program, shared, some)
    exporter = Program(BUILT, os.path.dirname(made.destination))
    chance = random.Random(84)
    for name in names:
        yield f"{name}: read", partial(wrong_reading, exporter, text_of(name).decode(errors="replace"))
    for number, text in enumerate([*NAMED_WITH, *(small(chance) for _ in range(GENERATED))]):
        yield f"program {number}: read", partial(wrong_reading, exporter, text, True)
    for seed in range(8):
        yield f"texts by chance: {seed}", partial(wrong_by_chance, seed)
        yield f"places: {seed}", partial(wrong_places, seed)
    for name, seed in itertools.product(SCRAMBLED, (5, 7)):
        yield f"{name}: braces at random: {seed}", partial(wrong_braces, program, shared, name, seed)
    yield "answers", partial(wrong_answers, shared)
    yield "a simple client", partial(wrong_for_simple_client, shared)
    yield "an able client", partial(wrong_for_able_client, shared)
    for what, (data, errors) in ODD.items():
        yield f"odd message: {what}", partial(wrong_after, shared, data, errors)
    yield "odd places", partial(wrong_at_odd_places, shared)
    for what, text in odd_texts():
        yield f"odd text: {what}", partial(wrong_text, program, shared, text)
    for what in ("before the beginning", "unasked", "without a word", "within a message", "as asked"):
        yield f"ends: {what}", partial(wrong_end, shared, what)
    yield "ends: nobody reads", partial(wrong_without_reader, shared)
    yield "help", partial(wrong_words, ["--help"], ENDED)
    yield "wrong words", partial(wrong_words, ["now"], WRONG_WORDS)
    yield "no library", partial(wrong_without_library, os.path.join(program.room, "no library"))
    yield "the library is made", partial(wrong_first_library, os.path.join(program.room, "a clone"))
    yield "VS Code: grammar", partial(wrong_grammar, names)
    yield "VS Code: extension", partial(wrong_extension, program.room)
    if shutil.which("nvim"):
        for name in MENDED_IN_NEOVIM:
            yield f"Neovim: {name}", partial(wrong_neovim, program, shared, name)
