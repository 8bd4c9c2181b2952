"""What an editor asks of a place in a text: what stands there, where it is declared, its other name, what may be written. Not proved."""
from bisect import bisect_right

import reader
from reader import FREE, NAME, RESERVED_WORDS, SYMBOL, TYPE, VARIABLE, Equations

# Kinds of completions, as the protocol numbers them.
IS_VARIABLE, IS_CLASS, IS_KEYWORD, IS_CONSTRUCTOR = 6, 7, 14, 4
# A rule that is shown has so many characters at most.
MOST_SHOWN = 2_000


class Refused(Exception):
    """What is asked can't be done; the text says why."""


def name_at(reading, offset):
    """The name at a place, also where that is just behind it."""
    number = bisect_right(reading.names, offset, key=lambda name: name.token.start) - 1
    name = reading.names[number] if number >= 0 else None
    return name if name and offset <= name.token.end else None


def token_at(reading, offset):
    number = bisect_right(reading.tokens, offset, key=lambda token: token.start) - 1
    token = reading.tokens[number] if number >= 0 else None
    return token if token and offset < token.end else None


def item_at(reading, offset):
    """The item that a place is in."""
    number = bisect_right(reading.items, offset, key=lambda item: item.start) - 1
    item = reading.items[number] if number >= 0 else None
    return item if item and offset < item.end else None


# ---- what stands there


def code(text):
    return f"```inet\n{text}\n```"


def line_of(reading, offset):
    return reading.text.count("\n", 0, offset) + 1


def listed(names):
    return ", ".join(f"`{name}`" for name in names)


def direction(port):
    """What a port does, from outside."""
    return f"gives a `{port.type.text}`" if port.sign == "+" else f"takes a `{port.type.text}`"


def opposites(reading, symbol):
    """The symbols that one can meet: their principal ports have its type and the other sign."""
    if not symbol.principal:
        return []
    wanted = (symbol.principal.type.text, {"+": "-", "-": "+"}.get(symbol.principal.sign))
    return [other for other in reading.symbols.values() if other.principal and (other.principal.type.text, other.principal.sign) == wanted]


def rule_of(reading, one, other):
    """The rule of two symbols, None where there is none."""
    return reading.rules.get(frozenset((one, other)))


def about_symbol(reading, text):
    """A symbol's declaration, its ports, and its rules."""
    symbol = reading.symbols.get(text)
    if not symbol:
        return [f"no symbol `{text}` is declared"]
    said = [code(str(symbol))]
    if symbol.principal:
        kind = {"+": "constructor", "-": "destructor"}.get(symbol.principal.sign, "symbol without a sign")
        said.append(f"a {kind}: its principal port {direction(symbol.principal)}")
    said.append("\n".join(f"- auxiliary port {number} {direction(port)}" for number, port in enumerate(symbol.auxiliary, 1)))
    names = [other.name.text for other in opposites(reading, symbol)]
    with_rules = [f"`{name}` (line {line_of(reading, rule.start)})" for name in names if (rule := rule_of(reading, text, name))]
    without = [name for name in names if not rule_of(reading, text, name)]
    said.append(f"rules with {', '.join(with_rules)}" if with_rules else "")
    said.append(f"no rule with {listed(without)}" if without else "")
    return said


def about_type(reading, text):
    """The symbols whose principal port is of a type."""
    if not any(name.declared for name in reading.by_key[(TYPE, text, None)]):
        return [f"no type `{text}` is declared"]
    of = {sign: [symbol.name.text for symbol in reading.symbols.values() if symbol.principal and (symbol.principal.type.text, symbol.principal.sign) == (text, sign)] for sign in "+-"}
    return [code(f"type {text};"), f"constructors: {listed(of['+']) or 'none'}", f"destructors: {listed(of['-']) or 'none'}"]


def about_point(reading, point):
    """A point of a wire: a port of an agent or of a head, or a free end, with its type where that is declared."""
    what, number = point
    if number is None:
        return f"the free end `{what.text}`"
    symbol = reading.symbols.get(what.name.text)
    port = symbol.ports[number] if symbol and number < len(symbol.ports) else None
    which = f"auxiliary port {number}" if number else "the principal port"
    return f"{which} of {'the head ' if what.is_head else ''}`{what.name.text}`{f', `{port}`' if port else ''} (line {line_of(reading, what.name.start)})"


def about_wire(reading, wire, called):
    return [f"{called} joins", "\n".join(f"- {about_point(reading, point)}" for point in wire.points)]


def about_pair(reading, wire):
    """The rule of an active pair, as it is written."""
    names = [term.name.text for term, _ in wire.points]
    rule = rule_of(reading, *names)
    if not rule:
        return [f"an active pair of {listed(names)}, which have no rule"]
    return [f"an active pair; its rule is in line {line_of(reading, rule.start)}", code(reading.text[rule.start:rule.end][:MOST_SHOWN])]


def wire_of(reading, item, belongs):
    return next((wire for wire in reading.wires(item) if belongs(wire)), None)


def pair_at(reading, item, name):
    """The wire of the active pair in which an agent of this name is."""
    return wire_of(reading, item, lambda wire: wire.is_pair and any(term.name == name.token for term, _ in wire.points))


def about(reading, offset):
    """What is said of a place, and the token it is said of; None where nothing is."""
    name, token = name_at(reading, offset), token_at(reading, offset)
    if name and name.kind == TYPE:
        return about_type(reading, name.token.text), name.token
    if name and name.kind == SYMBOL:
        pair = pair_at(reading, name.item, name)
        return [*about_symbol(reading, name.token.text), *(about_pair(reading, pair) if pair else [])], name.token
    if name:
        free = name.item.free_names.get(name.token.text) if name.kind == FREE else None
        wire = wire_of(reading, name.item, lambda wire: (free, None) in wire.points if free else name.token.text in wire.variables)
        port = next((port for token, port in name.item.free if token == free), None)
        declared = [code(f"{name.token.text} : {port}")] if port else []
        return [*declared, *(about_wire(reading, wire, f"the wire at `{name.token.text}`") if wire else [])], name.token
    item = item_at(reading, offset)
    if item and token and token.text == "~":
        wire = wire_of(reading, item, lambda wire: token.start in wire.places)
        return (about_pair(reading, wire) if wire.is_pair else about_wire(reading, wire, "this equation")) if wire else [], token
    if item and item.heads and token and token in (item.word, item.heads.sign):
        return [part for head in item.head_names for part in about_symbol(reading, head)[:2]], token
    return None


def plain(said):
    """The same without the marks for code blocks."""
    return [part.removeprefix("```inet\n").removesuffix("\n```") for part in said]


def hover(document, offset, marks):
    found = about(document.reading, offset)
    parts = [part for part in found[0] if part] if found else []
    if not parts:
        return None
    contents = {"kind": "markdown", "value": "\n\n".join(parts)} if marks else {"kind": "plaintext", "value": "\n".join(plain(parts))}
    return {"contents": contents, "range": document.range_of(found[1])}


# ---- where it is declared, and where it occurs


def location(document, token):
    return {"uri": document.uri, "range": document.range_of(token)}


def definition(document, offset):
    """Where a name is declared; of a variable its other end; of an active pair its rule."""
    reading, name = document.reading, name_at(document.reading, offset)
    if name and name.kind == VARIABLE:
        return [location(document, other.token) for other in reading.same(name) if other.token != name.token]
    if name:
        return [location(document, other.token) for other in reading.same(name) if other.declared]
    item, token = item_at(reading, offset), token_at(reading, offset)
    wire = wire_of(reading, item, lambda wire: wire.is_pair and token.start in wire.places) if item and token and token.text == "~" else None
    rule = rule_of(reading, *(term.name.text for term, _ in wire.points)) if wire else None
    return [location(document, rule.word)] if rule else []


def occurrences(document, offset, declared=True):
    name = name_at(document.reading, offset)
    return [other.token for other in document.reading.same(name) if declared or not other.declared] if name else []


# ---- its other name


def taken(reading, name, new):
    """Why a name can't have the new one; None where it can."""
    if name.kind == TYPE:
        return f"the type `{new}` is there already" if (TYPE, new, None) in reading.by_key else None
    if (SYMBOL, new, None) in reading.by_key:
        return f"the symbol `{new}` is there already"
    for key in reading.by_key:
        if key[1] == new and key[0] in (VARIABLE, FREE) and (name.kind == SYMBOL or key[2] == name.item.start):
            return f"the {'free end' if key[0] == FREE else 'variable'} `{new}` is there already"
    return None


def renamed(document, offset, new):
    """The changes that give the name at a place another one."""
    name = name_at(document.reading, offset)
    if not name:
        raise Refused("no name stands here")
    if not reader.is_name(new):
        raise Refused(f"`{new}` is a reserved word" if new in RESERVED_WORDS else f"`{new[:MOST_SHOWN]}` is no name")
    if new == name.token.text:
        return []
    why = taken(document.reading, name, new)
    if why:
        raise Refused(why)
    return [(other.token.start, other.token.end, new) for other in document.reading.same(name)]


# ---- what may be written


def before(reading, item, begin):
    """The tokens of an item before a place, its word among them."""
    return [token for token in reading.tokens if item.start <= token.start < begin and token.kind != reader.COMMENT]


def of_types(reading):
    return [{"label": text, "kind": IS_CLASS} for text in sorted({name.token.text for name in reading.names if name.kind == TYPE and name.declared})]


def of_words(*words):
    return [{"label": word, "kind": IS_KEYWORD} for word in words]


def of_symbol(symbol, brackets, snippets):
    """A symbol with its ports, to be filled in where the editor can do that."""
    ports = ", ".join(f"${{{number}:{port.type.text}{port.sign}}}" for number, port in enumerate(symbol.auxiliary, 1))
    found = {"label": symbol.name.text, "kind": IS_CONSTRUCTOR if symbol.principal and symbol.principal.sign == "+" else IS_CLASS, "detail": str(symbol)}
    if snippets and (ports or brackets == "[]"):
        found |= {"insertText": symbol.name.text + brackets[0] + ports + brackets[1], "insertTextFormat": 2}
    return found


def of_heads(reading, first, snippets):
    """The symbols that may be a head: behind another one those that it can meet, without a rule first."""
    symbol = reading.symbols.get(first)
    found = opposites(reading, symbol) if symbol else reading.symbols.values()
    return [{**of_symbol(other, "[]", snippets), "sortText": f"{int(bool(rule_of(reading, first, other.name.text)))}{other.name.text}"} for other in found]


def of_terms(reading, item, begin, end, snippets):
    """Symbols, and the variables and free ends of the item that lack an end: `begin` and `end` are those of the word that is being written."""
    lacking = []
    for (kind, text, start), names in reading.by_key.items():
        there = [name for name in names if not begin <= name.token.start <= end]
        if start == item.start and kind in (VARIABLE, FREE) and len(there) == 1:
            lacking.append({"label": text, "kind": IS_VARIABLE, "sortText": f"0{text}"})
    return lacking + [{**of_symbol(symbol, "()", snippets), "sortText": f"1{symbol.name.text}"} for symbol in reading.symbols.values()]


def offered(reading, begin, end, snippets):
    """What may stand at a place, where the word that is being written begins and ends."""
    number = bisect_right(reading.items, begin, key=lambda item: item.start) - 1
    item = reading.items[number] if number >= 0 and reading.items[number].start < begin else None
    found = before(reading, item, begin) if item else []
    if not item or found[-1].text in (";", "}") and begin >= item.end:
        return of_words(*RESERVED_WORDS)
    word, last = item.word.text, found[-1].text
    inside = any(token.text == "{" for token in found)
    if word == "symbol" or word == "net" and not inside:
        is_port = last == ":" or word == "symbol" and inside and last in ("{", ",")
        return of_types(reading) if is_port else []
    if word == "rule" and not inside:
        heads = Equations(("><",))
        for token in found[1:]:
            heads.take(token)
        if not heads.open:
            if heads.is_complete:
                return of_words("with")
            first = heads.current.sides[0].name.text if heads.current else ""
            return of_heads(reading, first, snippets) if not first or heads.current.sign else []
    return of_terms(reading, item, begin, end, snippets) if word in ("rule", "net") else []


def completions(document, offset, snippets):
    """What may be written at a place, each with the change that writes it."""
    reading = document.reading
    token = token_at(reading, max(0, offset - 1))
    if token and token.kind in (reader.COMMENT, reader.BAD):
        return []
    written = token if token and token.kind in (NAME, reader.RESERVED) else None
    begin, end = (written.start, written.end) if written else (offset, offset)
    found = offered(reading, begin, end, snippets)
    for item in found:
        item["textEdit"] = {"range": document.range(begin, offset), "newText": item.pop("insertText", item["label"])}
    return found
