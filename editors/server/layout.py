"""The layout of a text: blanks within its lines, and how far each line is moved in. Lines stay lines, and comments stay as they are. Not
proved."""
from documents import changed
from reader import BAD, COMMENT, NAME, RESERVED, tokens

OPENING, CLOSING = ("{", "(", "["), ("}", ")", "]")
# Behind these a line begins something new.
COMPLETE = (";", ",", *OPENING, "}")


def gap(before, after, blanks, in_ports):
    """The blanks between two tokens of a line, between which there are these."""
    if BAD in (before.kind, after.kind):
        return blanks
    if after.kind == COMMENT:
        return blanks or " "
    if after.text in (",", ";", ")", "]", "+", "-") or before.text in ("(", "["):
        return ""
    if after.text in ("(", "["):
        return "" if before.kind == NAME else " "
    if in_ports and (before.text == "{" or after.text == "}"):
        return ""
    return " "


def lines(text):
    """The tokens of each line that has some, with where the line begins."""
    found, begin = [], 0
    for token in tokens(text):
        line = text.rfind("\n", begin, token.start) + 1
        if line and found:
            yield begin, found
            found = []
        begin = line or begin
        found.append(token)
    if found:
        yield begin, found


def edits(text, step="    "):
    """What changes: from where up to where, and the text that comes in its place."""
    depth, in_ports, last = 0, False, None
    for begin, found in lines(text):
        first = found[0]
        if first.kind == RESERVED:
            depth, last = 0, None
        goes_on = last and first.kind != COMMENT and last.text not in COMPLETE and first.text not in CLOSING
        written = step * max(0, depth - (first.text in CLOSING) + bool(goes_on))
        for before, token in zip([None, *found], found):
            in_ports = token.text == "symbol" if token.kind == RESERVED else in_ports
            depth = 0 if token.kind == RESERVED else max(0, depth + (token.text in OPENING) - (token.text in CLOSING))
            written += (gap(before, token, text[before.end:token.start], in_ports) if before else "") + token.text
            last = token if token.kind != COMMENT else last
        if text[begin:found[-1].end] != written:
            yield begin, found[-1].end, written
        yield from trailing(text, found[-1])


def trailing(text, token):
    """The blanks behind the last token of a line; one before the line feed may belong to it."""
    end = text.find("\n", token.end)
    end = len(text) if end < 0 else end
    end -= text[token.end:end].endswith("\r")
    if end > token.end:
        yield token.end, end, ""


def formatted(text, step="    "):
    """The changes that give a text its layout; none where it would have other tokens with them."""
    found = list(edits(text, step))
    same = [token[:2] for token in tokens(text)] == [token[:2] for token in tokens(changed(text, found))]
    return found if same else []
