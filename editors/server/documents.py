"""The text of an open document, and places in it as the protocol counts them: lines from 0, and in a line units of UTF-16. Not proved."""
import re
from bisect import bisect_left, bisect_right
from functools import cached_property

from reader import Reading

ENDS_OF_LINES = re.compile(r"\r\n|\r|\n")
# Characters that take two units.
LONG = re.compile("[\U00010000-\U0010ffff]")


def changed(text, found):
    """The text with these changes, which come in its order."""
    parts, done = [], 0
    for begin, end, words in found:
        parts += [text[done:begin], words]
        done = end
    return "".join([*parts, text[done:]])


class Document:
    """A text, which doesn't change: a change makes another one."""

    def __init__(self, uri, version, text):
        self.uri, self.version, self.text = uri, version, text

    @cached_property
    def reading(self):
        return Reading(self.text)

    @cached_property
    def _lines(self):
        """Where each line begins, and where it ends."""
        ends = [found.span() for found in ENDS_OF_LINES.finditer(self.text)]
        return [0, *(after for _, after in ends)], [*(before for before, _ in ends), len(self.text)]

    @cached_property
    def _long(self):
        return [found.start() for found in LONG.finditer(self.text)]

    @cached_property
    def bytes(self):
        """The text in UTF-8. Half of a pair, which JSON may hold and UTF-8 can't, has three bytes that the checker refuses."""
        return self.text.encode("utf-8", "surrogatepass")

    def characters(self, count):
        """How many characters so many bytes are."""
        return len(self.bytes[:count].decode("utf-8", "surrogatepass"))

    def _units(self, begin, end):
        return end - begin + bisect_left(self._long, end) - bisect_left(self._long, begin)

    def position(self, offset):
        """The place of a character, the protocol's way."""
        begins, _ = self._lines
        line = bisect_right(begins, offset) - 1
        return {"line": line, "character": self._units(begins[line], offset)}

    def offset(self, position):
        """The character at a place; what is behind the end of a line, or of the text, is its end."""
        begins, ends = self._lines
        line, units = int(position["line"]), int(position["character"])
        if line < 0 or units < 0:
            raise ValueError("a negative place")
        if line >= len(begins):
            return len(self.text)
        begin = begins[line]
        return begin + bisect_right(range(begin, ends[line] + 1), units, key=lambda offset: self._units(begin, offset)) - 1

    def range(self, begin, end):
        return {"start": self.position(begin), "end": self.position(end)}

    def range_of(self, token):
        return self.range(token.start, token.end)

    def offsets(self, range_):
        """The characters of a range, in their order."""
        return sorted((self.offset(range_["start"]), self.offset(range_["end"])))

    def changed(self, change):
        """The document after a change of the protocol: of a part of the text, or of all of it."""
        begin, end = self.offsets(change["range"]) if change.get("range") else (0, len(self.text))
        if not isinstance(change["text"], str):
            raise TypeError("a text is no string")
        return Document(self.uri, self.version, changed(self.text, [(begin, end, change["text"])]))

    def edits(self, changes):
        """Changes of the text in the protocol's form."""
        return [{"range": self.range(begin, end), "newText": words} for begin, end, words in changes]
