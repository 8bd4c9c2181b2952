"""The declarations of symbols in a text of `inet`, as far as they can be read one by one: what braces.py and copies.py share.

The text itself is judged by `inet` alone. Comments are left out, and each declaration keeps its place in the text.
"""
import re
from dataclasses import dataclass

COMMENT = re.compile(r"#[^\n]*")
PORT = re.compile(r"(\w+)\s*([+-])")
CLASS = re.compile(r"\{([^{}]*)\}")
DECLARATION = re.compile(r"\bsymbol\s+(\w+)\s*:\s*(\w+)\s*([+-])((?:\s*\{[^{};]*\})*)\s*;")
TYPES = re.compile(r"\btype\s+((?:\w+\s*,\s*)*\w+)\s*;")


@dataclass(frozen=True)
class Declaration:
    """A symbol: its principal port's type and sign, its auxiliary ports in their pairs of braces, and where these stand in the text."""

    name: str
    type: str
    sign: str
    classes: tuple
    place: tuple

    @property
    def ports(self):
        return [port for ports in self.classes for port in ports]

    @property
    def is_constructor(self):
        return self.sign == "+"

    @property
    def text(self):
        """The declaration as it is written."""
        return f"symbol {self.name} : {self.type}{self.sign}{''.join(' ' + braces(ports) for ports in self.classes)};"


def braces(ports):
    return "{" + ", ".join(kind + sign for kind, sign in ports) + "}"


def without_comments(text):
    """The text with blanks in place of its comments, so that all places stay."""
    return COMMENT.sub(lambda comment: " " * len(comment[0]), text)


def declarations(text):
    """The declarations of a text, in their order."""
    return [
        Declaration(found[1], found[2], found[3], tuple(tuple(PORT.findall(ports)) for ports in CLASS.findall(found[4])), found.span(4))
        for found in DECLARATION.finditer(without_comments(text))
    ]


def types(text):
    """The types that a text declares."""
    return {name for found in TYPES.findall(without_comments(text)) for name in re.findall(r"\w+", found)}
