#!/usr/bin/env python3
"""The checker and the runner `inet` for Python, over the shared object libinet.so (docs/use/LIBRARY.md). Not proved.

Usage: inet.py [--large] check|derive|diagnose|export|run [LIMIT [CELLS]]     with a program's text on standard input, as `inet` has it

From Python:

    inet = Inet()
    status, lines = inet.check("net () { }")
    if status == REFUSED:
        print(inet.diagnose(text).text)

A text is a str, or bytes, a bytearray or a memoryview; with large=True it has the large limits, as by the option --large of `inet`. A call
answers the program's status and the bytes that it writes, and lets other threads run meanwhile; a text that is refused and memory that runs
out are statuses, not exceptions. What is wrong with a call itself is an InetError. As a program it ends with the statuses of `inet`: 2 for
wrong words, 6 where a stream fails, and 70 for its own failures.
"""
import ctypes
import json
import os
import sys
from typing import NamedTuple, Optional

OK, REFUSED, WRONG_NUMBERS, LIMIT, FULL, MEMORY = range(6)
# Statuses of the program alone.
STREAM, OWN_FAILURE = 6, 70
# The version of the header that this file is written for.
VERSION = 1000
TOP = os.path.normpath(os.path.join(os.path.dirname(os.path.abspath(__file__)), "..", ".."))
# Most answers are shorter than this many bytes; a longer one is asked for again.
ROOM = 4096


class InetError(Exception):
    """What is wrong with a call, or with the library."""


class LibraryError(InetError):
    """There is no shared object, or it isn't libinet of this version."""


class TextError(InetError, TypeError):
    """A text is no str, bytes, bytearray or memoryview."""


class StepsError(InetError, ValueError):
    """Steps are none of the form that the export has."""


class Answer(NamedTuple):
    """A status, and the bytes that the program writes."""

    status: int
    bytes: bytes

    @property
    def text(self):
        """The bytes as a str; what is no UTF-8 in a text is U+FFFD here."""
        return self.bytes.decode(errors="replace")


class Refusal(NamedTuple):
    """Why a text is refused, as numbers: see `struct inet_fault` in inet.h."""

    code: int
    line: int
    column: int
    start: int
    end: int
    other_start: int
    other_end: int


class State(NamedTuple):
    """Where a run stands: how many of the choices were done, how many interactions came after them, how many pairs and agents there are."""

    chosen: int
    further: int
    pairs: int
    agents: int


class _Fault(ctypes.Structure):
    _fields_ = [(name, ctypes.c_uint32) for name in ("code", "line", "column")]
    _fields_ += [(name, ctypes.c_size_t) for name in ("start", "end", "other_start", "other_end")]


class _State(ctypes.Structure):
    _fields_ = [("chosen", ctypes.c_uint64), ("further", ctypes.c_uint64), ("pairs", ctypes.c_uint32), ("agents", ctypes.c_uint32)]


class _Step(ctypes.Structure):
    _fields_ = [(name, ctypes.c_uint32) for name in ("kind", "first", "second", "third")]


_KINDS = {"empty": 0, "link": 1, "given": 2, "graft": 3, "cut": 4, "mix": 5}
_NUMBERS_OF = {"empty": 0, "link": 1, "given": 1, "graft": 2, "cut": 3, "mix": 2}


def _shared_object():
    """Where the shared object is: as INET_LIBRARY says, as `bindings/library make` puts it, or as the system finds it."""
    made = os.path.join(TOP, "out", "inet", "lib", "libinet.so.0")
    return os.environ.get("INET_LIBRARY") or (made if os.path.exists(made) else "libinet.so.0")


def _bytes_of(text):
    if isinstance(text, str):
        return text.encode("utf-8", "surrogatepass")
    if isinstance(text, (bytes, bytearray, memoryview)):
        return bytes(text)
    raise TextError(f"a text is a str, bytes, a bytearray or a memoryview, and no {type(text).__name__}")


def _numbers_of(step, parts):
    """A step of the export's form as numbers; those of its classes go to `parts`."""
    try:
        word, *rest = step
        if len(rest) != _NUMBERS_OF[word]:
            raise ValueError
        if word == "graft":
            rest[1:] = [len(parts), len(rest[1])]
            parts.extend(step[2])
        if not all(isinstance(number, int) and 0 <= number < 2**32 for number in rest + parts[len(parts) - (rest[2] if word == "graft" else 0):]):
            raise ValueError
        return _Step(_KINDS[word], *rest)
    except (TypeError, ValueError, KeyError) as error:
        raise StepsError(f"no step: {step!r}") from error


class Inet:
    """The calls of the library, which keeps nothing between them."""

    def __init__(self, path=None):
        path = path or _shared_object()
        try:
            library = ctypes.CDLL(path)
            library.inet_version.restype = ctypes.c_uint32
            self.version = library.inet_version()
            if self.version // 1_000_000 == VERSION // 1_000_000:
                self._add_calls(library)
        except (OSError, AttributeError) as error:
            raise LibraryError(f"{path} is no libinet: {error}; bindings/library make puts it into out/inet, and INET_LIBRARY names another one") from error
        if self.version // 1_000_000 != VERSION // 1_000_000:
            raise LibraryError(f"{path} has version {self.version}, and this module is for {VERSION}")

    def _add_calls(self, library):
        size = ctypes.c_size_t
        answer = [ctypes.c_char_p, size, ctypes.POINTER(size)]
        numbers = {"run": [ctypes.c_uint64, ctypes.c_uint32]}
        for name in ("check", "derive", "diagnose", "diagnose_data", "export", "run"):
            self._add(library, name, *numbers.get(name, []), *answer)
        self._add(library, "refusal", ctypes.POINTER(_Fault))
        self._add(library, "run_by", ctypes.POINTER(ctypes.c_uint32), size, ctypes.c_uint64, ctypes.c_uint32, ctypes.POINTER(_State), *answer)
        self._add(library, "verify", ctypes.c_uint32, ctypes.POINTER(_Step), size, ctypes.POINTER(ctypes.c_uint32), size)

    def _add(self, library, name, *rest):
        """Keeps the two calls of this name, for texts with the usual limits and with the large ones."""
        calls = [getattr(library, f"inet_{name}{end}") for end in ("", "_large")]
        for call in calls:
            call.argtypes, call.restype = [ctypes.c_char_p, ctypes.c_size_t, *rest], ctypes.c_uint8
        setattr(self, f"_{name}", calls)

    def check(self, text, *, large=False):
        """One line: what the program has, or why it is refused."""
        return self._answer(self._check[large], text)

    def derive(self, text, *, large=False):
        """The steps that build the rules and the net, or the line of the refusal."""
        return self._answer(self._derive[large], text)

    def diagnose(self, text, *, large=False):
        """What is wrong with a text that is refused, in lines for people; nothing where it is accepted."""
        return self._answer(self._diagnose[large], text)

    def diagnose_data(self, text, *, large=False):
        """The same as a value of `json`, None where there is none; and the status."""
        status, line = self._answer(self._diagnose_data[large], text)
        return status, json.loads(line) if line else None

    def export(self, text, *, large=False):
        """The accepted program as one line of JSON, or the line of the refusal."""
        return self._answer(self._export[large], text)

    def run(self, text, limit=1_000_000, cells=65_536, *, large=False):
        """The net that a run of one worker comes to, how many interactions there were and why it stopped, or the line of the refusal."""
        # ctypes would cut a number that is out of its range.
        if not (0 <= limit < 2**64 and 0 <= cells < 2**32):
            return Answer(WRONG_NUMBERS, b"")
        return self._answer(self._run[large], text, limit, cells)

    def run_by(self, text, choices, limit=0, cells=65_536, *, large=False) -> tuple[Answer, State]:
        """The net after the interactions of the pairs of these numbers, each in the queue that the one before it left, and of at most `limit`
        more; and where the run stands."""
        state = _State()
        if not (0 <= limit < 2**64 and 0 <= cells < 2**32 and all(0 <= choice < 2**32 for choice in choices)):
            return Answer(WRONG_NUMBERS, b""), State(0, 0, 0, 0)
        # A pointer to no elements is one too.
        given = (ctypes.c_uint32 * (len(choices) + 1))(*choices)
        answer = self._answer(self._run_by[large], text, given, len(choices), limit, cells, state)
        return answer, State(*(getattr(state, name) for name, _ in _State._fields_))

    def refusal(self, text, *, large=False) -> tuple[int, Optional[Refusal]]:
        """The status of a text, and why it is refused, None where it isn't."""
        text, fault = _bytes_of(text), _Fault()
        status = self._refusal[large](text, len(text), fault)
        return status, Refusal(*(getattr(fault, name) for name, _ in _Fault._fields_)) if status == REFUSED else None

    def verify(self, text, number, steps, *, large=False):
        """The status of these steps, in the form of the export, for the rule of that number; the net has the number after the last rule's."""
        text, parts = _bytes_of(text), []
        given = [_numbers_of(step, parts) for step in steps]
        if not 0 <= number < 2**32:
            return WRONG_NUMBERS
        # A pointer to no elements is one too.
        steps, numbers = (_Step * (len(given) + 1))(*given), (ctypes.c_uint32 * (len(parts) + 1))(*parts)
        return self._verify[large](text, len(text), number, steps, len(given), numbers, len(parts))

    @staticmethod
    def _answer(call, text, *numbers):
        text, length = _bytes_of(text), ctypes.c_size_t()
        room = ctypes.create_string_buffer(ROOM)
        status = call(text, len(text), *numbers, room, len(room), length)
        if length.value > len(room):
            room = ctypes.create_string_buffer(length.value)
            status = call(text, len(text), *numbers, room, len(room), length)
        return Answer(status, room.raw[: length.value])


def _asked(words):
    """Whether the text has the large limits, the command and its numbers; None where the words are wrong."""
    large = words[:1] == ["--large"]
    command, *numbers = words[large:] or [""]
    if command not in ("check", "derive", "diagnose", "export", "run") or len(numbers) > (2 if command == "run" else 0):
        return None
    if not all(number.isascii() and number.isdigit() for number in numbers):
        return None
    return large, command, [int(number) for number in numbers]


def _write(stream, data):
    """Writes all of it; says whether it could."""
    try:
        stream.write(data)
        stream.flush()
        return True
    except OSError:
        return False


def main(words):
    asked = _asked(words)
    if not asked:
        sys.stderr.write(__doc__.split("\n\n")[1] + "\n")
        return WRONG_NUMBERS
    large, command, numbers = asked
    try:
        inet = Inet()
    except LibraryError as error:
        sys.stderr.write(f"inet.py: {error}\n")
        return OWN_FAILURE
    try:
        text = sys.stdin.buffer.read()
    except OSError:
        return STREAM
    status, lines = getattr(inet, command)(text, *numbers, large=large)
    # A diagnosis is for people, and a refused text has one: that it can't be written changes nothing.
    if not _write(sys.stdout.buffer, lines):
        os.dup2(os.open(os.devnull, os.O_WRONLY), 1)
        return STREAM
    if status == REFUSED and command != "diagnose":
        _write(sys.stderr.buffer, inet.diagnose(text, large=large).bytes)
    return status


if __name__ == "__main__":
    try:
        sys.exit(main(sys.argv[1:]))
    except Exception as error:
        sys.stderr.write(f"inet.py: {error!r}\n")
        sys.exit(OWN_FAILURE)
