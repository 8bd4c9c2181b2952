"""What the tools of this folder do with their streams, and how they end.

A text comes on standard input, what was asked for goes to standard output, and words for people go to standard error. A tool ends with the
statuses of `inet` (docs/use/OUTPUT.md): 1 where it refuses what it read, 2 for wrong words, 3 at a limit, 5 without memory, 6 where a stream
fails, 130 where the user ends it.
"""
import argparse
import errno
import os
import sys

REFUSED, WRONG_WORDS, LIMIT, MEMORY, STREAM, STOPPED = 1, 2, 3, 5, 6, 130
INPUT, OUTPUT, ERRORS = range(3)
# A term is written and read by calls within calls, a few for each depth: so many are allowed.
MOST_CALLS = 20_000


class Refused(Exception):
    """The tool can't take what it read; the text says why."""


class StreamFailed(Exception):
    """A read or a write failed; the text says which and why."""


def decoded(data):
    """The text of these bytes. Where they aren't UTF-8, that is refused, with the line and the column."""
    try:
        return data.decode()
    except UnicodeDecodeError as error:
        before = data[: error.start].decode()
        line, column = before.count("\n") + 1, len(before) - before.rfind("\n")
        raise Refused(f"{line}:{column}: this is no UTF-8") from None


def read_bytes():
    """All that standard input gives."""
    try:
        if sys.stdin is None:
            raise OSError(errno.EBADF, os.strerror(errno.EBADF))
        return sys.stdin.buffer.read()
    except OSError as error:
        raise StreamFailed(f"standard input can't be read: {error.strerror}") from None


def read_text():
    """The text on standard input."""
    return decoded(read_bytes())


def read_file(path):
    """The text of a file."""
    try:
        with open(path, "rb") as file:
            data = file.read()
    except (OSError, ValueError) as error:
        raise StreamFailed(f"{path} can't be read: {getattr(error, 'strerror', None) or error}") from None
    return decoded(data)


def natural(word):
    """A number of a tool's words: 0 or more."""
    if not (word.isascii() and word.isdigit()):
        raise argparse.ArgumentTypeError(f"no number from 0 on: {word!r}")
    return int(word)


def write(text):
    """Writes the whole text on standard output."""
    data = text.encode(errors="backslashreplace")
    try:
        if sys.stdout is None:
            raise OSError(errno.EBADF, os.strerror(errno.EBADF))
        while data:
            data = data[os.write(OUTPUT, data):]
    except OSError as error:
        raise StreamFailed(f"standard output can't be written: {error.strerror}") from None


def tell(text):
    """Says a line to people, as far as standard error takes it."""
    if sys.stderr is not None:
        try:
            os.write(ERRORS, f"{text}\n".encode(errors="backslashreplace"))
        except OSError:
            pass


def status_of(main):
    """The status with which a tool ends; why it does is told."""
    try:
        status = main() or 0
        if sys.stdout is not None:
            sys.stdout.flush()
        return status
    except Refused as why:
        tell(why)
        return REFUSED
    except StreamFailed as why:
        tell(f"error: {why}")
        return STREAM
    except OSError as why:
        # What argparse wrote, its help, is written when standard output is flushed.
        tell(f"error: standard output can't be written: {why.strerror}")
        return STREAM
    except (MemoryError, RecursionError):
        tell("memory")
        return MEMORY
    except KeyboardInterrupt:
        return STOPPED


def run(main):
    """Calls the main of a tool, and ends the program with its status."""
    sys.setrecursionlimit(MOST_CALLS)
    if sys.stderr is None:
        sys.stderr = open(os.devnull, "w", encoding="utf-8")

    def help_too():
        try:
            return main()
        except SystemExit as end:
            return end.code

    status = status_of(help_too)
    # Nothing is left to be written: what a failed stream has kept would be told at the end.
    os._exit(status)
