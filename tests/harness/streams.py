"""Standard streams that are closed, full, cut off, endless or of the wrong kind; and a terminal, at which a long run shows how far it is."""
import fcntl
import itertools
import os
import re
import select
import subprocess
import threading
import time
from functools import partial

from harness.programs import COMMANDS, LONGEST, MOST_BYTES, REFUSED, ROWS, STREAM, WRONG_WORDS, answering, differing, failing, text_of

# A file descriptor command of Linux: how many bytes a pipe holds.
SET_PIPE_SIZE = 1031
SMALL_PIPE = 4096
# A program that is accepted and one that is refused.
EXAMPLES = ("sum", "waits_for_itself")
TOO_LONG = b"refused E03 at 1:1\n"
TOO_SHORT = b"refused E02 at 1:1\n"
# The line that a long run shows each second, which takes back the one before, and how many interactions are done before it is looked whether
# a second is over.
SHOWN = re.compile(rb"\r\x1b\[Kinet: (\d+) interactions")
SHOWN_TURN = 1 << 20
COLOUR = re.compile(rb"\x1b\[[0-9;]*m")
# What is told who starts the program at a terminal without a file.
AT_TERMINAL = b"inet: reads the program from the terminal; end it with Ctrl-D on a line of its own\n"


def closed_pipe():
    """The writing end of a pipe that nobody reads any more."""
    reader, writer = os.pipe()
    os.close(reader)
    # A process that another trial starts has the reading end until its program begins.
    ended = select.poll()
    ended.register(writer, 0)
    ended.poll(10_000)
    return writer


def full_pipe():
    """Both ends of a pipe that is full, whose writer doesn't wait."""
    reader, writer = os.pipe()
    os.set_blocking(writer, False)
    try:
        while True:
            os.write(writer, bytes(SMALL_PIPE))
    except BlockingIOError:
        return reader, writer


def with_closed_pipe(program, words, text):
    writer = closed_pipe()
    try:
        return program.run(words, text, stdout=writer)
    finally:
        os.close(writer)


def with_full_pipe(program, words, text):
    reader, writer = full_pipe()
    try:
        return program.run(words, text, stdout=writer)
    finally:
        os.close(reader)
        os.close(writer)


def with_device(program, words, text):
    with open("/dev/full", "wb") as device:
        return program.run(words, text, stdout=device)


def with_closed_output(program, words, text):
    return program.run_in_shell('exec "$@" >&-', words, text)


def with_read_only_output(program, words, text):
    with open(os.devnull, "rb") as file:
        return program.run(words, text, stdout=file)


OUTPUTS = {
    "closed": with_closed_output,
    "a device that is full": with_device,
    "a full pipe that doesn't wait": with_full_pipe,
    "a file that is only read": with_read_only_output,
}


def wrong_without_reader(run):
    """What is wrong with an answer whose reader went away: status 6, and nothing on standard error, where a refused text has its diagnosis."""
    answer = run()
    told = b"standard output" in answer.errors or b"Broken pipe" in answer.errors
    return differing(answer, STREAM, b"") or (f"told: {answer.errors!r}" if told else None)


def outputs(program):
    """Standard output that takes nothing: status 6, and why on standard error, but where its reader went away; wrong words need no output."""
    for name, words in [*itertools.product(EXAMPLES, COMMANDS), ("sum", ["--help"])]:
        run = partial(with_closed_pipe, program, words, text_of(name))
        yield f"output a pipe without a reader: {name}: {' '.join(words)}", partial(wrong_without_reader, run)
    for kind, run in OUTPUTS.items():
        for name, words in itertools.product(EXAMPLES, COMMANDS):
            yield f"output {kind}: {name}: {' '.join(words)}", failing(partial(run, program, words, text_of(name)), "output")
        yield f"output {kind}: help", failing(partial(run, program, ["--help"], b""), "output")
        yield f"output {kind}: wrong words", answering(partial(run, program, ["walk"], b""), WRONG_WORDS, b"")


def read_a_beginning(program, words, text, size):
    """Runs the program into a small pipe, whose reader closes it after `size` bytes: the status, what was read, standard error."""
    reader, writer = os.pipe()
    fcntl.fcntl(writer, SET_PIPE_SIZE, SMALL_PIPE)
    got = []

    def read():
        got.append(os.read(reader, size))
        os.close(reader)

    thread = threading.Thread(target=read)
    thread.start()
    try:
        return program.run(words, text, stdout=writer), got
    finally:
        os.close(writer)
        thread.join()


def wrong_early_end(program, words, text, size, usual):
    """What is wrong where the reader closes the pipe after `size` bytes of an output that is much longer than the pipe."""
    answer, got = read_a_beginning(program, words, text, size)
    if len(usual.output) < 3 * SMALL_PIPE or not got[0] or not usual.output.startswith(got[0]):
        return f"read {got[0]!r} of {len(usual.output)} bytes"
    return differing(answer, STREAM, b"") or (f"told: {answer.errors!r}" if answer.errors else None)


def early_ends(program):
    """A reader that ends early, of an output that no pipe of its size holds."""
    text = text_of("net_with_the_most_agents", ROWS)
    for words in (["derive"], ["run", "--limit", "0"], ["run", "--limit", "0", "--workers", "64"]):
        usual = program.run(words, text)
        for size in (1, 100, 2000):
            yield f"{' '.join(words)}: the reader closes after {size} bytes", partial(
                wrong_early_end, program, words, text, size, usual
            )


def long_text():
    """The Ackermann function at three and eleven, by the rules of the example: some 268 million interactions, which take more than two seconds."""
    rules = text_of("ackermann").decode().rpartition("net (")[0]
    return f"{rules}net (all : nat+) {{ S(S(S(Z))) ~ Ack({'S(' * 11}Z{')' * 11}, all); }}\n".encode()


def shown_at_terminal(program, words, text):
    """Runs the program with a terminal for standard error until it has shown two lines there, and kills it: what the terminal got till then."""
    terminal, writer = os.openpty()
    got = b""
    with open(program.file_of(text), "rb") as file:
        process = subprocess.Popen([program.path, *words], stdin=file, stdout=subprocess.DEVNULL, stderr=writer)
    os.close(writer)
    try:
        ends = time.monotonic() + LONGEST
        while len(SHOWN.findall(got)) < 2 and select.select([terminal], [], [], max(0, ends - time.monotonic()))[0]:
            got += os.read(terminal, SMALL_PIPE)
    except OSError:
        # So a terminal tells that nobody writes to it any more.
        pass
    finally:
        process.kill()
        process.wait()
        os.close(terminal)
    return got


def wrong_progress(program):
    """What is wrong with what a long run shows at a terminal: how far it is, each line in the place of the one before, not before a second is over."""
    began = time.monotonic()
    got = shown_at_terminal(program, ["run", "--no-net", "--limit", "1000000000"], long_text())
    lasted = time.monotonic() - began
    shown = [int(number) for number in SHOWN.findall(got)]
    is_so_far = len(shown) == 2 and 0 < shown[0] < shown[1] and all(number % SHOWN_TURN == 0 for number in shown)
    lines = b"".join(b"\r\x1b[Kinet: %d interactions" % number for number in shown)
    return None if is_so_far and got == lines and lasted >= 2 else f"{got!r} in {lasted:.1f} seconds"


def told_at_terminal(program, words, text, environment, **streams):
    """What a terminal for standard error gets of a run, in the lines of a text."""
    terminal, writer = os.openpty()
    try:
        answer = program.run(words, text, environment, stderr=writer, **streams)
    finally:
        os.close(writer)
    got = b""
    try:
        while part := os.read(terminal, SMALL_PIPE):
            got += part
    except OSError:
        # So a terminal tells that nobody writes to it any more.
        pass
    finally:
        os.close(terminal)
    return answer, got.replace(b"\r\n", b"\n")


def wrong_colours(program, text, environment, has_colours):
    """What is wrong with the diagnosis at a terminal: in colours or not, its words are the usual ones."""
    usual = program.run(["check"], text)
    answer, told = told_at_terminal(program, ["check"], text, environment)
    plain = COLOUR.sub(b"", told)
    is_right = plain == usual.errors and (plain != told) == has_colours
    return differing(answer, usual.status, usual.output) or (None if is_right else f"told: {told!r}")


def wrong_from_terminal(program, text, tells):
    """What is wrong where the program's text comes from a terminal: it is said how it ends, and the rest is as usual. Where standard error is a
    terminal too (`tells`), the diagnosis after it is in colours."""
    usual = program.run(["check"], text)
    terminal, reader = os.openpty()
    try:
        # The end is told on a line of its own.
        os.write(terminal, text + b"\n\x04")
        if tells:
            answer, told = told_at_terminal(program, ["check"], b"", {"NO_COLOR": ""}, stdin=reader)
        else:
            answer = program.run(["check"], stdin=reader)
            told = answer.errors
    finally:
        os.close(reader)
        os.close(terminal)
    is_right = COLOUR.sub(b"", told) == AT_TERMINAL + usual.errors and (told.find(b"\x1b[1;31merror:") == len(AT_TERMINAL)) == tells
    return differing(answer, usual.status, usual.output) or (None if is_right else f"told: {told!r}")


def terminals(program):
    for environment, has_colours in (({"NO_COLOR": ""}, True), ({"NO_COLOR": "1"}, False)):
        name = "in colours" if has_colours else "without colours"
        yield f"a diagnosis at a terminal {name}", partial(wrong_colours, program, text_of(EXAMPLES[1]), environment, has_colours)
    accepted, refused = (b"type nat;\nsymbol Z : nat+;\nnet (r : nat+) { r ~ Z; }\n", b"net net")
    yield "a text from a terminal", partial(wrong_from_terminal, program, accepted, False)
    yield "a refused text from a terminal", partial(wrong_from_terminal, program, refused, False)
    yield "a refused text from a terminal, told at one", partial(wrong_from_terminal, program, refused, True)
    yield "a long run at a terminal shows how far it is", partial(wrong_progress, program)


def from_folder(program, words):
    folder = os.open(program.room, os.O_RDONLY)
    try:
        return program.run(words, stdin=folder)
    finally:
        os.close(folder)


def from_written_file(program, words):
    with open(os.devnull, "wb") as file:
        return program.run(words, stdin=file)


def from_closed(program, words):
    return program.run_in_shell('exec "$@" <&-', words)


def from_pipe_that_does_not_wait(program, words):
    reader, writer = os.pipe()
    os.set_blocking(reader, False)
    try:
        return program.run(words, stdin=reader)
    finally:
        os.close(reader)
        os.close(writer)


INPUTS = {
    "closed": from_closed,
    "a folder": from_folder,
    "a file that is only written": from_written_file,
    "an empty pipe that doesn't wait": from_pipe_that_does_not_wait,
}


def from_pipe(program, words, pieces):
    """Runs the program on a pipe that gets these pieces, until it is closed at the other end."""
    reader, writer = os.pipe()

    def write():
        try:
            for piece in pieces:
                os.write(writer, piece)
        except BrokenPipeError:
            pass
        finally:
            os.close(writer)

    thread = threading.Thread(target=write)
    thread.start()
    try:
        return program.run(words, stdin=reader)
    finally:
        os.close(reader)
        thread.join()


def endless():
    """Lines of a comment without end."""
    while True:
        yield b"# no end\n" * 100


def in_pieces(text, size):
    return [text[at : at + size] for at in range(0, len(text), size)]


def inputs(program):
    """Standard input that can't be read (status 6), that has too much or no end (refused), that is empty, or that comes in pieces."""
    for words in COMMANDS:
        said = " ".join(words)
        for kind, run in INPUTS.items():
            yield f"input {kind}: {said}", failing(partial(run, program, words), "input")
        for size in (MOST_BYTES + 1, 5 * MOST_BYTES):
            yield f"input of {size} bytes: {said}", answering(partial(program.run, words, b" " * size), REFUSED, TOO_LONG)
        from_device = partial(program.run_in_shell, 'exec "$@" </dev/zero', words)
        yield f"input without end, from a device: {said}", answering(from_device, REFUSED, TOO_LONG)
        yield f"input without end, from a pipe: {said}", answering(
            partial(from_pipe, program, words, endless()), REFUSED, TOO_LONG
        )
        yield f"input empty: {said}", answering(partial(program.run, words), REFUSED, TOO_SHORT)
        for name in EXAMPLES:
            usual = program.run(words, text_of(name))
            pieces = in_pieces(text_of(name), 7)
            yield f"input in pieces: {name}: {said}", answering(
                partial(from_pipe, program, words, pieces), usual.status, usual.output
            )


def wrong_message(run, status, told, is_whole=True):
    """What is wrong with the status, and with what standard error has: these bytes, or more after them."""
    answer = run()
    is_right = answer.errors == told if is_whole else answer.errors.startswith(told)
    return (None if answer.status == status else str(answer)) or (None if is_right else f"told: {answer.errors!r}")


def messages(program):
    """The message on a stream that fails, by the system's reason; on a text that is too long; and on a word that is no text."""
    unread, unwritten = (b"error: standard input can't be read: %s\n", b"error: standard output can't be written: %s\n")
    folder, closed, full = (b"Is a directory (os error 21)", b"Bad file descriptor (os error 9)", b"No space left on device (os error 28)")
    yield "message: a folder", partial(wrong_message, partial(from_folder, program, ["check"]), STREAM, unread % folder)
    yield "message: closed input", partial(wrong_message, partial(from_closed, program, ["check"]), STREAM, unread % closed)
    for words in (["check"], ["--help"], ["--version"]):
        run = partial(with_device, program, words, text_of(EXAMPLES[0]))
        yield f"message: a full device: {words[0]}", partial(wrong_message, run, STREAM, unwritten % full)
    long, told = b"#" * 1_500_000, b"error: the text has more than 1048576 bytes\n"
    yield "message: too long", partial(wrong_message, partial(program.run, ["check"], long), REFUSED, told, is_whole=False)
    told = b"error: a word of the command line is not UTF-8\n"
    yield "message: a word that is no text", partial(wrong_message, partial(program.run, [b"\xff"]), WRONG_WORDS, told)


def errors(program):
    """Standard error that takes nothing changes no answer; with all streams closed the status still says so."""
    for name, words in itertools.product(EXAMPLES, [*COMMANDS, ["walk"], ["--help"]]):
        usual = program.run(words, text_of(name))
        for kind, script in (("closed", 'exec "$@" 2>&-'), ("full", 'exec "$@" 2>/dev/full')):
            run = partial(program.run_in_shell, script, words, text_of(name))
            yield f"standard error {kind}: {name}: {' '.join(words)}", answering(run, usual.status, usual.output)
    for words in COMMANDS:
        run = partial(program.run_in_shell, 'exec "$@" <&- >&- 2>&-', words, stderr=subprocess.DEVNULL)
        yield f"all streams closed: {' '.join(words)}", answering(run, STREAM, b"")


def streams(program):
    for group in (outputs, early_ends, inputs, messages, errors, terminals):
        yield from group(program)
