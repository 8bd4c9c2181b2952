"""Programs in files: what is printed on FILE and on `-` is what is printed on standard input; and files that are odd, or can't be read."""
import itertools
import os
import threading
import time
from functools import partial

from harness.programs import COMMANDS, MOST_BYTES, REFUSED, STREAM, answering, differing, shortened, text_of
from harness.refusals import ONE_BYTE, Refuser, refused_memory

# A program that is accepted and one that is refused.
EXAMPLES = ("sum", "waits_for_itself")
TOO_LONG = b"refused E03 at 1:1\n"
# Where the second one is refused.
PLACE = ":11:11"
# How long a writer waits before it goes on, in seconds.
PAUSE = 0.05


def written(program, name, text):
    """A new file of this name and text in the program's room; written once, since trials read side by side."""
    path = os.path.join(program.room, name)
    with open(path, "xb") as file:
        file.write(text)
    return path


def wrong_on_file(answer, usual, file):
    """What is wrong with an answer on a file, where the usual one is that on standard input: the diagnosis begins with the place."""
    head = f" --> {file}{PLACE}\n".encode() if usual.status == REFUSED else b""
    if answer.errors != head + usual.errors:
        return f"told: {shortened(answer.errors)}; wanted: {shortened(head + usual.errors)}"
    return differing(answer, usual.status, usual.output)


def same_as_input(program):
    """Files, under several names, and `-`, which is standard input."""
    for name, words in itertools.product(EXAMPLES, COMMANDS):
        text = text_of(name)
        usual = program.run(words, text)
        for file_name in (f"{name}.inet", "a name", "näme", "-", "--"):
            said = f"{name}: {' '.join(words)} {file_name}"
            file = written(program, f"{name}{len(words)}{words[-1]}{file_name}", text)
            yield said, lambda words=words, usual=usual, file=file: wrong_on_file(program.run([*words, file]), usual, file)
        run = partial(program.run, [*words, "-"], text)
        yield f"{name}: {' '.join(words)} -", lambda run=run, usual=usual: wrong_on_file(run(), usual, "") if usual.status != REFUSED else differing(run(), usual.status, usual.output)
    dashed = written(program, "-dashed", text_of("sum"))
    usual = program.run(["check"], text_of("sum"))
    run = partial(program.run_in_shell, f'cd "{os.path.dirname(dashed)}"; exec "$@"', ["check", "--", "-dashed"])
    yield "a file whose name begins with a dash", answering(run, usual.status, usual.output)


def unread(run, file, done, why):
    """A trial: the run ends with status 6 and one line on standard error, which names the file and why it can't be had."""

    def wrong():
        answer = run()
        line = f"error: {file} can't be {done}: {why}\n".encode()
        return differing(answer, STREAM, b"") or (None if answer.errors == line else f"told: {shortened(answer.errors)}; wanted: {line!r}")

    return wrong


def unreadable(program):
    """Files that can't be opened or read: one line, status 6."""
    folder = os.path.join(program.room, "folder")
    os.makedirs(folder, exist_ok=True)
    closed = written(program, "closed", text_of("sum"))
    os.chmod(closed, 0)
    missing = os.path.join(program.room, "missing")
    below = os.path.join(written(program, "no folder", b""), "file")
    circle = os.path.join(program.room, "circle")
    os.symlink(circle, circle)
    long = os.path.join(program.room, "n" * 300)
    lines = "missing\n" + os.path.join(program.room, "two\x1blines")
    for words in COMMANDS:
        run = lambda file, words=words: partial(program.run, [*words, file])
        said = " ".join(words)
        yield f"{said}: a folder", unread(run(folder), folder, "read", "Is a directory (os error 21)")
        yield f"{said}: no file", unread(run(missing), missing, "opened", "No such file or directory (os error 2)")
        yield f"{said}: no name", unread(run(""), "", "opened", "No such file or directory (os error 2)")
        yield f"{said}: a file as a folder", unread(run(below), below, "opened", "Not a directory (os error 20)")
        yield f"{said}: a link to itself", unread(run(circle), circle, "opened", "Too many levels of symbolic links (os error 40)")
        yield f"{said}: a name that is too long", unread(run(long), long, "opened", "File name too long (os error 36)")
        shown = lines.replace("\n", "\ufffd").replace("\x1b", "\ufffd")
        yield f"{said}: a name with control characters", unread(run(lines), shown, "opened", "No such file or directory (os error 2)")
        if os.geteuid() != 0:
            yield f"{said}: no right to read", unread(run(closed), closed, "opened", "Permission denied (os error 13)")
        else:
            # Root may read all; another user may not, and must reach the file.
            command = lambda words=words: program.run_command(["setpriv", "--reuid=65534", "--regid=65534", "--clear-groups", program.path, *words, closed], b"")
            yield f"{said}: no right to read", partial(wrong_without_right, program, command, closed)


def wrong_without_right(program, command, file):
    os.chmod(program.room, 0o755)
    return unread(command, file, "opened", "Permission denied (os error 13)")()


def while_written(run, write):
    """The answer of a run while a thread writes, which is given an event that tells it of the run's end."""
    ended = threading.Event()
    thread = threading.Thread(target=write, args=[ended])
    thread.start()
    try:
        return run()
    finally:
        ended.set()
        thread.join()


def grown(program, words):
    """A file that grows while it is read: what was there at first, or more; here its end is past the most bytes of a text."""
    path = written(program, f"grows {' '.join(words)}", b"# grows\n")

    def write(ended):
        with open(path, "ab", buffering=0) as file:
            for _turn in range(64):
                if ended.is_set():
                    return
                file.write(b"# grows\n" * 8192)

    return while_written(partial(program.run, [*words, path]), write)


def wrong_grown(program, words):
    answer = grown(program, words)
    beginnings = (b"refused E02 at ", TOO_LONG)
    return None if answer.status == REFUSED and answer.output.startswith(beginnings) else f"{answer}"


def from_fifo(program, words, name):
    """The answer on a fifo, whose writer opens it late and writes in pieces."""
    path = os.path.join(program.room, f"fifo {name} {' '.join(words)}")
    os.mkfifo(path)
    text = text_of(name)

    def write(_ended):
        time.sleep(PAUSE)
        with open(path, "wb", buffering=0) as fifo:
            for at in range(0, len(text), 50):
                fifo.write(text[at : at + 50])

    return while_written(partial(program.run, [*words, path]), write)


def odd(program):
    """Files that grow, that have no end, that are no plain files, or that end within the text."""
    long = [(b" " * size, written(program, f"spaces {size}", b" " * size)) for size in (MOST_BYTES, MOST_BYTES + 1)]
    for words in COMMANDS:
        said = " ".join(words)
        yield f"{said}: a file that grows", partial(wrong_grown, program, words)
        for device in ("/dev/zero", "/dev/full"):
            yield f"{said}: {device}", answering(partial(program.run, [*words, device]), REFUSED, TOO_LONG)
        usual = program.run(words)
        yield f"{said}: /dev/null", answering(partial(program.run, [*words, os.devnull]), usual.status, usual.output)
        for name in EXAMPLES:
            usual = program.run(words, text_of(name))
            yield f"{said}: a fifo: {name}", answering(partial(from_fifo, program, words, name), usual.status, usual.output)
            yield f"{said}: /dev/stdin: {name}", answering(partial(program.run, [*words, "/dev/stdin"], text_of(name)), usual.status, usual.output)
        for text, file in long:
            usual = program.run(words, text)
            yield f"{said}: a file of {len(text)} bytes", answering(partial(program.run, [*words, file]), usual.status, usual.output)


def refused(program):
    """Each read refused in turn, and each request for memory; one byte a read, with the read refused after each byte."""
    refuser = Refuser(program)
    named = {name: written(program, f"refused {name}.inet", text_of(name)) for name in EXAMPLES}
    for (name, file), words in itertools.product(named.items(), COMMANDS[:3]):
        on_it = [*words, file]
        said = f"{name}: {words[0]}"
        usual, counts = refuser.run(on_it, b"")
        yield f"{said}: there are reads", lambda counts=counts: None if counts.read >= 2 else f"{counts.read} reads"
        for number in range(1, counts.read + 1):
            run = partial(refuser.answer, on_it, b"", "read", number)
            yield f"{said}: read {number} refused", unread(run, file, "read", "Input/output error (os error 5)")
        for what, trial in refused_memory(refuser, on_it, b"", usual, counts):
            yield f"{said}: {what}", trial
    text = text_of("sum")
    file = written(program, "in bytes.inet", text)
    usual = program.run(["check"], text)
    yield "one byte a read", answering(partial(refuser.answer, ["check", file], b"", "none", 0, **ONE_BYTE), usual.status, usual.output)
    for size in range(0, len(text) + 1, 7):
        run = partial(refuser.answer, ["check", file], b"", "read", size + 1, **ONE_BYTE)
        yield f"refused after {size} bytes read", unread(run, file, "read", "Input/output error (os error 5)")


def files(program):
    for group in (same_as_input, unreadable, odd, refused):
        yield from group(program)
