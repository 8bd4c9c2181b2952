"""Runs the program as a process, and says in one line what differs from what was wanted."""
import os
import subprocess
import threading
from dataclasses import dataclass

HERE = os.path.dirname(os.path.abspath(__file__))
EXAMPLES = os.path.join(HERE, "..", "..", "examples")
ROWS = os.path.join(HERE, "..", "rows")

# No answer may take longer, in seconds.
LONGEST = 60
# The most bytes that a text may have.
MOST_BYTES = 1_048_576

# Commands before a program, by which valgrind ends it with a status of its own where an access is bad, a block isn't given back, or two threads race.
VALGRIND = {
    "memory": ["valgrind", "-q", "--error-exitcode=99", "--leak-check=full", "--errors-for-leak-kinds=definite,indirect,possible"],
    "races": ["valgrind", "-q", "--error-exitcode=99", "--tool=helgrind"],
}

ACCEPTED, REFUSED, WRONG_WORDS, LIMIT, FULL, MEMORY, STREAM = range(7)
COMMANDS = [["check"], ["derive"], ["run"], ["run", "--workers", "2"], ["run", "--workers", "64"]]


@dataclass(frozen=True)
class Answer:
    """How a run of the program ended: its status (None where it had to be killed, negative for a signal) and what it wrote."""

    status: int | None
    output: bytes
    errors: bytes = b""

    def __str__(self):
        if self.status is None:
            return f"no answer in {LONGEST} seconds"
        end = f"signal {-self.status}" if self.status < 0 else f"status {self.status}"
        return f"{end}, {shortened(self.output)}"


def shortened(output, most=200):
    """The bytes as a text of one line, cut where they are many."""
    return repr(output) if len(output) <= most else f"{output[: most // 2]!r}..{output[-most // 2 :]!r} ({len(output)} bytes)"


def differing(answer, status, output):
    """What is wrong with an answer that should have this status and output; None where nothing is."""
    wanted = Answer(status, output)
    return None if (answer.status, answer.output) == (status, output) else f"{answer}; wanted: {wanted}"


def answering(run, status, output):
    """A trial: the run, which is made later, has to have this status and output."""
    return lambda: differing(run(), status, output)


def wrong_stream(answer, stream, written):
    """What is wrong with an answer where the standard stream of this name has failed and so much was written before."""
    told = b"standard " + stream.encode() in answer.errors
    return differing(answer, STREAM, written) or (None if told else f"standard error doesn't name the stream: {answer.errors!r}")


def failing(run, stream, written=b""):
    """A trial: the run, which is made later, has to end as the standard stream of this name fails, after so much was written."""
    return lambda: wrong_stream(run(), stream, written)


def text_of(name, folder=EXAMPLES):
    """The text of an example or a row."""
    with open(os.path.join(folder, name + ".inet"), "rb") as file:
        return file.read()


class Program:
    """The built program, and a folder for the texts that it reads."""

    def __init__(self, path, room):
        # Help names the program as it is called.
        self.path = os.path.join(room, "inet")
        os.symlink(os.path.abspath(path), self.path)
        self.room = room
        self.texts = {}
        self.lock = threading.Lock()

    def file_of(self, text):
        """A file that holds the text: unlike a pipe, it gives the same reads each time."""
        with self.lock:
            if text not in self.texts:
                self.texts[text] = os.path.join(self.room, f"text{len(self.texts)}")
                with open(self.texts[text], "wb") as file:
                    file.write(text)
            return self.texts[text]

    def run(self, words, text=b"", environment=None, **streams):
        """Runs the program on the text; the streams are those of subprocess, for what isn't read from a file or isn't kept."""
        return self.run_command([self.path, *words], text, environment, **streams)

    def run_in_shell(self, script, words, text=b"", **streams):
        """Runs the program as the shell script says, where "$@" stands for the program and its words."""
        return self.run_command(["sh", "-c", script, "sh", self.path, *words], text, **streams)

    def run_command(self, command, text, environment=None, **streams):
        streams = {"stdout": subprocess.PIPE, "stderr": subprocess.PIPE, **streams}
        with open(self.file_of(text), "rb") as file:
            process = subprocess.Popen(
                command, env={**os.environ, **(environment or {})}, **{"stdin": file, **streams}
            )
        with process:
            try:
                output, errors = process.communicate(timeout=LONGEST)
            except subprocess.TimeoutExpired:
                process.kill()
                return Answer(None, b"")
        return Answer(process.returncode, output or b"", errors or b"")
