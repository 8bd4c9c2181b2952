"""`tools/to_c.py --mpi`: what several processes print is what `inet run` prints, text and count, with mpirun's status the one of process 0.

That is tried with one, two and four processes on this machine, on accepted examples, generated programs of each kind, nets with wires of each
kind, and jobs of some millions of interactions, which processes share by themselves. The small ones are compiled so that processes look for
messages after each interaction, give pairs away then, and part and come together again and again (`-DSTRESS -DSLICE=1`). And a run of which one
process is killed half way, one with too little memory, one in a limit, and wrong words.
"""
import os
import random
import shutil
import signal
import subprocess
import time
from functools import partial

from harness import generated
from harness.programs import ACCEPTED, LIMIT, MEMORY, WRONG_WORDS, Answer, differing, text_of
from harness.to_c import ENDLESS, FORMS, LOOPS, MOST, NETS, SANITIZERS, STRESS, TOLD, CompiledPrograms, count_of

PROCESSES = (1, 2, 4)
EXAMPLES = ("sum", "word", "quicksort", "insertion_sort", "ackermann", "binary_numbers")
# Open MPI starts more processes than there are processors, and by root, only where it is asked to; and some machines don't let it copy from one
# process to another.
ENVIRONMENT = {
    "OMPI_ALLOW_RUN_AS_ROOT": "1", "OMPI_ALLOW_RUN_AS_ROOT_CONFIRM": "1", "OMPI_MCA_rmaps_base_oversubscribe": "1",
    "OMPI_MCA_btl_vader_single_copy_mechanism": "none", "OMPI_MCA_btl": "vader,self",
}
# No run may take longer, in seconds.
LONGEST = 300


def has_mpi():
    return bool(shutil.which("mpicc") and shutil.which("mpirun"))


class Machines(CompiledPrograms):
    """Programs that are compiled for several processes."""

    def compiled(self, name, text, form=(), words=("-O0", *STRESS)):
        return self.built(name, self.code(text, **dict(form), by_mpi=True), "mpicc", words)

    def start(self, processes, command):
        return subprocess.Popen(
            ["mpirun", "--oversubscribe", "-np", str(processes), *command], stdin=subprocess.DEVNULL, stdout=subprocess.PIPE, stderr=subprocess.PIPE,
            env={**os.environ, **ENVIRONMENT},
        )

    def run(self, processes, command):
        with self.start(processes, command) as running:
            try:
                output, errors = running.communicate(timeout=LONGEST)
            except subprocess.TimeoutExpired:
                running.kill()
                return Answer(None, b"")
        return Answer(running.returncode, output, errors)

    def wrong(self, processes, command, limit, usual):
        """What is wrong with a run, where this is the usual answer."""
        found, count = self.run(processes, [*command, "--limit", str(limit)]), count_of(usual)
        if limit >= count:
            return differing(found, usual.status, usual.output)
        same = found.status == LIMIT and found.output.endswith(b"interactions: %d\nstop: limit\n" % limit)
        return None if same else f"{found}; not stopped at the limit of {limit}"

    def wrong_nets(self, name, texts, words, form):
        """What is wrong with the nets of programs with the same rules, each with one number of processes, in turn, to its end and half way."""
        path, file = self.compiled(name, texts[0], form, words), os.path.join(self.room, f"{name}.json")
        for number, text in enumerate(texts):
            with open(file, "wb") as line:
                line.write(self.line(text))
            usual = self.inet(text, MOST)
            runs = [(processes, MOST) for processes in (PROCESSES if len(texts) == 1 else PROCESSES[1 + number % 2:][:1])]
            if number % 3 == 0:
                runs.append((3, count_of(usual) // 2))
            for processes, limit in runs:
                wrong = self.wrong(processes, [path, file], limit, usual)
                if wrong:
                    return f"net {number}, {processes} processes, limit {limit}: {wrong}"
        os.remove(path)
        return None


def wrong_sanitized(made):
    """What is wrong with runs by the sanitizers of addresses and undefined behaviour. What MPI itself leaves behind doesn't count."""
    text = generated.program(generated.sorting_network(3)).encode()
    path, usual = made.compiled("sanitized", text, words=[*SANITIZERS, *STRESS]), made.inet(text, MOST)
    for processes in (1, 3):
        found = made.run(processes, ["env", "ASAN_OPTIONS=detect_leaks=0", path, "--limit", str(MOST)])
        wrong = differing(found, usual.status, usual.output) or next((f"{found.errors[:2000]!r}" for told in TOLD if told in found.errors), None)
        if wrong:
            return f"{processes} processes: {wrong}"
    return None


def wrong_jobs(made):
    """What is wrong with jobs that processes share by themselves: three of four million interactions each."""
    text, most = generated.program(*(generated.ackermann(3, 8, name) for name in ("one", "two", "three"))).encode(), 20_000_000
    path, usual = made.compiled("jobs", text, words=["-O1"]), made.program.run(["run", "--limit", str(most), "--cells", "1048576"], text)
    if usual.status != ACCEPTED:
        return f"not to be compared: {usual}"
    for processes in PROCESSES:
        for limit in (most, count_of(usual) - 1):
            wrong = made.wrong(processes, [path], limit, usual)
            if wrong:
                return f"{processes} processes, limit {limit}: {wrong}"
    return None


def wrong_limits(made):
    """What is wrong with runs that stop at a limit while pairs are asked for: none of them is lost."""
    text = text_of("ackermann")
    path, usual = made.compiled("limits", text), made.inet(text, MOST)
    return next(filter(None, (made.wrong(3, [path], limit, usual) for limit in range(1, count_of(usual), 2))), None)


def children_of(process):
    """The processes that this one started."""
    with open(f"/proc/{process}/task/{process}/children") as file:
        return [int(word) for word in file.read().split()]


def wrong_when_killed(made):
    """What is wrong where one process of a long run is killed half way: all end, with a reason, a status, and no net."""
    text = generated.program(generated.fibonacci(45, name=None)).encode()
    path = made.compiled("killed", text, words=["-O1"])
    with made.start(3, [path, "--limit", "1000000000000"]) as running:
        until = time.monotonic() + LONGEST
        while len(children_of(running.pid)) < 3 and time.monotonic() < until:
            time.sleep(0.1)
        time.sleep(2)
        children = children_of(running.pid)
        if len(children) != 3:
            running.kill()
            return f"{len(children)} processes are there"
        os.kill(children[1], signal.SIGKILL)
        try:
            output, errors = running.communicate(timeout=LONGEST)
        except subprocess.TimeoutExpired:
            running.kill()
            return "it goes on"
    told = b"signal 9" in errors
    for _ in range(50):
        left = [child for child in children if os.path.exists(f"/proc/{child}")]
        if not left:
            break
        time.sleep(0.1)
    return None if running.returncode and not output and told and not left else f"status {running.returncode}, {output!r}, {errors!r}, left: {left}"


def wrong_memory(made):
    """What is wrong where one process lacks memory: there is one line."""
    path = made.compiled("memory", ENDLESS, words=["-O1"])
    for room in (1_200_000, 1_500_000):
        command = ["sh", "-c", f'ulimit -v {room}; exec "$@"', "sh", path, "--limit", "1000000000000"]
        for processes in (1, 3):
            wrong = differing(made.run(processes, command), MEMORY, b"memory\n")
            if wrong:
                return f"{room} kB, {processes} processes: {wrong}"
    return None


def wrong_words(made, path, words):
    answer = made.run(2, [path, *words])
    return differing(answer, WRONG_WORDS, b"") or (None if answer.errors.count(b"error: ") == 1 else f"told: {answer.errors!r}")


def machines(program):
    if not has_mpi():
        print("machines: not tried, since there is no `mpicc` or `mpirun` (tests/setup installs Open MPI)")
        return
    made = Machines(program, "machines")
    yield "killed half way", partial(wrong_when_killed, made)
    yield "each limit", partial(wrong_limits, made)
    yield "jobs", partial(wrong_jobs, made)
    yield "memory", partial(wrong_memory, made)
    yield "sanitizers", partial(wrong_sanitized, made)
    for number, name in enumerate(EXAMPLES):
        yield f"example {name}", partial(made.wrong_nets, name, [text_of(name)], ["-O0", *(STRESS if number % 3 else [])], FORMS[number % len(FORMS)])
    loops = [(LOOPS + net).encode() for net in NETS.values()]
    yield "wires of each kind", partial(made.wrong_nets, "loops", loops, ["-O0", *STRESS], FORMS[0])
    for number, (kind, make) in enumerate(generated.SMALL.items()):
        text = generated.program(make(random.Random(number))).encode()
        yield f"generated: {kind}", partial(made.wrong_nets, f"generated{number}", [text], ["-O0", *STRESS], FORMS[number % len(FORMS)])
    path = made.compiled("words", text_of("sum"), words=["-O0"])
    for words in (["--limit", "x"], ["--workers", "2"], ["one.json", "other.json"]):
        yield f"words: {' '.join(words)}", partial(wrong_words, made, path, words)
