#!/usr/bin/env python3
"""The kit's command `rt` with these words, but for what takes it long in this repository's chain of crates.

To list the crates below a crate, and to sum up their sources, `rt` goes from a crate to all below it, anew for each way that leads to one:
225,000 ways where the chain is longest. Here each crate is met once in each such walk, with the same answer. And before `rt all` proves, it
compiles the sources of all crates at once, so that an error shows early: here that is left out, since each crate is checked by itself anyway.
And `rt ci` begins a proof with the processors that are idle at that moment, so that the crates for which all others wait are proved by one
processor while mutants have the rest: here mutants only fill what proofs leave, with less priority, and the longest chain comes first.
And it checks a mutant's whole crate anew, where mostly the changed function is refused: here that function is tried alone, and the
crate only if it is proved.
Where the kit's command is not one that this knows, it is called as it is.
"""
import difflib
import inspect
import os
import re
import shutil
import sys
import threading
from concurrent.futures import FIRST_COMPLETED, ThreadPoolExecutor, wait
from contextlib import nullcontext
from functools import wraps
from importlib.machinery import SourceFileLoader
from importlib.util import module_from_spec, spec_from_loader


def once_in_a_walk(method, key):
    """The method, which calls itself for the crates below, but asked once of each crate within one outer call."""
    walk = threading.local()

    @wraps(method)
    def asked(crate):
        outermost = not hasattr(walk, "answers")
        if outermost:
            walk.answers = {}
        try:
            # The crate is kept beside its answer, so that its key stays its own.
            if key(crate) not in walk.answers:
                walk.answers[key(crate)] = method(crate), crate
            return walk.answers[key(crate)][0]
        finally:
            if outermost:
                del walk.answers

    return asked


def copied(method):
    """The method that gives a new list of what this one gives."""
    return lambda crate: list(method(crate))


# A check was never seen to take more than this part of the memory that `rt` reckons with.
MEMORY = 0.6

# How many processors a proof gets at most, and how many one for which the longest chain waits gets at least: a check gains little from more.
MOST_JOBS, LEAST_JOBS = 4, 2

# A chain that is so much shorter than the longest one counts as one of the longest.
NEARLY = 0.9


def in_lanes(rt):
    """The kit's function of that name, but that proofs do not wait for mutants: it runs tasks side by side and returns what each gave. A task is
    what it waits for, its work in lines, its memory, and a call that takes what was given and how many jobs it may use."""
    def run(tasks):
        lanes, memory, behind = rt.processors(), 0.85 * rt.free(), dict.fromkeys(tasks, 0)
        # A task comes after those that it waits for.
        for key in reversed([*tasks]):
            behind[key] += tasks[key][1]
            for before in tasks[key][0]:
                behind[before] = max(behind[before], behind[key])
        is_proof = {key: key[1] in ("proof", "tests") for key in tasks}
        left, running, given = sorted(tasks, key=lambda key: (not is_proof[key], -behind[key])), {}, {}
        with getattr(rt, "ending", nullcontext)(), ThreadPoolExecutor(2 * lanes) as proofs, ThreadPoolExecutor(lanes, initializer=os.nice, initargs=(10,)) as mutants:
            while left or running:
                ready = [key for key in left if all(before in given for before in tasks[key][0])]
                waiting = sum(is_proof[key] for key in ready)
                longest = max((behind[key] for key in [*left, *(key for key, _, _ in running.values())] if is_proof[key]), default=0)
                for key in ready:
                    needs, call = MEMORY * tasks[key][2], tasks[key][3]
                    room = memory - sum(taken for _, taken, _ in running.values())
                    idle = lanes - sum(jobs for other, _, jobs in running.values() if is_proof[other] or not is_proof[key])
                    jobs = 1
                    if is_proof[key]:
                        is_longest = behind[key] >= NEARLY * longest
                        jobs = max(idle // waiting, LEAST_JOBS if is_longest else 1)
                        jobs = max(1, min(jobs, MOST_JOBS, 1 + int((room / needs - 1) / 0.6)))
                        waiting -= 1
                        if idle <= 0 and not is_longest:
                            continue
                    elif idle <= 0:
                        break
                    if running and needs > room:
                        if is_proof[key]:
                            continue
                        # Smaller mutants wait too, else a large one would be the last.
                        break
                    left.remove(key)
                    running[(proofs if is_proof[key] else mutants).submit(call, given, jobs)] = key, needs * (1 + 0.6 * (jobs - 1)), jobs
                for ended in wait(running, return_when=FIRST_COMPLETED).done:
                    given[running.pop(ended)[0]] = ended.result()
        return given

    return run


# The head of a function, with its name; the last line of a check of some functions alone.
HEAD = re.compile(r"^ *(?:pub(?:\([a-z]+\))? )?(?:const |unsafe |extern \"C\" )*fn (\w+)")
ENDED = re.compile(r"only=(\d+) proved=(\d+)\b")


# The kit's functions that try mutants, with their parameters.
MUTANTS = {
    "checked": ["crate", "texts", "flags", "kept"],
    "must_fail": ["crate", "edit", "flags", "kept"],
    "seeded": ["crate", "flags", "start"],
    "add_edits": ["tasks", "crate", "edits", "first", "waits", "is_well", "kept", "start", "in_ci"],
    "read_edit": ["edit", "folder"],
}


def has_parameters(function, names):
    """Whether this is a function with parameters of these names."""
    return callable(function) and [*inspect.signature(function).parameters] == names


def changed_functions(folder, texts):
    """The words `--only` for the functions of `src/` in which these texts of files differ from those of the folder, or none where another
    part differs."""
    words = []
    for path, text in texts.items():
        if not path.startswith("src/"):
            return []
        with open(os.path.join(folder, path), encoding="utf-8") as file:
            before = file.read().split("\n")
        for kind, first, last, _, _ in difflib.SequenceMatcher(None, before, text.split("\n"), autojunk=False).get_opcodes():
            if kind != "equal":
                heads = [found for found in map(HEAD.match, before[: max(last, first + 1)]) if found]
                if not heads:
                    return []
                words += ["--only", heads[-1][1]]
    return words


def changed_first(rt):
    """The kit's functions that check a crate with other texts of some files, and add the tasks that try a crate's mutants, but that the changed functions
    are tried alone first, with those that they call. If one of them isn't proved, neither is the crate; else the whole crate is checked. The kit tries
    mutants over what a check of the crate as it is proved, before and after them: here that is a check of these functions."""
    checked, add_edits, unchanged = rt.checked, rt.add_edits, {}

    def tried(crate, texts, flags, kept):
        if not texts:
            return checked(crate, texts, [*flags, *unchanged.get(crate.name, [])], kept)
        only = changed_functions(crate.folder, texts)
        if only:
            ran = checked(crate, texts, [*flags, *only], kept)
            ended = ENDED.match(ran.stdout.rstrip("\n").rpartition("\n")[2])
            if ran.returncode == 1 and ended and int(ended[2]) < int(ended[1]):
                ran.stdout = f"{ran.stdout.rstrip()}\nlogic=not-proved {ended[0]}\n"
                return ran
        return checked(crate, texts, flags, kept)

    def added(tasks, crate, edits, *rest, **named):
        each = [changed_functions(crate.folder, rt.read_edit(edit, crate.folder)[0] or {}) for edit in edits]
        unchanged[crate.name] = [word for words in each for word in words] if all(each) else []
        return add_edits(tasks, crate, edits, *rest, **named)

    return tried, added


def loaded(command):
    """The kit's command as a module, which asks once."""
    source = os.path.realpath(command)
    sys.path.insert(0, os.path.dirname(source))
    loader = SourceFileLoader("rt", source)
    rt = module_from_spec(spec_from_loader("rt", loader))
    loader.exec_module(rt)
    crates = rt.rtlib.Crate
    crates.stamp = once_in_a_walk(crates.stamp, lambda crate: crate.folder)
    crates.below = copied(once_in_a_walk(crates.below, id))
    if hasattr(crates, "front_end") and sys.argv[1:2] == ["all"]:
        crates.front_end = lambda crate: 0
    if all(hasattr(rt, name) for name in ("in_lanes", "processors", "free")) and "RT_JOBS" not in os.environ:
        rt.in_lanes = in_lanes(rt)
    if all(has_parameters(getattr(rt, name, None), names) for name, names in MUTANTS.items()):
        rt.checked, rt.add_edits = changed_first(rt)
    return rt


def main():
    command = shutil.which("rt")
    if not command:
        sys.exit("rt_once: no `rt`, the command of the Rattle kit, is on the path")
    sys.dont_write_bytecode = True
    try:
        call = loaded(command).main
    except (AttributeError, ImportError, SyntaxError, ValueError):
        os.execv(command, [command, *sys.argv[1:]])
    sys.exit(call(sys.argv[1:]))


main()
