#!/usr/bin/env python3
"""The corpus: for each accepted program of examples/ that is run (NAME.inet with NAME.run), its exported line in NAME.json, and some of its
runs in NAME.limits. With it a reducer can be written and tried without `inet`.

Usage: tools/corpus.py make [INET INET_EXPORT]      writes these files
       tools/corpus.py check [INET INET_EXPORT]     names those that are missing, too many or have other bytes

INET and INET_EXPORT are the programs, by default those that were built here. NAME.limits has, for some limits, a line `$ inet run --limit N`,
the lines that this run prints with one worker, and a line `status S`.
"""
import os
import re
import subprocess

import made_files
import streams

EXAMPLES = os.path.join(made_files.TOP, "examples")
ENDINGS = (".json", ".limits")
TO_ITS_END, STOPPED = 0, 3


def names():
    """The accepted programs that are run."""
    return sorted(file[: -len(".run")] for file in os.listdir(EXAMPLES) if file.endswith(".run"))


def read(file):
    """The bytes of a file of examples/, None where it isn't there."""
    return made_files.read(os.path.join("examples", file))


def answer(words, name):
    """What a program prints on an example, with its status."""
    try:
        ran = subprocess.run(words, input=read(name + ".inet"), stdout=subprocess.PIPE, stderr=subprocess.DEVNULL, check=False)
    except OSError as error:
        raise streams.Refused(f"{words[0]} can't be run: {error.strerror}") from None
    if ran.returncode not in (TO_ITS_END, STOPPED):
        raise streams.Refused(f"{' '.join(words)}: status {ran.returncode} on {name}")
    return ran.stdout, ran.returncode


def limits(name):
    """Limits that stop a run at its beginning, in its middle and just before its end, and one that doesn't."""
    interactions = int(re.search(rb"^interactions: (\d+)$", read(name + ".run"), re.MULTILINE).group(1))
    some = {0, 1, 2, interactions // 2, interactions - 1, interactions}
    return sorted(limit for limit in some if 0 <= limit <= interactions)


def made_of(name, inet, inet_export):
    """The bytes of an example's files."""
    runs = b""
    for limit in limits(name):
        printed, status = answer([inet, "run", "--limit", str(limit)], name)
        runs += f"$ inet run --limit {limit}\n".encode() + printed + f"status {status}\n".encode()
    for ending, data in zip(ENDINGS, (answer([inet_export], name)[0], runs)):
        yield f"examples/{name}{ending}", data


def made(*programs):
    """The bytes of each file, from the paths of the programs."""
    for name in names():
        yield from made_of(name, *programs)


def superfluous():
    """Files of the corpus that belong to no program that is run."""
    wanted = {name + ending for name in names() for ending in ENDINGS}
    return sorted(f"examples/{file}" for file in os.listdir(EXAMPLES) if file.endswith(ENDINGS) and file not in wanted)


def wrong(name, *programs):
    """What is wrong with the files of an example, None where nothing is."""
    return next(made_files.wrong(made_of(name, *programs)), None)


if __name__ == "__main__":
    made_files.run(__doc__, made, superfluous, f"the corpus of {len(names())} programs is as it should be")
