"""The scripts `inet`, `inet_export`, `build` and `dist/keep`, and the words for version and help.

The scripts are tried in a copy of the sources without what was built, where the built programs are the kept ones, and with the system's
commands alone: each trial changes a copy of its own.
"""
import hashlib
import os
import re
import shutil
import subprocess
import time
from functools import partial

from harness.export import BUILT as EXPORTER
from harness.programs import ACCEPTED, EXAMPLES, HERE, LONGEST, WRONG_WORDS, Answer, Program, answering, differing, text_of

TOP = os.path.normpath(os.path.join(HERE, "..", ".."))
NAMES = ("inet", "inet_export")
# The status of a script that can't go on.
NO_PROGRAM = 70
SYSTEM = "/usr/bin:/bin"
KIT = "kit of the tests"
STAMP = re.compile(r'^pub const (VERSION|SOURCES): .*"(.*)";$', re.MULTILINE)


def kept_at(copy, name):
    return os.path.join(copy, "dist", f"{name}-x86_64-linux")


def built_at(copy, name):
    return os.path.join(copy, "crates", name, "out", name)


def asked(copy, command, file=os.devnull, path=SYSTEM, **environment):
    """What a command answers in a copy."""
    with open(file, "rb") as text:
        ran = subprocess.run(command, cwd=copy, stdin=text, stdout=subprocess.PIPE, stderr=subprocess.PIPE, timeout=LONGEST, env={"PATH": path, **environment})
    return Answer(ran.returncode, ran.stdout, ran.stderr)


def note_sums(copy, sources=None):
    """Writes the sums of the kept programs and of the sources into dist/inet.from."""
    sources = sources or asked(copy, ["dist/keep", "sources"]).output.decode().strip()
    with open(os.path.join(copy, "dist", "inet.from"), "w", encoding="utf-8") as file:
        for name in NAMES:
            with open(kept_at(copy, name), "rb") as program:
                print(name, hashlib.sha256(program.read()).hexdigest(), file=file)
        print(f"sources {sources}\nkit {KIT}", file=file)


def laid_out(copy, programs):
    """A copy of the scripts and sources, whose kept programs are these; a command `rt` there says which kit it is of."""
    for name in ("crates.txt", *NAMES, "build", "dist/keep", "tools/programs.sh"):
        os.makedirs(os.path.dirname(os.path.join(copy, name)), exist_ok=True)
        shutil.copy(os.path.join(TOP, name), os.path.join(copy, name))
    for crate in os.listdir(os.path.join(TOP, "crates")):
        source = os.path.join(TOP, "crates", crate, "src")
        if os.path.isdir(source):
            shutil.copytree(source, os.path.join(copy, "crates", crate, "src"))
    for name, program in zip(NAMES, programs):
        shutil.copy(program, kept_at(copy, name))
    os.makedirs(os.path.join(copy, "kit"))
    with open(os.path.join(copy, "kit", "KIT-ID"), "w", encoding="utf-8") as file:
        print(KIT, file=file)
    with open(os.path.join(copy, "kit", "rt"), "w", encoding="utf-8") as file:
        print(f"#!/bin/sh\necho {copy}/kit/START-HERE.md", file=file)
    os.chmod(os.path.join(copy, "kit", "rt"), 0o755)
    note_sums(copy)


# ---- what is changed in a copy


def nothing(_copy):
    pass


def change_source(copy):
    with open(os.path.join(copy, "crates", "inet", "src", "main.rt"), "a", encoding="utf-8") as file:
        print("const FURTHER: u32 = 0;", file=file)


def change_comment(copy):
    with open(os.path.join(copy, "crates", "inet", "src", "main.rt"), "a", encoding="utf-8") as file:
        print("// further", file=file)


def change_byte(copy):
    for name in NAMES:
        with open(kept_at(copy, name), "r+b") as file:
            file.seek(os.path.getsize(kept_at(copy, name)) // 2)
            byte = file.read(1)
            file.seek(-1, os.SEEK_CUR)
            file.write(bytes([byte[0] ^ 1]))


def replace_by_another(copy):
    """The kept programs are for another system."""
    for name in NAMES:
        with open(kept_at(copy, name), "wb") as file:
            file.write(b"\x7fELF of another machine")
    note_sums(copy)


def show_tunables(copy):
    """The kept programs print what they pass on to the C library."""
    for name in NAMES:
        with open(kept_at(copy, name), "w", encoding="utf-8") as file:
            print('#!/bin/sh\necho "$GLIBC_TUNABLES"', file=file)
    note_sums(copy)


def leave_out(copy):
    for name in NAMES:
        os.remove(kept_at(copy, name))


def build_too(copy):
    """What is built is there, and what is kept can't run: so the built one has to answer."""
    for name in NAMES:
        os.makedirs(os.path.dirname(built_at(copy, name)))
        shutil.copy(kept_at(copy, name), built_at(copy, name))
    change_byte(copy)


def build_alike(copy):
    for name in NAMES:
        os.makedirs(os.path.dirname(built_at(copy, name)))
        shutil.copy(kept_at(copy, name), built_at(copy, name))


def both(*changes):
    def change(copy):
        for one in changes:
            one(copy)

    return change


def build_others(copy):
    """What is built has one byte more than what is kept."""
    build_alike(copy)
    for name in NAMES:
        with open(built_at(copy, name), "ab") as file:
            file.write(b"\0")


def stamp(copy):
    asked(copy, ["dist/keep", "stamp"])


# The change, and of what `./inet` and `./inet_export` say on standard error one line that holds these words; none where there are none.
ANSWERED = {
    "as it was made": (nothing, None),
    "with another source": (change_source, "was made from other sources than these"),
    "with another comment": (change_comment, "was made from other sources than these"),
    "built": (build_too, None),
    "built, with another comment": (both(build_too, change_comment), None),
    "built of another source": (both(build_alike, change_source), "was made from other sources than these"),
}
# The change after a call that noted which program answers, and what is said then.
NOTED = {
    "with nothing changed": (nothing, ""),
    "with another comment": (change_comment, ""),
    "with another source": (change_source, "is damaged or replaced"),
    "without what was built": (lambda copy: remove_built(copy), "is damaged or replaced"),
}
UNANSWERED = {
    "with another byte": (change_byte, "is damaged or replaced"),
    "of another system": (replace_by_another, "doesn't run on this system"),
    "without a program": (leave_out, "needs `rt`"),
}
# The change, the words on a line that `dist/keep check` prints, and the status, outside of a landing and at one.
CHECKED = {
    "as it was built": (build_alike, "6 passed, 0 failed", 0, 0),
    "with another byte": (both(build_alike, change_byte), "is damaged or replaced", 1, 1),
    "with another comment": (both(build_alike, change_comment), "made from other sources", 0, 1),
    "with other bytes built": (build_others, "differ, though of the same sources", 1, 1),
    "with another source": (both(build_others, change_source), "dist/keep stamp writes it", 1, 1),
    "with another source and its sum": (both(build_others, change_source, stamp), "differ", 0, 1),
    "not built": (nothing, "isn't built", 1, 1),
}


def changed(program, change, name):
    """A new copy with this change."""
    copy = os.path.join(program.room, "kept", name.replace(" ", "-").replace(",", ""))
    laid_out(copy, (program.path, EXPORTER))
    change(copy)
    return copy


def wrong_answer(program, exporter, change, said, name):
    """What is wrong with what the two scripts answer in a changed copy, which is what the programs answer."""
    copy = changed(program, change, f"answered {name}")
    example = os.path.join(EXAMPLES, "sum.inet")
    for script, words, of in (("./inet", ["run"], program), ("./inet_export", [], exporter)):
        answer = asked(copy, [script, *words], example)
        wanted = of.run(words, text_of("sum"))
        errors = answer.errors.decode()
        if wrong := differing(answer, wanted.status, wanted.output):
            return f"{script}: {wrong}"
        if (errors.count("\n"), bool(errors)) != (int(bool(said)), bool(said)) or (said or "") not in errors:
            return f"{script} says {errors!r}"
    return None


def wrong_refusal(program, change, said, name):
    """What is wrong with the scripts in a changed copy, where no program can be run."""
    copy = changed(program, change, f"unanswered {name}")
    for script in ("./inet", "./inet_export"):
        answer = asked(copy, [script, "--version"])
        if wrong := differing(answer, NO_PROGRAM, b""):
            return f"{script}: {wrong}"
        if said not in answer.errors.decode():
            return f"{script} says {answer.errors!r}"
    return None


def wrong_tunables(program):
    """What is wrong with what the scripts pass on to the C library: large pages where they pay, but for who says something else."""
    copy = changed(program, show_tunables, "tunables")
    large, usual, own = "glibc.malloc.hugetlb=1", "", "glibc.malloc.hugetlb=0"
    for words, asked_for in (
        (["./inet", "check"], large),
        (["./inet", "run"], usual),
        (["./inet", "run", "--limit", "100"], usual),
        (["./inet", "run", "--cells", "100"], large),
        (["./inet", "run", "--no-net", "--small-cells=100", "--workers", "1"], large),
        (["./inet", "run", "--workers=2"], usual),
        (["./inet", "run", "--workers=2", "--cells", "100"], large),
        (["./inet_export"], large),
    ):
        for passed, wanted in (({}, asked_for), ({"GLIBC_TUNABLES": own}, own)):
            answer = asked(copy, words, **passed)
            if answer.output.decode() != f"{wanted}\n":
                return f"{words} passes {answer.output!r}, not {wanted!r}"
    return None


def wrong_check(program, change, said, statuses, name):
    """What is wrong with the comparison in a changed copy, outside of a landing and at one."""
    copy = changed(program, change, f"checked {name}")
    for landing, status in zip(("false", "true"), statuses):
        answer = asked(copy, ["dist/keep", "check"], path=f"{copy}/kit:{SYSTEM}", CI=landing)
        if answer.status != status or said not in answer.output.decode():
            return f"CI={landing}: status {answer.status}, {answer.output.decode()!r}"
    return None


def wrong_note(program, change, said, name):
    """What is wrong with what `./inet` answers after a call that noted which program does: it needs no sum of the sources, until this is changed."""
    copy = changed(program, build_too, f"noted {name}")
    stamped = asked(copy, ["dist/keep", "sources"])
    os.makedirs(os.path.join(copy, "blunt"))
    for command in ("sha256sum", "awk"):
        with open(os.path.join(copy, "blunt", command), "w", encoding="utf-8") as file:
            print("#!/bin/sh\nexit 1", file=file)
        os.chmod(os.path.join(copy, "blunt", command), 0o755)
    # What was just written is looked at again a second later.
    time.sleep(2)
    first = asked(copy, ["./inet", "--version"])
    again = asked(copy, ["./inet", "--version"], path=f"{copy}/blunt:{SYSTEM}")
    if (first.status, stamped.status) != (ACCEPTED, ACCEPTED) or (again.output, again.errors) != (first.output, b""):
        return f"{first}, {first.errors!r}, and then {again}, {again.errors!r}"
    change(copy)
    then = asked(copy, ["./inet", "--version"])
    return None if said in then.errors.decode() and bool(said) == bool(then.errors) else f"after the change: {then}, {then.errors!r}"


def remove_built(copy):
    os.remove(built_at(copy, "inet"))


def wrong_words(run, words, status, said):
    """What is wrong with what is answered to words for help or the version, or to wrong ones."""
    answer = run(words)
    stream = answer.output if status == ACCEPTED else answer.errors
    other = answer.errors if status == ACCEPTED else answer.output
    return None if answer.status == status and stream.decode().startswith(said) and not other else f"{answer}, {answer.errors!r}"


def kept(program):
    room = os.path.join(program.room, "exporter")
    os.mkdir(room)
    exporter = Program(EXPORTER, room)
    exporter.path = EXPORTER
    crate = os.path.join(TOP, "crates", "in_version", "src")
    constants = {}
    for file in ("lib.rt", "sources.rt"):
        with open(os.path.join(crate, file), encoding="utf-8") as text:
            constants.update(STAMP.findall(text.read()))
    version = f" {constants['VERSION']} ({constants['SOURCES']})\n"
    for word in ("--version", "-V"):
        yield f"inet {word}", answering(partial(program.run, [word]), ACCEPTED, f"inet{version}".encode())
        yield f"inet_export {word}", answering(partial(exporter.run, [word]), ACCEPTED, f"inet_export{version}".encode())
    for word in ("--help", "-h"):
        yield f"inet_export {word}", partial(wrong_words, exporter.run, [word], ACCEPTED, "Writes an accepted program")
    for words in (["--now"], ["sum.inet", "max.inet"], ["--help", "--help"], ["--version", "now"]):
        yield f"inet_export {' '.join(words)}", partial(wrong_words, exporter.run, words, WRONG_WORDS, "Writes an accepted program")
    build = lambda words: asked(TOP, ["./build", *words])
    yield "build --help", partial(wrong_words, build, ["--help"], ACCEPTED, "Proves `inet`")
    yield "build inet", partial(wrong_words, build, ["inet"], WRONG_WORDS, "build: takes no words")
    for name, (change, said) in ANSWERED.items():
        yield f"./inet {name}", partial(wrong_answer, program, exporter, change, said, name)
    for name, (change, said) in NOTED.items():
        yield f"./inet noted, {name}", partial(wrong_note, program, change, said, name)
    for name, (change, said) in UNANSWERED.items():
        yield f"./inet {name}", partial(wrong_refusal, program, change, said, name)
    yield "large pages", partial(wrong_tunables, program)
    for name, (change, said, *statuses) in CHECKED.items():
        yield f"dist/keep check {name}", partial(wrong_check, program, change, said, statuses, name)
