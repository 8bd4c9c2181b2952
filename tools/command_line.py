#!/usr/bin/env python3
"""The man pages in man/ and the completions in completions/, from the one definition of the command line: from what the programs print for
--help.

Usage: tools/command_line.py make [INET INET_EXPORT]      writes these files
       tools/command_line.py check [INET INET_EXPORT]     names those that are missing, too many or have other bytes

INET and INET_EXPORT are the programs, by default those that were built here. The third program is the script `inet_c`.
"""
import os
import re
import subprocess
from dataclasses import dataclass

import made_files
import streams

NAMES = ("inet", "inet_export", "inet_c")
SCRIPT = os.path.join(made_files.TOP, "inet_c")
FILES = (*(f"man/{name}.1" for name in NAMES), "completions/inet.bash", "completions/_inet", "completions/inet.fish")
# A line of a list in help: the words, and what is said of them.
ENTRY = re.compile(r"^ {2,}(\S.*?) {2,}(\S.*)$")
# An option's short and long name, and what stands for its value.
OPTION = re.compile(r"^(?:(-\w)(?:, )?)?(--[\w-]+)?(?: <(\w+)>)?$")
VALUES = re.compile(r" \[possible values: (.*)\]$")
USUAL = re.compile(r" \[default: (.*)\]$")
# What no help says.
STATUSES = (
    ("0", "The program is accepted; its run has come to its end; help or the version was asked for."),
    ("1", "The program is refused."),
    ("2", "The words are wrong."),
    ("3", "The run stopped at its limit."),
    ("4", "The run stopped for lack of cells, or the net doesn't fit the cells."),
    ("5", "Out of memory."),
    ("6", "A file or a stream could not be read or written."),
    ("70", "The program can't be compiled, as a line on standard error says."),
)
# What the man pages say beside that: what a program is for, which statuses it has, variables, and examples.
ABOUT = {
    "inet": (
        "The language is that of Yves Lafont, \"Interaction Nets\" (POPL 1990). A program that is accepted never blocks, in any order of interactions, and each of its runs that ends prints the same.",
        "0123456",
        (("NO_COLOR", "Where it is set and not empty, a diagnosis has no colours at a terminal."),),
        (("inet check sum.inet", "Says whether the program is accepted."), ("inet run --no-net --stats sum.inet", "Counts its interactions, and tells how fast they were.")),
    ),
    "inet_export": (
        "The data is one JSON object on one line. Of a program that is refused the line is that of \\fBinet check\\fR.",
        "01256",
        (),
        (("inet_export sum.inet | python3 -m json.tool", "Shows the program as data."),),
    ),
    "inet_c": (
        "What the compiled program prints is what \\fBinet run\\fR prints, or at a limit another net that interactions lead to; unlike that it isn't proved. Of a program that is refused the line is that of \\fBinet check\\fR. What was compiled is kept.",
        "0123567",
        (
            ("CC, CFLAGS", "The C compiler and its options, usually cc and -O2."),
            ("INET_C_KEPT", "The folder in which compiled programs are kept, usually out/inet_c beside the script. It may be removed at any time."),
        ),
        (("inet_c sum.inet --limit 1000000000 --workers 4", "Runs the program, compiled, with four workers."),),
    ),
}


@dataclass(frozen=True)
class Option:
    """An option: its names, what stands for its value, what it is for, its values, if they are known, and the usual one."""

    short: str
    long: str
    value: str
    what: str
    values: tuple[str, ...]
    usual: str

    def names(self):
        return [name for name in (self.short, self.long) if name]


@dataclass(frozen=True)
class Command:
    """A command: what it does, how it is called, its arguments, its options, those that stand behind its file, and its commands."""

    name: str
    what: str
    usage: str
    arguments: tuple[tuple[str, str], ...]
    options: tuple[Option, ...]
    behind: tuple[Option, ...]
    commands: tuple["Command", ...]

    def takes_file(self):
        return any("FILE" in name for name, _what in self.arguments)


# ---- the definition


def help_of(path, words):
    """What a program prints for --help."""
    try:
        ran = subprocess.run([path, *words, "--help"], stdin=subprocess.DEVNULL, stdout=subprocess.PIPE, check=False)
    except OSError as error:
        raise streams.Refused(f"{path} can't be run: {error.strerror}") from None
    if ran.returncode != 0:
        raise streams.Refused(f"{path} {' '.join(words)} --help: status {ran.returncode}")
    return ran.stdout.decode()


def entries(text, title):
    """The lines of a list in help."""
    found = re.search(rf"^{title}:\n((?: .*\n)*)", text, re.MULTILINE)
    return [ENTRY.match(line).groups() for line in found[1].splitlines()] if found else []


def option_in(names, what):
    """An option of a line of help."""
    short, long, value = OPTION.match(names).groups(default="")
    values = VALUES.search(what)
    what = VALUES.sub("", what)
    usual = USUAL.search(what)
    return Option(short, long, value, USUAL.sub("", what), tuple(values[1].split(", ")) if values else (), usual[1] if usual else "")


def command_of(path, name, words=()):
    """A command as a program's help has it."""
    text = help_of(path, words)
    usage = re.search(r"^Usage: \S+ ?(.*)$", text, re.MULTILINE)[1]
    below = [word for word, _what in entries(text, "Commands") if word != "help"]
    return Command(
        name=name,
        what=text.split("\n", 1)[0],
        usage=usage,
        arguments=tuple(entries(text, "Arguments")),
        options=tuple(option_in(*entry) for entry in entries(text, "Options")),
        behind=tuple(option_in(*entry) for entry in entries(text, "Options behind FILE")),
        commands=tuple(command_of(path, word, (*words, word)) for word in below),
    )


# ---- man pages


def roff(text):
    """The text as roff has it."""
    escaped = text.replace("\\", "\\e").replace("-", "\\-")
    return "\\&" + escaped if escaped[:1] in (".", "'") else escaped


def roff_options(options):
    for option in options:
        names = ", ".join(f"\\fB{roff(name)}\\fR" for name in option.names())
        yield f".TP\n{names}" + (f" \\fI{option.value}\\fR" if option.value else "")
        yield roff(option.what) + "." + (f" Usually {roff(option.usual)}." if option.usual else "")


def man_page(command):
    """The man page of a program."""
    name = command.name
    description, statuses, variables, examples = ABOUT[name]
    lines = [
        f".\\\" Made by tools/command_line.py from {name} --help.",
        f'.TH {name.upper()} 1 "" "" "Interaction nets"',
        ".SH NAME",
        f"{roff(name)} \\- {roff(command.what[0].lower() + command.what[1:])}",
        ".SH SYNOPSIS",
    ]
    for one in command.commands or (command,):
        lines += [".br", f"\\fB{roff(name)}\\fR {roff(one.usage)}"]
    lines += [".SH DESCRIPTION", description]
    for one in command.commands:
        lines += [f".SS {roff(name)} {roff(one.usage)}", roff(one.what) + "."]
        for argument, what in one.arguments:
            lines += [f".TP\n\\fI{roff(re.sub(r'[][]', '', argument))}\\fR", roff(what) + "."]
        lines += roff_options(one.options)
    lines.append(".SH OPTIONS")
    for argument, what in command.arguments:
        lines += [f".TP\n\\fI{roff(re.sub(r'[][]', '', argument))}\\fR", roff(what) + "."]
    lines += roff_options(command.options)
    if command.behind:
        lines += [".SS Options behind FILE", *roff_options(command.behind)]
    lines.append(".SH EXIT STATUS")
    for status, what in STATUSES:
        if status[0] in statuses:
            lines += [f".TP\n\\fB{status}\\fR", roff(what)]
    if variables:
        lines.append(".SH ENVIRONMENT")
        lines += [f".TP\n\\fB{variable}\\fR\n{roff(what)}" for variable, what in variables]
    lines.append(".SH EXAMPLES")
    for example, what in examples:
        lines += [f".TP\n\\fB{roff(example)}\\fR", roff(what)]
    lines += [".SH SEE ALSO", ", ".join(f"\\fB{roff(other)}\\fR(1)" for other in NAMES if other != name)]
    return "\n".join(lines) + "\n"


# ---- completions


def words_for(options):
    """All names of these options."""
    return [name for option in options for name in option.names()]


def bash_values(options):
    """The cases of options behind which a value stands."""
    unknown = "|".join(words_for(option for option in options if option.value and not option.values))
    cases = [f"{unknown}) return ;;"] if unknown else []
    cases += [f"{'|'.join(option.names())}) mapfile -t COMPREPLY < <(compgen -W '{' '.join(option.values)}' -- \"$word\"); return ;;" for option in options if option.values]
    return [f"case $before in {' '.join(cases)} esac"] if cases else []


def bash(programs):
    """Completions for bash."""
    lines = [
        "# Made by tools/command_line.py from --help: completions for bash. Source this file.",
        "# What may stand in place of the word: programs and folders where `files` isn't empty, else one of the words.",
        "_inet_offer() {",
        "  local files=$1 word=$2 words=$3",
        "  if [[ $files && $word != -* ]]; then",
        "    compopt -o filenames",
        "    mapfile -t COMPREPLY < <(compgen -d -- \"$word\"; compgen -f -X '!*.inet' -- \"$word\")",
        "  else",
        "    mapfile -t COMPREPLY < <(compgen -W \"$words\" -- \"$word\")",
        "  fi",
        "}",
    ]
    for program in programs:
        function = f"_{program.name}"
        lines += [f"{function}() {{", "  local word=${COMP_WORDS[COMP_CWORD]} before=${COMP_WORDS[COMP_CWORD-1]} words files="]
        if program.commands:
            lines.append("  if ((COMP_CWORD == 1)); then")
            first = [one.name for one in program.commands] + ["help", *words_for(program.options)]
            lines += [f"    words='{' '.join(first)}'", "  else", "    case ${COMP_WORDS[1]} in"]
            for one in program.commands:
                lines += [f"      {one.name})", *(f"        {case}" for case in bash_values(one.options))]
                lines.append(f"        words='{' '.join(words_for(one.options))}' files=1 ;;")
            lines.append(f"      help) if ((COMP_CWORD == 2)); then words='{' '.join(one.name for one in program.commands)}'; fi ;;")
            lines += ["    esac", "  fi"]
        else:
            lines += [f"  {case}" for case in bash_values(program.options + program.behind)]
            lines.append(f"  words='{' '.join(words_for(program.options))}' files=1")
            if program.behind:
                lines.append(f"  case \"${{COMP_WORDS[*]:1:COMP_CWORD-1}} \" in *.inet\\ *) words='{' '.join(words_for(program.behind))}' ;; esac")
        lines += ['  _inet_offer "$files" "$word" "$words"', "}", f"complete -F {function} {program.name}"]
    return "\n".join(lines) + "\n"


def quoted(text):
    """A text in single quotes, as all three shells take it."""
    return "'" + text.replace("'", "'\\''") + "'"


def zsh_text(text):
    """What zsh says of an option, without the signs that end it."""
    return text.replace("[", "(").replace("]", ")").replace(":", "\\:")


def zsh_options(options):
    for option in options:
        value = f":{option.value}:" if option.value else ""
        value += f"({' '.join(option.values)})" if option.values else ""
        for name in option.names():
            yield quoted(f"{name}[{zsh_text(option.what)}]{value}")


def zsh_arguments(command):
    """The arguments of a command, for `_arguments`."""
    yield from zsh_options(command.options)
    if command.takes_file():
        yield quoted("::file:_files -g '*.inet'")


def zsh(programs):
    """Completions for zsh."""
    lines = [f"#compdef {' '.join(program.name for program in programs)}", "# Made by tools/command_line.py from --help: completions for zsh. Put it on `fpath`."]
    for program in programs:
        lines.append(f"_{program.name}() {{")
        if program.commands:
            lines.append("  local -a commands")
            described = [f"{one.name}:{zsh_text(one.what)}" for one in program.commands] + ["help:Print help"]
            lines.append("  commands=(" + " ".join(quoted(one) for one in described) + ")")
            lines.append("  if ((CURRENT == 2)); then")
            lines += ["    _describe command commands", "    _arguments " + " ".join(zsh_arguments(program)), "    return", "  fi"]
            lines += ["  local command=$words[2]", "  shift words", "  ((CURRENT--))", "  case $command in"]
            for one in program.commands:
                lines.append(f"    {one.name}) _arguments {' '.join(zsh_arguments(one))} ;;")
            lines += ["    help) _describe command commands ;;", "  esac"]
        else:
            if program.behind:
                lines.append("  if [[ \"${(j: :)words[1,CURRENT-1]} \" == *.inet\\ * ]]; then")
                lines += ["    _arguments " + " ".join([*zsh_options(program.behind), "'*:file:_files'"]), "    return", "  fi"]
            lines.append("  _arguments " + " ".join(zsh_arguments(program)))
        lines.append("}")
    lines.append("case $service in")
    lines += [f"  {program.name}) _{program.name} ;;" for program in programs]
    lines.append("esac")
    return "\n".join(lines) + "\n"


def fish_options(program, options, condition):
    for option in options:
        names = (f" -s {option.short[1:]}" if option.short else "") + (f" -l {option.long[2:]}" if option.long else "")
        value = (" -x" if option.value else "") + (f" -a '{' '.join(option.values)}'" if option.values else "")
        yield f"complete -c {program.name}{condition}{names}{value} -d {quoted(option.what)}"


def fish(programs):
    """Completions for fish."""
    lines = ["# Made by tools/command_line.py from --help: completions for fish."]
    files = '-f -a "(__fish_complete_suffix .inet)"'
    for program in programs:
        if not program.commands:
            before, behind = (f" -n '{no}string match -qr \"\\\\.inet \" -- (commandline -cp)'" for no in ("not ", "")) if program.behind else ("", "")
            lines += [f"complete -c {program.name} {files}", *fish_options(program, program.options, before), *fish_options(program, program.behind, behind)]
            continue
        names = " ".join(one.name for one in program.commands)
        first = f" -n 'not __fish_seen_subcommand_from {names} help'"
        lines.append(f"complete -c {program.name} -f")
        for one in program.commands:
            lines.append(f"complete -c {program.name}{first} -a {one.name} -d {quoted(one.what)}")
        lines.append(f"complete -c {program.name}{first} -a help -d 'Print help'")
        lines += fish_options(program, program.options, first)
        for one in program.commands:
            inside = f" -n '__fish_seen_subcommand_from {one.name}'"
            lines += [f"complete -c {program.name}{inside} {files}", *fish_options(program, one.options, inside)]
        lines.append(f"complete -c {program.name} -n '__fish_seen_subcommand_from help' -a '{names}'")
    return "\n".join(lines) + "\n"


# ---- the files


def made(*paths):
    """The bytes of each file, from the paths of the two programs."""
    programs = [command_of(path, name) for path, name in zip((*paths, SCRIPT), NAMES)]
    texts = [*map(man_page, programs), bash(programs), zsh(programs), fish(programs)]
    return zip(FILES, (text.encode() for text in texts))


def superfluous():
    """Other files beside these."""
    folders = sorted({os.path.dirname(file) for file in FILES})
    beside = [f"{folder}/{file}" for folder in folders for file in sorted(os.listdir(os.path.join(made_files.TOP, folder)))]
    return [file for file in beside if file not in FILES]


if __name__ == "__main__":
    made_files.run(__doc__, made, superfluous, "the man pages and completions are as they should be")
