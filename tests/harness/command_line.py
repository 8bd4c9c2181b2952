"""The man pages and completions are made from what the programs say of themselves, each option stands in each of them, and bash takes them, as do
zsh and fish, where they are there."""
import os
import re
import shutil
import subprocess
import sys
from functools import partial

from harness.export import BUILT
from harness.programs import EXAMPLES, HERE

TOP = os.path.normpath(os.path.join(HERE, "..", ".."))
COMPLETIONS = os.path.join(TOP, "completions")
# No shell may take longer, in seconds.
WAIT = 120
sys.path.insert(0, os.path.join(TOP, "tools"))
import command_line as files  # noqa: E402  (the tools stand beside the tests)
import made_files  # noqa: E402

# What each shell offers: the words so far, of which the last is being written.
OFFERED = {
    ("inet", "c"): ["check"],
    ("inet", "ru"): ["run"],
    ("inet", "he"): ["help"],
    ("inet", "run", "--li"): ["--limit"],
    ("inet", "run", "--no"): ["--no-net"],
    ("inet", "run", "--sm"): ["--small-cells"],
    ("inet", "run", "--wide-cells", ""): [],
    ("inet", "run", "--limit", ""): [],
    ("inet", "check", "--s"): [],
    ("inet", "check", "waits_for_itself.i"): ["waits_for_itself.inet"],
    ("inet", "help", "d"): ["derive"],
    ("inet_export", "--v"): ["--version"],
    ("inet_export", "waits_for_itself.i"): ["waits_for_itself.inet"],
    ("inet_c", "--la"): ["--large"],
    ("inet_c", "--wo"): [],
    ("inet_c", "--order", "q"): ["queue"],
    ("inet_c", "--order", "queue", "waits_for_itself.i"): ["waits_for_itself.inet"],
    ("inet_c", "sum.inet", "--wo"): ["--workers"],
    ("inet_c", "sum.inet", "--la"): [],
    ("inet_c", "--large", "sum.inet", "--limit", ""): [],
}


# What zsh runs at a terminal of its own: it prints each word that it would offer, and ends. A return in what is written does nothing.
INNER = r"""
PS1= RPS1= PS2=
fpath=($COMPLETIONS $fpath)
autoload -Uz compinit
compinit -u -D
bindkey '^M' undefined-key
bindkey '^J' undefined-key
bindkey '^I' complete-word
compadd() {
  local -a offered
  if [[ ${@[1,(i)(-|--)]} == *-(O|A|D)\ * ]]; then builtin compadd "$@"; return; fi
  builtin compadd -A offered "$@"
  builtin compadd "$@"
  local status_=$?
  print -rl -- "offered:"$^offered
  return status_
}
ends() { print -r -- "ended:"; exit; }
comppostfuncs=(ends)
print -r -- "begun:"
"""
# Calls that one: with the file that has it, and the words so far.
OUTER = r"""
zmodload zsh/zpty
zpty inner zsh -f -i
zpty -w inner "source '$1'"
while zpty -r inner line; do if [[ $line == begun:* ]]; then break; fi; done
zpty -w -n inner "$2"$'\t'
while zpty -r inner line; do print -rn -- "$line"; if [[ $line == *ended:* ]]; then break; fi; done
"""


def asked(room, *command):
    """What a shell prints on examples/."""
    environment = {**os.environ, "HOME": room, "XDG_CONFIG_HOME": room, "XDG_DATA_HOME": room, "TERM": "dumb", "COMPLETIONS": COMPLETIONS}
    ran = subprocess.run(command, cwd=EXAMPLES, env=environment, stdin=subprocess.DEVNULL, stdout=subprocess.PIPE, stderr=subprocess.PIPE, timeout=WAIT, check=False)
    return ran.stdout.decode() + ran.stderr.decode()


def offered_by_bash(room, words):
    script = f"""source "$0"; compopt() {{ :; }}; COMP_WORDS=("$@"); COMP_CWORD=$(($# - 1)); _{words[0]}; printf '%s\\n' "${{COMPREPLY[@]}}" """
    return asked(room, "bash", "-c", script, os.path.join(COMPLETIONS, "inet.bash"), *words).split()


def offered_by_fish(room, words):
    script = "source $argv[1]; complete -C $argv[2]"
    printed = asked(room, "fish", "--no-config", "-c", script, os.path.join(COMPLETIONS, "inet.fish"), " ".join(words))
    return [line.split("\t")[0] for line in printed.splitlines()]


def offered_by_zsh(room, words):
    printed = asked(room, "zsh", "-f", "-c", OUTER, "zsh", os.path.join(room, "inner.zsh"), " ".join(words))
    return re.findall(r"offered:(\S+)", printed) if "ended:" in printed else [printed]


def wrong_offer(offered, room, words, wanted):
    """What is wrong with what a shell offers."""
    found = offered(room, words)
    return None if found == wanted else f"{found}; wanted: {wanted}"


def wrong_option(option, name, text):
    """What is wrong where an option doesn't stand in a file."""
    plain = re.sub(r"\\f[BIR]", " ", text).replace("\\", "")
    word = re.escape(option.lstrip("-") if name.endswith(".fish") else option)
    return None if re.search(rf"(?<![\w-]){word}(?![\w-])", plain) else f"{option} isn't there"


def command_line(program):
    paths = [program.path, BUILT]
    yield "man pages and completions", lambda: "; ".join(made_files.all_wrong(files.made, files.superfluous, paths)) or None
    for path, name in zip((*paths, files.SCRIPT), files.NAMES):
        command = files.command_of(path, name)
        options = {long for one in (command, *command.commands) for option in one.options + one.behind for long in option.names()}
        for file in (f"man/{name}.1", *(file for file in files.FILES if file.startswith("completions/"))):
            text = (made_files.read(file) or b"").decode()
            for option in sorted(options):
                yield f"{file}: {name} {option}", partial(wrong_option, option, file, text)
    room = os.path.join(program.room, "shells")
    os.mkdir(room)
    with open(os.path.join(room, "inner.zsh"), "w", encoding="utf-8") as file:
        file.write(INNER)
    for shell, offered in (("bash", offered_by_bash), ("zsh", offered_by_zsh), ("fish", offered_by_fish)):
        for words, wanted in OFFERED.items() if shutil.which(shell) else ():
            yield f"{shell} offers after {' '.join(words)!r}", partial(wrong_offer, offered, room, words, wanted)
