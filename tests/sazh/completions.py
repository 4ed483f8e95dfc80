#!/usr/bin/env python3
"""Makes the completions of `sazh` for bash, zsh and fish from what its `--help` says: completions.py PROGRAM writes them to `completions/`.

So each option of each command is there, with its help, and none that the program lacks. tests/sazh/run.py compares them with what the program says.
"""

import os
import re
import subprocess
import sys
from pathlib import Path

FOLDER = Path(__file__).resolve().parents[2] / "completions"
MADE = "made by tests/sazh/completions.py from its --help"
# Values that name files. Other values, as a recipient or a number, have no completion.
FILES = {"FILE", "OUT"}
OPTION = re.compile(r"^ {2,6}(?:-(?P<short>\w), )?--(?P<long>[\w-]+)(?: <(?P<value>\w+)>)?(?:  +(?P<help>.*))?$")
COMMAND = re.compile(r"^  (\w+)  +(.*)$")


def parts(program, words):
    """The lines of a help, by the heading that they stand under."""
    text = subprocess.run([program, *words, "--help"], stdin=subprocess.DEVNULL, capture_output=True, check=True).stdout.decode()
    found, heading = {}, ""
    for line in text.splitlines():
        if re.fullmatch(r"[A-Z]\w+:", line):
            heading = line[:-1]
        elif not line:
            heading = ""
        else:
            found.setdefault(heading, []).append(line)
    return found


def options(found):
    """The options of a help: short name, long name, value and help."""
    matches = [OPTION.match(line) for line in found["Options"]]
    if None in matches:
        raise ValueError(f"no option: {found['Options']}")
    return [(it["short"], it["long"], it["value"], it["help"] or "") for it in matches]


def read(program):
    """The commands with what each does, and the options of each, where the empty name stands for no command."""
    top = parts(program, [])
    # (what a command does may go on in a line that begins with more spaces)
    matches = [COMMAND.match(line) for line in top["Commands"]]
    commands = [it.groups() for it in matches if it]
    return commands, {"": options(top), **{name: options(parts(program, [name])) for name, _ in commands}}


def names(option):
    short, long, _, _ = option
    return ([f"-{short}"] if short else []) + [f"--{long}"]


def bash(commands, by_command):
    every = {name: option for them in by_command.values() for option in them for name in names(option)}
    of = lambda good: "|".join(sorted(name for name, option in every.items() if good(option[2])))
    rows = [f"        {name}) options='{' '.join(it for option in them for it in names(option))}' ;;" for name, them in by_command.items() if name]
    rows.append(f"        *) options='{' '.join(it for option in by_command[''] for it in names(option))}' ;;")
    lines = [
        f"# Completions of sazh for bash, {MADE}.",
        "_sazh() {",
        "    local word=${COMP_WORDS[COMP_CWORD]} before=${COMP_WORDS[COMP_CWORD - 1]} options='' commands=''",
        "    case $before in",
        f"        {of(lambda value: value in FILES)}) mapfile -t COMPREPLY < <(compgen -f -- \"$word\"); return ;;",
        f"        {of(lambda value: value is not None and value not in FILES)}) return ;;",
        "    esac",
        "    case ${COMP_WORDS[1]} in",
        *rows,
        "    esac",
        f"    [[ $COMP_CWORD -ne 1 ]] || commands='{' '.join(name for name, _ in commands)}'",
        "    if [[ $word == -* ]]; then",
        "        mapfile -t COMPREPLY < <(compgen -W \"$options\" -- \"$word\")",
        "    else",
        "        mapfile -t COMPREPLY < <(compgen -W \"$commands\" -- \"$word\"; compgen -f -- \"$word\")",
        "    fi",
        "}",
        "complete -o filenames -F _sazh sazh",
    ]
    return "\n".join(lines) + "\n"


def quoted(text):
    return "'" + text.replace("'", "'\\''") + "'"


def zsh(commands, by_command):
    def spec(option):
        short, long, value, told = option
        told = re.sub(r"([\[\]:])", r"\\\1", told)
        action = "" if value is None else f":{value}:_files" if value in FILES else f":{value}: "
        # An option may come again: which may not, the program says.
        return [quoted(f"*{name}[{told}]{action}") for name in names((short, long, value, told))]

    def block(them):
        return [f"            {it} \\" for option in them for it in spec(option)] + ["            '*:file:_files'"]

    lines = ["#compdef sazh", f"# Completions of sazh for zsh, {MADE}.", "_sazh() {", "    local -a commands", "    commands=("]
    lines += [f"        {quoted(name + ':' + what)}" for name, what in commands]
    lines += ["    )", "    if (( CURRENT == 2 )); then", "        _describe command commands", "    fi", "    case $words[2] in"]
    for name, them in by_command.items():
        if name:
            lines += [f"        {name}) shift words; (( CURRENT-- )); _arguments -s \\", *block(them), "        ;;"]
    lines += ["        *) _arguments -s \\", *block(by_command[""]), "        ;;", "    esac", "}", '_sazh "$@"']
    return "\n".join(lines) + "\n"


def fish(commands, by_command):
    lines = [
        f"# Completions of sazh for fish, {MADE}.",
        "function __sazh_command",
        "    set -l words (commandline -opc)",
        "    test (count $words) -ge 2; and echo $words[2]",
        "end",
        "function __sazh_is",
        "    set -l command (__sazh_command)",
        "    test \"$command\" = $argv[1]",
        "end",
        "function __sazh_is_alone",
        "    set -l command (__sazh_command)",
        f"    not contains -- \"$command\" {' '.join(name for name, _ in commands)}",
        "end",
    ]
    for name, what in commands:
        lines.append(f"complete -c sazh -n 'test (count (commandline -opc)) -eq 1' -a {name} -d {quoted(what)}")
    for name, them in by_command.items():
        when = f"__sazh_is {name}" if name else "__sazh_is_alone"
        for short, long, value, told in them:
            action = "" if value is None else " -r -F" if value in FILES else " -x"
            lines.append(f"complete -c sazh -n '{when}'{f' -s {short}' if short else ''} -l {long}{action} -d {quoted(told)}")
    return "\n".join(lines) + "\n"


def made(program):
    """What the files hold, by their names."""
    said = read(program)
    return {"sazh.bash": bash(*said), "_sazh": zsh(*said), "sazh.fish": fish(*said)}


def main():
    for name, text in made(os.path.abspath(sys.argv[1])).items():
        FOLDER.joinpath(name).write_text(text, "ascii")


if __name__ == "__main__":
    main()
