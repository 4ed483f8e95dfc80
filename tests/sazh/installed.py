"""`install.sh`, and the completions that it installs: they name the options that the program's help names, and each shell that is here takes them."""

import shutil
import subprocess
from pathlib import Path

from completions import FOLDER, made, read

TOP = Path(__file__).resolve().parents[2]
PLACES = {
    "bin/sazh": 0o755,
    "share/man/man1/sazh.1": 0o644,
    "share/bash-completion/completions/sazh": 0o644,
    "share/zsh/site-functions/_sazh": 0o644,
    "share/fish/vendor_completions.d/sazh.fish": 0o644,
    "share/doc/sazh/BUILD": 0o644,
}


def lines_of(*words):
    return subprocess.run(words, stdin=subprocess.DEVNULL, capture_output=True, check=False, text=True).stdout.split("\n")


def in_bash(file, *words):
    """What bash offers for the last of the words behind `sazh`."""
    line = f'source "$0"; COMP_WORDS=(sazh "$@"); COMP_CWORD=$#; _sazh; printf "%s\\n" "${{COMPREPLY[@]}}"'
    return set(lines_of("bash", "-c", line, str(file), *words)) - {""}


def installs(runs):
    """It installs six files, and the program among them is this one."""
    for name, text in made(runs.program).items():
        runs.ends(f"completions/{name} is what tests/sazh/completions.py makes", FOLDER.joinpath(name).read_text("ascii") == text)
    prefix = runs.path("prefix")
    done = subprocess.run([TOP / "install.sh", "--built", prefix], stdin=subprocess.DEVNULL, capture_output=True, check=False, text=True)
    told = [str(prefix / place) for place in PLACES]
    runs.ends(f"install.sh: {done}", done.returncode == 0 and done.stdout.splitlines() == told and not done.stderr)
    for place, mode in PLACES.items():
        runs.ends(f"{place} is installed", prefix.joinpath(place).stat().st_mode & 0o777 == mode)
    installed = subprocess.run([prefix / "bin/sazh", "--version"], stdin=subprocess.DEVNULL, capture_output=True, check=False)
    runs.ends(f"what is installed runs: {installed}", installed.returncode == 0 and installed.stdout == runs.run(["--version"]).stdout)
    kit = subprocess.run(["rt", "version"], capture_output=True, check=True).stdout
    lines = (prefix / "share/doc/sazh/BUILD").read_bytes().splitlines(keepends=True)
    good = lines[0] == installed.stdout and lines[1].startswith(b"commit ") and lines[2] == b"kit " + kit
    runs.ends(f"the version, the commit and the kit are noted: {lines}", good and len(lines) == 3)
    done = subprocess.run([TOP / "install.sh", "--built", prefix, prefix], stdin=subprocess.DEVNULL, capture_output=True, check=False, text=True)
    runs.ends(f"install.sh of two places: {done}", done.returncode == 2 and done.stderr.startswith("usage: "))
    completes(runs, prefix)


def completes(runs, prefix):
    commands, by_command = read(runs.program)
    names = {name for name, _ in commands}
    file = prefix / "share/bash-completion/completions/sazh"
    runs.ends("bash offers the commands", names <= in_bash(file, ""))
    for command, options in by_command.items():
        words = [command] if command else []
        wanted = {f"--{long}" for _, long, _, _ in options}
        runs.ends(f"bash offers the long options of {command or 'no command'}", in_bash(file, *words, "--") == wanted)
    runs.ends("bash offers files for the value of -o", str(prefix) + "/bin" in in_bash(file, "-o", f"{prefix}/b"))
    runs.ends("bash offers nothing for the value of -r", not in_bash(file, "-r", ""))
    if shutil.which("zsh"):
        done = subprocess.run(["zsh", "-n", prefix / "share/zsh/site-functions/_sazh"], capture_output=True, check=False)
        runs.ends(f"zsh reads its completions: {done}", done.returncode == 0 and not done.stderr)
    if shutil.which("fish"):
        file = prefix / "share/fish/vendor_completions.d/sazh.fish"
        for command, options in by_command.items():
            offered = lines_of("fish", "--no-config", "-c", f"source {file}; complete -C 'sazh {command} --'")
            wanted = {f"--{long}" for _, long, _, _ in options}
            runs.ends(f"fish offers the long options of {command or 'no command'}: {offered}", {it.partition("\t")[0] for it in offered if it} == wanted)
