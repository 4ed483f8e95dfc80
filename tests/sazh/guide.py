"""The recipes of the guide (docs/SAZH.md): each runs as it stands there, in bash, one after the other in one folder."""

import os
import re
import shutil
import subprocess
from pathlib import Path

GUIDE = Path(__file__).resolve().parents[2] / "docs/SAZH.md"
# The passphrase, on standard input for the recipe that reads it, and as a password manager shows it.
PASSPHRASE = b"correct horse battery staple\n"
PASS = "#!/bin/sh\n[ \"$*\" = 'show notes' ] && printf 'correct horse battery staple\\n'\n"


def recipes():
    """The blocks of shell in the guide's recipes, with the headings that they stand under."""
    text = GUIDE.read_text("utf-8")
    part = text[text.index("## Recipes") : text.index("## What it says")]
    found, heading = [], ""
    for match in re.finditer(r"^### ([^\n]*)$|^```sh\n(.*?)^```$", part, re.MULTILINE | re.DOTALL):
        heading = match[1] or heading
        if match[2]:
            found.append((heading, match[2]))
    return found


def guides(runs):
    """Each recipe ends with the status 0, and what they make is what they say."""
    folder = runs.path("guide")
    folder.mkdir()
    at = lambda name: folder / name
    words = folder / "words"
    words.mkdir()
    os.symlink(runs.program, words / "sazh")
    (words / "pass").write_text(PASS, "ascii")
    (words / "pass").chmod(0o755)
    notes, disk, photo = os.urandom(3_000), os.urandom(1_500_000), os.urandom(100_000)
    at("notes.txt").write_bytes(notes)
    at("disk.img").write_bytes(disk)
    at("photos").mkdir()
    at("photos/sea.jpg").write_bytes(photo)
    at("other.txt").write_bytes(runs.run(["keygen"]).stdout)
    environment = {**os.environ, "PATH": f"{words}:{os.environ['PATH']}"}
    found = recipes()
    runs.ends(f"the guide has recipes: {len(found)}", len(found) >= 10)
    shown = []
    for heading, recipe in found:
        if "config.age" in recipe:
            shutil.copy(at("notes.age"), at("config.age"))
        done = subprocess.run(["bash", "-e", "-c", recipe], input=PASSPHRASE, capture_output=True, check=False, cwd=folder, env=environment)
        runs.ends(f"{heading}: {done}", done.returncode == 0)
        shown.append(done.stdout)
    for name in ("notes.out", "config", "secret.out", "again.out", "plan.out"):
        runs.ends(f"{name} is what was encrypted", at(name).is_file() and at(name).read_bytes() == notes)
    runs.ends("the folder is restored", at("restored/photos/sea.jpg").read_bytes() == photo)
    runs.ends("the part is those bytes", at("piece").read_bytes() == disk[1_000_000:1_004_096])
    runs.ends("the armor is text", at("notes.asc").read_bytes().startswith(b"-----BEGIN AGE ENCRYPTED FILE-----\n"))
    runs.ends("what is verified is told", sum(it.startswith(b"length ") for it in shown) == 2)
