#!/usr/bin/env python3
"""Whether each crate's edits of edits/CRATE were tried on what stands here. `edits/TRIED` has a line for each crate, which edits/run.sh writes once every
edit of it was refused: the digest of the crate's own files and edits, that of the faces of all crates below it, the kit's logic, how many edits were refused,
and the day.

Where the crate's own files or edits have changed since, this fails and names the command to run. Where only a face below or the logic has, or there is no
line yet, the crate is told as stale. A face is what the prover knows of a crate from above: its sources without the bodies of functions, and its definitions. The comments that
stand on lines of their own count nowhere. Takes a second; the last line is 'N passed, M failed'.
"""
import functools
import glob
import hashlib
import os
import re
import subprocess
import sys

TOP = os.path.dirname(os.path.dirname(os.path.abspath(__file__)))
HEAD = "# crate, its own digest, that of the faces below it, the kit's logic, edits refused, day: written by edits/run.sh\n"
# The head of a function in the layout of `rt fmt`.
FUNCTION = re.compile(r'( *)(?:pub(?:\(\w+\))? )?(?:(?:const|unsafe|extern "C") )*fn ')


def uses(top):
    """The crates of crates.txt, each with those of them that it uses."""
    with open(f"{top}/crates.txt", encoding="utf-8") as file:
        lines = [line.partition("#")[0].partition(":") for line in file]
    words = {name.split()[0]: below.split() for name, _, below in lines if name.strip()}
    return {name: [it for it in below if it in words] for name, below in words.items()}


def below(name, found):
    return {it for used in found[name] for it in {used, *below(used, found)}}


def said(path):
    """The lines of a file but for those that are comments."""
    with open(path, encoding="utf-8") as file:
        lines = file.read().split("\n")
    mark = "//" if path.endswith(".rt") else "--"
    return [it for it in lines if not it.lstrip().startswith(mark)]


def end_of_head(lines, at, indent):
    """The line whose last character opens the body of the function that begins at a line. None where it has no body, or this can't be told."""
    for number in range(at, len(lines)):
        line = lines[number]
        if line == f"{indent}{{" or (line.endswith(" {") and (number == at or line.startswith(f"{indent})"))):
            return number
        if line.endswith(";") and (number == at or not line.startswith(f"{indent} ")):
            return None
        if number > at and line.startswith(f"{indent}}}"):
            return None
    return None


def without_bodies(lines):
    """Sources without the bodies of functions. What can't be told stays, so that it counts."""
    kept, at = [], 0
    while at < len(lines):
        found = FUNCTION.match(lines[at])
        end = end_of_head(lines, at, found[1]) if found else None
        close = f"{found[1]}}}" if found else None
        if end is None or close not in lines[end:]:
            kept.append(lines[at])
            at += 1
        else:
            kept += lines[at : end + 1]
            at = lines.index(close, end)
    return kept


def files(folder, *parts):
    for part in parts:
        for at, folders, names in os.walk(f"{folder}/{part}"):
            folders.sort()
            yield from (f"{at}/{it}" for it in sorted(names))


def add(digest, path, top, lines):
    text = "\n".join(lines)
    digest.update(f"{os.path.relpath(path, top)} {len(text)}\n{text}\n".encode())


def face(top, name):
    """A digest of what the prover knows of a crate from above."""
    digest = hashlib.sha256()
    for path in files(f"{top}/crates/{name}", "src", "specs"):
        lines = said(path)
        add(digest, path, top, without_bodies(lines) if path.endswith(".rt") else lines)
    return digest.hexdigest()


def own(top, name):
    """A digest of a crate's files and its edits."""
    digest = hashlib.sha256()
    for path in [*files(f"{top}/crates/{name}", "src", "specs", "proofs"), *edits(top, name)]:
        add(digest, path, top, said(path))
    return digest.hexdigest()


def edits(top, name):
    return sorted(glob.glob(f"{top}/edits/{name}/*.edit"))


@functools.lru_cache(maxsize=None)
def logic():
    """The sum of the kit's logic, the last word of `rt version`."""
    return subprocess.run(["rt", "version"], capture_output=True, check=True, text=True).stdout.split()[-1]


def digests(top, name, found, faces):
    """What a crate's line says of what its edits are tried on. `faces` keeps the digests that were made."""
    for it in below(name, found):
        faces[it] = faces.get(it) or face(top, it)
    under = hashlib.sha256("\n".join(f"{it} {faces[it]}" for it in sorted(below(name, found))).encode()).hexdigest()
    return own(top, name)[:16], under[:16], logic()


def lines_of(top):
    """The lines of edits/TRIED, by crate."""
    try:
        with open(f"{top}/edits/TRIED", encoding="utf-8") as file:
            return {line.split()[0]: line.split()[1:] for line in file if line.strip() and not line.startswith("#")}
    except FileNotFoundError:
        return {}


def write_line(name, told, refused, day):
    """Puts the line of a crate into edits/TRIED. `told` is what `digests` made."""
    lines = {**lines_of(TOP), name: [*told, str(refused), day]}
    with open(f"{TOP}/edits/TRIED.new", "w", encoding="utf-8") as file:
        file.write(HEAD + "".join(f"{it} {' '.join(lines[it])}\n" for it in sorted(lines)))
    os.replace(f"{TOP}/edits/TRIED.new", f"{TOP}/edits/TRIED")


def with_edits(top):
    return sorted(os.path.basename(os.path.dirname(it)) for it in glob.glob(f"{top}/edits/*/"))


def changed(top):
    """The crates whose own files or edits aren't those of their line, and those that are stale with the reason."""
    found, lines, faces = uses(top), lines_of(top), {}
    own_changed, stale = [], {}
    for name in with_edits(top):
        line = lines.get(name, [])
        now = digests(top, name, found, faces)
        if not line:
            stale[name] = "no line is there"
        elif line[0] != now[0]:
            own_changed.append(name)
        elif tuple(line[:3]) != now:
            stale[name] = f"what it stands on has changed since {line[4]}"
    return own_changed, stale


def main():
    own_changed, stale = changed(TOP)
    names = with_edits(TOP)
    gone = [it for it in lines_of(TOP) if it not in names]
    for it in own_changed:
        print(f"edits/TRIED: {it} isn't what its edits were tried on: edits/run.sh {it}")
    for it in gone:
        print(f"edits/TRIED: there are no edits of {it}: take its line out")
    for it, why in stale.items():
        print(f"{it} is stale: {why} (edits/run.sh --stale tries its edits)")
    failed = len(own_changed) + len(gone)
    print(f"{len(names) - len(own_changed)} passed, {failed} failed{f', {len(stale)} stale' if stale else ''}")
    return 1 if failed or not names else 0


if __name__ == "__main__":
    sys.exit(main())
