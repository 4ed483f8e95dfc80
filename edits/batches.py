"""Many edits of a crate in one check: those that bend different functions are applied together, since a function is proved from the contracts of what it
calls and from no other body. An edit counts as refused where the check leaves a goal of its own function open, or where an answer there isn't of its
goal's type any more. Of a function that calls one which isn't proved the check may tell nothing, so what is left of a group is tried once more without
those that it refused. An edit that is left of a group of which none is refused is tried alone.
"""
import glob
import os
import re
import shutil
import subprocess

import apply
import tried

IMPL = re.compile(r"(?:unsafe )?impl\b(.*)")
TRAIT = re.compile(r"(?:pub(?:\(\w+\))? )?(?:unsafe )?trait (\w+)")
OPEN = re.compile(r"^note: (src/\S+):(\d+):\d+: it is not proved", re.MULTILINE)
ANSWER = re.compile(r"^(?:\./)?proofs/(\S+)/(?:Answers|Invariants|Proof)\.antt:\d+:\d+: error: (.*)", re.MULTILINE)
# What such a line says where the edit has taken a name away.
NAMES = re.compile(r"has no field|is not in scope|has no `|was not admitted")


def plain(text):
    """The last name of a path, without its parameters."""
    depth, kept = 0, ""
    for at, it in enumerate(text):
        depth += (it == "<") - (it == ">" and text[at - 1 : at] != "-")
        kept += it if depth == 0 and it != ">" else ""
    found = re.findall(r"\w+", kept.partition(" where")[0])
    return found[-1] if found else ""


def owner(line):
    """What the methods after this line are named after: `Type`, `TypeTrait` or `Trait`, as the prover names them."""
    found = IMPL.match(line)
    if not found:
        named = TRAIT.match(line)
        return named[1] if named else None
    text = found[1].rstrip("{ ")
    depth, at = 0, 0
    if text.startswith("<"):
        for at, it in enumerate(text):
            depth += (it == "<") - (it == ">" and text[at - 1] != "-")
            if depth == 0:
                break
        text = text[at + 1 :]
    trait, of, kind = text.partition(" for ")
    return plain(kind) + plain(trait) if of else plain(trait)


def functions(path, lines):
    """The functions of a source that have a body: of each the lines of its attributes, of its body's beginning and end, and what it is named after with
    its name."""
    module = "" if path == "src/lib.rt" else os.path.basename(path)[: -len(".rt")]
    found, of, at = [], None, 0
    while at < len(lines):
        of = owner(lines[at]) or (None if lines[at] == "}" else of)
        head = tried.FUNCTION.match(lines[at])
        end = tried.end_of_head(lines, at, head[1]) if head else None
        if end is not None and f"{head[1]}}}" in lines[end:]:
            last, first = lines.index(f"{head[1]}}}", end), at
            while lines[first - 1].lstrip().startswith("#["):
                first -= 1
            found.append((first, end, last, (of if head[1] and of else module, re.match(r"\w+", lines[at][head.end() :])[0])))
            at = last
        at += 1
    return found


def read(edit):
    """The pairs of an edit, each with its file."""
    pairs, path, old = [], None, None
    with open(edit, encoding="utf-8") as file:
        for line in file.read().splitlines():
            word, _, text = line.partition(":")
            text = text.removeprefix(" ")
            path, old = (text, old) if word == "file" else (path, text) if word == "old" else (path, old)
            if word == "new":
                pairs.append((path, old, text))
    return pairs


def bent(edit, sources, bodies):
    """The lines that an edit changes, by file and number, and where the one function whose body it bends begins. None where it bends anything else."""
    texts, changed, found = {}, {}, set()
    for path, old, new in read(edit):
        if path not in sources:
            return None
        texts[path] = texts.get(path, "\n".join(sources[path])).replace(old, new)
    for path, text in texts.items():
        now = text.split("\n")
        if len(now) != len(sources[path]):
            return None
        for number, line in enumerate(now):
            if line != sources[path][number]:
                changed[path, number] = line
                found |= {(path, first) for first, body, last, _ in bodies[path] if body < number < last} or {None}
    return None if len(found) != 1 or None in found else (changed, found.pop())


def group_of(left):
    """Edits of which no two bend the same function."""
    group = {}
    for edit, (_, function) in left.items():
        group.setdefault(function, edit)
    return list(group.values())


def refused_in(said, bodies):
    """The functions of which a check says that a goal is open, or that an answer isn't of its goal's type."""
    every = [((path, first), last, name) for path, found in bodies.items() for first, _, last, name in found]
    places = [(path, int(line) - 1) for path, line in OPEN.findall(said)]
    found = {at for at, last, _ in every for path, line in places if at[0] == path and at[1] <= line <= last}
    for path, why in ANSWER.findall(said):
        *_, of, name = ["", *path.split("/")]
        of = [at for at, _, it in every if it == (of.partition("+")[0], name)]
        # (of two of one name nothing is known)
        found |= set(of) if len(of) == 1 and not NAMES.search(why) else set()
    return found


def sources_of(folder):
    sources = {}
    for path in glob.glob(f"{folder}/src/**/*.rt", recursive=True):
        with open(path, encoding="utf-8") as file:
            sources[os.path.relpath(path, folder)] = file.read().split("\n")
    return sources


def check(folder, sources, changes, jobs):
    """What a check says of the crate with these lines changed. What its folder holds is as before at the end."""
    lines = {path: list(it) for path, it in sources.items()}
    for (path, number), line in changes:
        lines[path][number] = line
    shutil.copytree(f"{folder}/out/incremental", f"{folder}/out/kept", copy_function=link_proved)
    try:
        write(folder, lines)
        ran = subprocess.run(["rt", "check", "--jobs", jobs], cwd=folder, stdin=subprocess.DEVNULL, capture_output=True, errors="replace", text=True)
    finally:
        write(folder, sources)
        shutil.rmtree(f"{folder}/out/incremental", ignore_errors=True)
        os.rename(f"{folder}/out/kept", f"{folder}/out/incremental")
    # (a check that came to its end has the status 1)
    return ran.stdout if ran.returncode == 1 and "\nlogic=not-proved" in ran.stdout else ""


def refused_of(group, left, folder, sources, bodies, jobs):
    """The edits of a group that a check refuses. Where one of them keeps the check from its end, each half is tried for itself."""
    said = check(folder, sources, [it for edit in group for it in left[edit][0].items()], jobs)
    if not said and len(group) > 1:
        half = len(group) // 2
        return [it for part in (group[:half], group[half:]) for it in refused_of(part, left, folder, sources, bodies, jobs)]
    open_goals = refused_in(said, bodies)
    return [edit for edit in group if left[edit][1] in open_goals]


def refused_together(folder, edits, jobs):
    """The edits that checks of many at once refuse."""
    sources = sources_of(folder)
    bodies = {path: functions(path, lines) for path, lines in sources.items()}
    left = {it: None if apply.fault(it, folder) else bent(it, sources, bodies) for it in edits}
    left, refused = {edit: it for edit, it in left.items() if it}, []
    while left:
        group = group_of(left)
        done = refused_of(group, left, folder, sources, bodies, jobs)
        refused += done
        for edit in done or group:
            del left[edit]
    return refused


def write(folder, lines):
    for path, it in lines.items():
        with open(f"{folder}/{path}", "w", encoding="utf-8") as file:
            file.write("\n".join(it))


def link_proved(source, target):
    """Copies a file of what was proved; by a link where a check replaces such a file, and writes into none."""
    if source.endswith(".oantt"):
        try:
            return os.link(source, target)
        except OSError:
            pass
    return shutil.copy2(source, target)
