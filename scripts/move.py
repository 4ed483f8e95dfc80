#!/usr/bin/env python3
"""Moves definitions from one file of specs to another crate's, and rewrites what imports them. Run it at the top of the repository, where git shows what it did.

  move.py SOURCE/File[:name,name..] TARGET/File [--title TEXT] [--pass NAME]

Without names all definitions of the file go. It takes their comments along, gives the target the imports that they need and the source those
that it still needs, splits each `use` and `ghost use` of the moved names in .antt, .rt and .edit, and adds TARGET to the lines of crates.txt that
need it. `--title` is the head comment of a new file. A crate that passes the source's module on (`pub use Rattle.SOURCE.specs.File` in a Lib) passes the
target's on too, under NAME where only a part goes. What it can't do it says at the end, with file and line: names through a module's alias.
Nothing is written where a moved definition would cite what the target mustn't: a crate that isn't below it.
"""

import glob
import os
import re
import sys

sys.dont_write_bytecode = True
sys.path.insert(0, os.path.dirname(os.path.abspath(__file__)))
import specs as S
from specs import text_of

USE = re.compile(r"^(\s*(?:(?:new|old): )?)((?:unfoldable |pub |ghost )*use )Rattle\.([\w.]+?)\.\{(.*)\}(;?)\s*$")
WHOLE = re.compile(r"^(\s*(?:pub |ghost )*use )Rattle\.([\w.]+?)(?: as (\w+))?(;?)\s*$")


def entries(text):
    return [it.strip() for it in text.split(",") if it.strip()]


def own(entry):
    return entry.split(" as ")[0].strip()


def below():
    with open("crates.txt", encoding="utf-8") as it:
        lines = it.read().split("\n")
    return lines, {line.split(":")[0].split()[0]: line.split(":", 1)[1].split() for line in lines if ":" in line and not line.startswith("#")}


def files():
    for end in ("antt", "rt", "edit"):
        for path in sorted(glob.glob(f"crates/**/*.{end}", recursive=True)) + sorted(glob.glob(f"edits/**/*.{end}", recursive=True)):
            if "/out/" not in path:
                yield path


def write(path, text):
    os.makedirs(os.path.dirname(path), exist_ok=True)
    with open(path, "w", encoding="utf-8") as it:
        it.write(text)


def use_lines(definitions, here):
    """The imports that definitions need where they stand in module `here`: module to entries."""
    need = {}
    for made in definitions:
        code = "\n".join(made.code + [line for head in made.heads for line in head])
        words = set(re.split(r"[\s(){}\[\],;]+", re.sub(r'"[^"]*"', "", code)))
        words |= {word.strip(".").split(".")[0] for word in words}
        for name, (where, first) in made.module.uses.items():
            sign = name.strip("◌")
            if name in words or (name == "[]" and "[]" in code) or (name.startswith("◌") and sign in words) or (name == "if◌then◌else◌" and "if" in words):
                need.setdefault(where, set()).add(first if first == name else f"{first} as {name}")
        for name, where in made.module.aliases.items():
            if any(word.startswith(name + ".") for word in re.split(r"[\s(){}\[\],;]+", code)):
                need.setdefault(f"{where} as {name}", set())
        for where, name in made.cites():
            if where == made.module.name and where != here and name in made.module.definitions and made.module.definitions[name] not in definitions:
                need.setdefault(where, set()).add(name)
    return need


def shown(need, order, prefix="use "):
    """Import lines, in the order in which the source has its own."""
    keys = sorted(need, key=lambda it: (order.index(it.split(" as ")[0]) if it.split(" as ")[0] in order else len(order), it))
    return [prefix + f"Rattle.{key}" + (f".{{{', '.join(sorted(need[key]))}}}" if need[key] else "") for key in keys]


def main():
    options = dict(zip(sys.argv[3::2], sys.argv[4::2]))
    place, _, some = sys.argv[1].partition(":")
    source, target = place.replace("/", ".specs."), sys.argv[2].replace("/", ".specs.")
    crate, goal = source.split(".")[0], target.split(".")[0]
    if source not in S.MODULES:
        print(f"there is no file crates/{source.replace('.', '/')}.antt")
        return 1
    module = S.MODULES[source]
    every = sorted({it for it in module.definitions.values() if it.module is module}, key=lambda it: it.first)
    moved = [it for it in every if not some or it.name in some.split(",")]
    names = {name for name, it in module.definitions.items() if it in moved}
    kept = [it for it in every if it not in moved]
    lines, deps = below()
    may = set(deps.get(goal, [])) | {goal}
    wrong = []
    for it in moved:
        for where, name in it.cites():
            other = S.find(where, name)
            at = other[0] if isinstance(other, tuple) else other.module.name
            if other in moved or at == target:
                continue
            if os.path.isdir(f"crates/{at.split('.')[0]}") and at.split(".")[0] not in may:
                wrong.append(f"`{it.name}` cites `{name}` of {at}, and {goal} doesn't stand on that crate")
    if missing := set(some.split(",") if some else []) - {it.name for it in moved}:
        wrong.append(f"{source} has no {', '.join(sorted(missing))}")
    if wrong:
        print("\n".join(wrong))
        return 1

    order = [where for where, _ in module.uses.values()]
    head = [line for line in module.lines[:next((n for n, line in enumerate(module.lines) if not line.startswith("--")), 0)]]
    # the target: its imports, then what was there, then what comes
    path = f"crates/{target.replace('.', '/')}.antt"
    there = S.MODULES.get(target)
    need = use_lines(moved, target)
    body = S.block(moved)
    if there:
        for name, (where, first) in there.uses.items():
            need.setdefault(where, set()).add(first if first == name else f"{first} as {name}")
        need.pop(target, None)
        start = next(n for n, line in enumerate(there.lines) if line and not line.startswith("--") and " use " not in f" {line}" and not line.startswith("use "))
        while start and there.lines[start - 1].startswith("--"):
            start -= 1
        old = there.lines[start:]
        begin = [line for line in there.lines[:start] if line.startswith("--")]
    else:
        old, begin = [], [f"-- {options['--title']}"] if "--title" in options else head
        lib = f"crates/{goal}/specs/Lib.antt"
        write(lib, (text_of(lib) if os.path.exists(lib) else "") + f"pub mod {target.split('.')[-1]}\n")
    need.pop(source, None) if not kept else None
    while old and not old[-1]:
        old.pop()
    write(path, "\n".join([*begin, *shown(need, order), "", *old, *([""] if old else []), *body]).rstrip("\n") + "\n")

    # the source: what stays, with the imports that it needs, or nothing
    if kept:
        gone = {n for it in moved for n in range(it.first, it.first + len(it.text))}
        left = [line for n, line in enumerate(module.lines) if n not in gone]
        need = use_lines(kept, source)
        used = {name for it in kept for where, name in it.cites() if where == source and name in names}
        if used:
            need.setdefault(target, set()).update(used)
        pub = [line for line in left if re.match(r"(unfoldable )?pub use ", line)]
        rest = [line for line in left[len(head):] if not re.match(r"((unfoldable )?pub )?use ", line)]
        text = "\n".join([*head, *pub, *shown(need, order), *rest])
        write(f"crates/{source.replace('.', '/')}.antt", re.sub(r"\n{3,}", "\n\n", text).rstrip("\n") + "\n")
    else:
        os.remove(f"crates/{source.replace('.', '/')}.antt")
        lib = f"crates/{crate}/specs/Lib.antt"
        write(lib, text_of(lib).replace(f"pub mod {source.split('.')[-1]}\n", ""))

    # all others
    passes, by_hand, touched = {source: target}, [], set()
    for path in files():
        if not path.endswith(".antt") or not re.search(rf"pub use Rattle\.{re.escape(source)}(\s|$)", text_of(path)):
            continue
        text, out = text_of(path), []
        for line in text.split("\n"):
            found = WHOLE.match(line)
            if found and found[2] == source:
                here = path[len("crates/"):].split("/specs/")[0].split("/")[0] + ".specs."
                as_name = found[3] or source.split(".")[-1]
                new = as_name if not kept else options.get("--pass", target.split(".")[-1])
                passes[here + as_name] = here + new
                if kept:
                    out.append(line)
                line = f"pub use Rattle.{target}" + (f" as {new}" if new != target.split(".")[-1] else "")
                touched.add(here.split(".")[0])
                if line in out or line in text.split("\n"):
                    continue
            out.append(line)
        write(path, "\n".join(out))
    for path in files():
        text = text_of(path)
        if not any(f"Rattle.{key}" in text for key in passes):
            continue
        out, changed = [], False
        for number, line in enumerate(text.split("\n"), 1):
            if (found := USE.match(line)) and found[3] in passes:
                all_of = entries(found[4])
                go = [it for it in all_of if own(it) in names]
                stay = [it for it in all_of if own(it) not in names]
                if go and passes[found[3]] != found[3]:
                    changed = True
                    if found[1].strip():
                        if stay:
                            by_hand.append(f"{path}:{number}: {line}")
                            out.append(line)
                            continue
                    if stay:
                        out.append(f"{found[1]}{found[2]}Rattle.{found[3]}.{{{', '.join(stay)}}}{found[5]}")
                    out.append(f"{found[1]}{found[2]}Rattle.{passes[found[3]]}.{{{', '.join(go)}}}{found[5]}")
                    continue
            if (found := WHOLE.match(line)) and found[2] in passes and "pub use" not in line and passes[found[2]] != found[2]:
                alias = found[3] or found[2].split(".")[-1]
                cited = {name for name in names if re.search(rf"\b{alias}\.{re.escape(name)}\b", text)}
                if cited and not kept:
                    out.append(f"{found[1]}Rattle.{passes[found[2]]} as {alias}{found[4]}")
                    changed = True
                    continue
                if cited:
                    by_hand.append(f"{path}:{number}: {line} ({', '.join(sorted(cited))})")
            out.append(line)
        if changed and path != f"crates/{target.replace('.', '/')}.antt":
            write(path, merged("\n".join(out), set(passes.values())))
            if f"Rattle.{target}" in "\n".join(out):
                touched.add(path.split("/")[1])
    # paths in attributes, `unfolding(crate::specs::File::name)`
    old, new = source.split(".")[-1], target.replace(".", "::")
    for path in files():
        if path.endswith(".antt"):
            continue
        text = changed = text_of(path)
        for name in names:
            if path.split("/")[1] == crate:
                changed = re.sub(rf"\bcrate::specs::{old}::{re.escape(name)}\b", f"{new}::{name}", changed)
            changed = re.sub(rf"\b{crate}::specs::{old}::{re.escape(name)}\b", f"{new}::{name}", changed)
        if changed != text:
            write(path, changed)
            touched.add(path.split("/")[1])
    out = []
    for line in lines:
        name = line.split(":")[0].split()[0] if ":" in line and not line.startswith("#") else None
        if name in touched | ({crate} if kept else set()) and name != goal and goal not in deps[name]:
            line += f" {goal}"
        out.append(line)
    write("./crates.txt", "\n".join(out))
    print(f"{len(moved)} definitions went from {source} to {target}; {len(kept)} stay. Touched: {' '.join(sorted(touched))}")
    for it in by_hand:
        print("by hand:", it)
    return 0


def merged(text, modules):
    """Two imports of one of these modules, among lines of imports that follow each other, as one."""
    seen, out = {}, []
    for line in text.split("\n"):
        found = USE.match(line)
        if not found and not WHOLE.match(line):
            seen = {}
        key = (found[1], found[2], found[3]) if found and not found[1].strip() and found[3] in modules else None
        if key in seen:
            old = USE.match(out[seen[key]])
            both = entries(old[4]) + [it for it in entries(found[4]) if it not in entries(old[4])]
            out[seen[key]] = f"{old[1]}{old[2]}Rattle.{old[3]}.{{{', '.join(both)}}}{old[5]}"
            continue
        if key:
            seen[key] = len(out)
        out.append(line)
    return "\n".join(out)


if __name__ == "__main__":
    sys.exit(main())
