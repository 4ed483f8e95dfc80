#!/usr/bin/env python3
"""Renames definitions, and whole modules. Run it at the top of the repository, where git shows what it did.

  rename.py CRATE.specs.File:old=new ..     the definition `old` of that file, wherever it is imported: sources, proofs, edits
  rename.py CRATE.specs.File=OTHER.proofs.File [--pass NAME]
                                            the whole file goes to another crate or folder, and every path to it follows. `--pass` is the name under
                                            which crates pass it on that pass it on today

A name is rewritten as a whole word, in each file that imports it from there or through a crate that passes it on, in comments too where it stands in
backticks. What can't be told apart it says: a file that has another thing of the old name, or one of the new name already.
"""

import os
import re
import sys

sys.dont_write_bytecode = True
from move import USE, entries, files, text_of, write

WHOLE = re.compile(r"^\s*(?:pub |ghost )*use Rattle\.([\w.]+?)(?: as (\w+))?;?\s*$")
PASSES = re.compile(r"^pub use Rattle\.([\w.]+?)(?: as (\w+))?$")


def own_file(module):
    return f"crates/{module.replace('.', '/')}.antt"


def passed_on(texts):
    """Module to the names under which crates pass it on."""
    found = {}
    for path, text in texts.items():
        if path.endswith("specs/Lib.antt"):
            for line in text.split("\n"):
                if it := PASSES.match(line):
                    found.setdefault(it[1], []).append(f"{path.split('/')[1]}.specs.{it[2] or it[1].split('.')[-1]}")
    return found


def names_of(module, passes):
    return {module}.union(*(names_of(it, passes) for it in passes.get(module, [])))


def in_comment(line, word, new):
    """A comment, in which the word is rewritten between backticks alone."""
    parts = line.split("`")
    parts[1::2] = [word.sub(new, it) for it in parts[1::2]]
    return "`".join(parts)


def rename(texts, module, old, new):
    modules = names_of(module, passed_on(texts))
    word = re.compile(rf"(?<![\w.'-]){re.escape(old)}(?![\w'-])")
    count, clashes = 0, []

    def sees(path, text):
        return path == own_file(module) or any(
            (it := USE.match(line)) and it[3] in modules and old in entries(it[4]) for line in text.split("\n"))

    seen = {path for path, text in texts.items() if not path.endswith(".edit") and sees(path, text)}
    for path, text in list(texts.items()):
        if path.endswith(".edit"):
            target = re.search(r"(?m)^file: (.*)$", text)
            if not target or f"crates/{path.split('/')[1]}/{target[1].strip()}" not in seen:
                continue
            changed = re.sub(r"(?m)^(?:old|new): .*$", lambda it: word.sub(new, it[0]), text)
        else:
            lines, aliases = [], set()
            for line in text.split("\n"):
                it = WHOLE.match(line)
                if it and it[1] in modules and not line.startswith("pub use"):
                    aliases.add(it[2] or it[1].split(".")[-1])
            for line in text.split("\n"):
                it = USE.match(line)
                if it and it[3] in modules:
                    all_of = [re.sub(rf"^{re.escape(old)}(?= as |$)", new, entry) for entry in entries(it[4])]
                    line = f"{it[1]}{it[2]}Rattle.{it[3]}.{{{', '.join(all_of)}}}{it[5]}"
                elif it and path in seen and old in [entry.split(" as ")[-1] for entry in entries(it[4])]:
                    clashes.append(f"{path}: another `{old}`")
                elif not it and path in seen:
                    line = in_comment(line, word, new) if line.strip().startswith(("--", "//")) else word.sub(new, line)
                for alias in aliases:
                    line = re.sub(rf"\b{alias}\.{re.escape(old)}(?![\w'-])", f"{alias}.{new}", line)
                lines.append(line)
            changed = "\n".join(lines)
            file = module.split(".")[-1]
            changed = re.sub(rf"\b((?:crate|\w+)::specs::{file}::){re.escape(old)}(?![\w'])", rf"\g<1>{new}", changed)
            if path in seen and re.search(rf"(?<![\w.'-]){re.escape(new)}(?![\w'-])", text):
                clashes.append(f"{path}: a `{new}` is there already")
        if changed != text:
            texts[path] = changed
            count += 1
    print(f"{module}: `{old}` is `{new}`, in {count} files")
    for it in clashes:
        print("by hand:", it)


def move(source, target, name):
    """The whole file `source` becomes `target`."""
    (crate, folder, file), (other, into, new) = source.split("."), target.split(".")
    os.makedirs(os.path.dirname(own_file(target)), exist_ok=True)
    os.rename(own_file(source), own_file(target))
    lib = f"crates/{crate}/{folder}/Lib.antt"
    write(lib, re.sub(rf"(?m)^(pub )?mod {file}\n", "", text_of(lib)))
    lib = f"crates/{other}/{into}/Lib.antt"
    write(lib, (text_of(lib) if os.path.exists(lib) else "") + f"pub mod {new}\n")
    passes, touched = [], set()
    for path in files():
        text = text_of(path)

        def passing(it):
            here, before = path.split("/")[1], it[1] or file
            after = name or (new if it[1] is None else it[1])
            passes.append((f"{here}.specs.{before}", f"{here}.specs.{after}"))
            return f"pub use Rattle.{target}" + ("" if after == new else f" as {after}")

        changed = re.sub(rf"(?m)^pub use Rattle\.{re.escape(source)}(?: as (\w+))?$", passing, text)
        changed = re.sub(rf"\bRattle\.{re.escape(source)}\b", f"Rattle.{target}", changed)
        if path.endswith((".rt", ".edit")):
            here = "crate" if other == path.split("/")[1] else other
            if path.split("/")[1] == crate:
                changed = re.sub(rf"\bcrate::{folder}::{file}::", f"{here}::{into}::{new}::", changed)
            changed = re.sub(rf"\b{crate}::{folder}::{file}::", f"{other}::{into}::{new}::", changed)
        if changed != text:
            write(path, changed)
            touched.add(path.split("/")[1])
    for before, after in passes:
        for path in files() if before != after else ():
            text = text_of(path)
            changed = re.sub(rf"\bRattle\.{re.escape(before)}\b", f"Rattle.{after}", text)
            if changed != text:
                write(path, changed)
    lines = []
    for line in text_of("./crates.txt").split("\n"):
        crate_of = line.split(":")[0].split()[0] if ":" in line and not line.startswith("#") else None
        if crate_of in touched - {other} and other not in line.split(":", 1)[1].split():
            line += f" {other}"
        lines.append(line)
    write("./crates.txt", "\n".join(lines))
    print(f"{source} is {target}. Touched: {' '.join(sorted(touched))}")


def main():
    words = sys.argv[1:]
    name = words.pop(words.index("--pass") + 1) if "--pass" in words else None
    words = [it for it in words if it != "--pass"]
    if not words:
        print(__doc__)
        return 2
    for it in words:
        place, _, rest = it.partition(":")
        if not rest:
            move(*it.split("="), name)
            continue
        texts = {path: text_of(path) for path in files()}
        before = dict(texts)
        rename(texts, place, *rest.split("="))
        for path, text in texts.items():
            if text != before[path]:
                write(path, text)
    return 0


sys.exit(main())
