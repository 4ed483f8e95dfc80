#!/usr/bin/env python3
"""Whether each `use` of a definition, in specs, proofs, code and edits, names one that is there: `use Rattle.CRATE.specs.File.{name, ..}` where that file
defines or passes on each name. The prover says the same, twenty minutes later. Names of std and of the kit's crates aren't looked at.
And whether something names each lemma of a crate's `proofs/`, which the prover doesn't say.
Three seconds; the last line is 'N passed, M failed'."""

import collections
import glob
import os
import re
import sys

sys.dont_write_bytecode = True
from specs import TOP, text_of, verdict

USE = re.compile(r"^\s*(?:(?:new|old): )?(?:unfoldable |pub |ghost )*use Rattle\.([\w.]+?)(?:\.\{(.*)\})?(?: as \w+)?;?\s*$")

LEMMA = re.compile(r" *(?:(?:unfoldable|abbrev|pub|record) )*([^\s:({.]+) [^:]*:")
NAME = re.compile(r"[^\s(){}\[\],;.:`]+")


def name_of(path):
    return os.path.relpath(path, f"{TOP}/crates")[: -len(".antt")].replace("/", ".")


def files(*ends):
    for end in ends:
        for top in ("crates", "edits"):
            for path in sorted(glob.glob(f"{TOP}/{top}/**/*.{end}", recursive=True)):
                if "/out/" not in path:
                    yield path


def said(text):
    """The words of a file but for those of its own imports: what it defines and passes on is among them."""
    lines = [line for line in text.split("\n") if not re.match(r"\s*use ", line)]
    return set(re.findall(r"[^\s(){}\[\],;]+", "\n".join(lines)))


def passed_on(texts):
    """The modules that a Lib passes on under its own name, by that name."""
    found = {}
    for name, text in texts.items():
        if name.endswith(".Lib"):
            for where, other in re.findall(r"^pub use Rattle\.([\w.]+)(?: as (\w+))?$", text, re.M):
                found[f"{name[:-4]}.{other or where.split('.')[-1]}"] = where
    return found


def unnamed(texts):
    """Of the lemmas of `proofs/`, by where they stand, whether anything names them but themselves."""
    counts = collections.Counter()
    for text in texts.values():
        counts.update(NAME.findall(text))
    for path, text in texts.items():
        if not re.fullmatch(r"crates/\w+/proofs/\w+\.antt", path):
            continue
        lines = text.split("\n")
        for start, line in enumerate(lines):
            found = LEMMA.match(line)
            if not found or found[1] in ("--", "use", "module", "mod", "let", "|"):
                continue
            end = next((it for it in range(start, len(lines)) if not lines[it].strip()), len(lines))
            own = NAME.findall("\n".join(lines[start:end])).count(found[1])
            yield f"{path}:{start + 1}", found[1], counts[found[1]] <= own


def main():
    texts = {name_of(it): text_of(it) for it in files("antt") if it.startswith(f"{TOP}/crates/")}
    crates, words, aliases = {it.split(".")[0] for it in texts}, {name: said(text) for name, text in texts.items()}, passed_on(texts)
    passed, faults = 0, []
    for path in files("antt", "rt", "edit"):
        for number, line in enumerate(text_of(path).split("\n"), 1):
            found = USE.match(line)
            if not found or found[1].split(".")[0] not in crates or not re.search(r"\.(specs|proofs)\b", found[1]):
                continue
            here, module = f"{os.path.relpath(path, TOP)}:{number}", found[1]
            while module in aliases:
                module = aliases[module]
            if re.search(r"\.specs\.(declared|contracts)\.", module) or module.endswith((".Goals", ".Given")) or ".below." in module:
                # (what `rt` makes of the code and of its goals, and what a crate's library passes on)
                continue
            inside, _, last = module.rpartition(".")
            if module not in words and last in words.get(inside, ()):
                # (a module inside a file)
                module = inside
            if module not in words:
                faults.append(f"{here}: there is no {module}")
                continue
            for entry in (found[2] or "").split(","):
                name = entry.split(" as ")[0].strip()
                signs = [it for it in name.split("◌") if it]
                if all(it in words[module] for it in ([name] if name in words[module] else signs)):
                    passed += 1
                else:
                    faults.append(f"{here}: {module} has no {name}")
    for here, name, alone in unnamed({os.path.relpath(path, TOP): text_of(path) for path in files("antt", "rt") if path.startswith(f"{TOP}/crates/")}):
        if alone:
            faults.append(f"{here}: nothing names the lemma {name}")
        else:
            passed += 1
    return verdict(passed, faults)


if __name__ == "__main__":
    sys.exit(main())
