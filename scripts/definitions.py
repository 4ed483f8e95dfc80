#!/usr/bin/env python3
"""Whether the pages name definitions where they stand.

`scripts/definitions.py` reads each table of docs/development/DEFINITIONS.md whose second column is `File`, and takes about a second. The first word
of each text in backticks in a row's first cell is a definition, a constructor or a field in one of the files that its second cell names, and each
of these files has one of them. `crate/specs/File` is crates/crate/specs/File.antt; a bare `File` after it stands in the same folder. Where the
second cell has parts, divided by `;`, the first has as many, and each of them goes with its own.

In each page (those at the top, those in docs/ and the README of each crate) each path `crate/specs/File` is that of a file, and in the README of a
crate `specs/File` too. The last line is 'N passed, M failed'.
"""

import glob
import os
import re
import sys

sys.dont_write_bytecode = True
from specs import MODULES, TOP, text_of, verdict

PAGE = "docs/development/DEFINITIONS.md"
PATH = re.compile(r"(?<![\w/])(?:(?:\.\./)*crates/)?(?:(\w+)/)?specs/([A-Z]\w*)")


def rows(page):
    """The rows of its tables of definitions: the number of the line, and the first two cells."""
    wanted = False
    for number, line in enumerate(text_of(page).split("\n"), 1):
        cells = [cell.strip() for cell in re.split(r"(?<!\\)\|", line)[1:-1]]
        if wanted and cells and not re.fullmatch(r"[-:| ]+", line):
            yield number, cells[0], cells[1]
        wanted = cells[1:2] == ["File"] or (wanted and cells != [])


def parts_of(cell):
    """What each part of a second cell names: modules as specs.py calls them, `crate.specs.File`."""
    folder = ""
    for part in cell.split("; "):
        modules = []
        for text in part.split(", "):
            crate, _, name = text.strip("`").rpartition("/specs/")
            folder = crate or folder
            modules.append(f"{folder}.specs.{name}")
        yield modules


def names_in(module):
    """What a file of specs defines, with the constructors and fields of its types."""
    made = MODULES[module].definitions
    return set(made).union(*(re.findall(r"(?m)^\s+(?:pub )?(\S+) :", "\n".join(it.code)) for it in made.values() if it.kind == "record"))


def check_table(faults):
    passed, found_rows = 0, list(rows(PAGE))
    faults += [] if found_rows else [f"{PAGE}: no table whose second column is `File`"]
    for number, first, second in found_rows:
        places = list(parts_of(second))
        parts = first.split("; ") if len(places) > 1 else [first]
        wrong = [] if len(parts) == len(places) else [f"{len(parts)} parts of names, {len(places)} of files"]
        for part, modules in zip(parts, places):
            names = [text.split()[0] for text in re.findall(r"`([^`]+)`", part)]
            found = {it: names_in(it) for it in modules if it in MODULES}
            wrong += [f"{module} is no file of specs" for module in modules if module not in found]
            wrong += [f"{name} isn't in {', '.join(modules)}" for name in names if not any(name in there for there in found.values())]
            wrong += [f"{module} has none of the names beside it" for module, there in found.items() if not there & set(names)]
            passed += len(names) + len(modules)
        faults += [f"{PAGE}:{number}: {fault}" for fault in wrong]
    return passed - len(faults)


def check_paths(faults):
    passed = 0
    forms = [f"{TOP}/{form}" for form in ("*.md", "docs/**/*.md", "crates/*/README.md")]
    for page in sorted(os.path.relpath(path, TOP) for form in forms for path in glob.glob(form, recursive=True)):
        home = page.split("/")[1] if page.startswith("crates/") else None
        for crate, name in PATH.findall(text_of(page)):
            crate = crate or home
            # (a crate of the reader's own is `my_..`)
            if crate is None or crate.startswith("my_") or f"{crate}.specs.{name}" in MODULES:
                passed += crate is not None
            else:
                faults.append(f"{page}: {crate}/specs/{name} isn't there")
    return passed


def main():
    faults = []
    passed = check_table(faults) + check_paths(faults)
    return verdict(passed, faults)


if __name__ == "__main__":
    sys.exit(main())
