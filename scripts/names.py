#!/usr/bin/env python3
"""Whether the table of public names in FROM_AGE.md is complete, and says what is here.

`scripts/names.py` compares three lists, and takes a second: the names of the Rust crate (names.txt), those in the first column of the table,
and what the crate `age` passes on (crates/age/src/lib.rt). Each name of the Rust crate has a row, and stands in the sources here unless
it is left out. Each path of `age` in the table or in the list after it is there, and what is there has its path in one of them. The last
line is 'N passed, M failed'.

`scripts/names.py FOLDER` makes names.txt anew from the sources of the Rust crate: a folder with its `src`, or with the same files as text,
`src--src--lib.rs.txt` for `src/lib.rs`. A name that only a feature brings has the feature's name beside it.
"""

import glob
import os
import re
import sys

HERE = os.path.dirname(os.path.abspath(__file__))
TOP = os.path.dirname(HERE)
LIST = f"{HERE}/names.txt"


def source(folder, module):
    """The text of a module of the Rust crate, `lib` or a path such as `native::scrypt`, or None where there is no such file."""
    path = module.replace("::", "/")
    for name in (f"src/{path}.rs", f"src--src--{path.replace('/', '--')}.rs.txt"):
        if os.path.isfile(f"{folder}/{name}"):
            with open(f"{folder}/{name}", encoding="utf-8") as it:
                return it.read()
    return None


def without_texts(text):
    """The same lines, with comments, texts and characters taken out, so that each brace left is one of the code."""
    text = re.sub(r"//[^\n]*", "", text)
    text = re.sub(r'b?r#*".*?"#*|b?"(?:\\.|[^"\\])*"', lambda it: '""' if "feature" not in it[0] else it[0], text, flags=re.S)
    return re.sub(r"b?'(?:\\.|[^'\\])'", "' '", text)


def items(text):
    """The public items of a file: (kind, name, owner, feature), where the owner of a method or a variant is its type."""
    text = re.sub(r'feature = "([\w-]+)"', r"feature = \1", text)
    depth, owner, kind, feature, test, outer, after = 0, None, None, None, False, None, None
    for line in without_texts(text).splitlines():
        code = line.strip()
        if found := re.match(r"#\[cfg\((?:feature = ([\w-]+)|(test)|fuzzing)\)\]", code):
            feature, test = found[1] or "fuzzing", found[2] == "test"
        elif code and not code.startswith("#"):
            if depth == 0:
                after = feature
                owner, kind = None, None
                if found := re.match(r"impl(?:<.*?>)? (?!.* for )(\w+)", code):
                    owner, kind = found[1], "impl"
                elif not test and (found := re.match(r"pub (?:async )?(fn|struct|enum|trait|mod|use) ([^;({<:]*(?:::[^;]*)?)", code)):
                    owner, kind = found[2].split()[0] if found[1] != "use" else found[2], found[1]
                    yield found[1], owner, None, feature
                outer = None if test else kind
            elif depth == 1 and outer in ("impl", "trait", "enum"):
                wanted = {"impl": r"pub (?:async )?fn (\w+)", "trait": r"fn (\w+)", "enum": r"([A-Z]\w*)"}[outer]
                if found := re.match(wanted, code):
                    yield outer, found[1], owner, feature or after
            feature, test = None, False
        depth += line.count("{") + line.count("(") - line.count("}") - line.count(")")


def names_in(folder, module, path):
    """The public names of a module that is public under a path: name to feature."""
    names = {}
    types = set()
    for kind, name, owner, feature in items(source(folder, module)):
        if owner is None and kind in ("fn", "struct", "enum", "trait"):
            names[path + name] = feature
            types.add(name)
        elif owner in types:
            names[f"{path}{owner}::{name}"] = feature
    return names


def names_of_crate(folder):
    """All public names of the Rust crate."""
    names = names_in(folder, "lib", "")
    for kind, name, owner, feature in items(source(folder, "lib")):
        if kind == "mod":
            names[name] = feature
            if source(folder, name) is not None:
                names |= {own: with_ or feature for own, with_ in names_in(folder, name, f"{name}::").items()}
        elif kind == "use":
            module, last = re.match(r"([\w:]+)::(\{.*\}|\w+)", name.replace(" ", "")).groups()
            for own in re.findall(r"\w+", last):
                whole = f"{module}::{own}"
                if source(folder, whole) is not None:
                    names[own] = feature
                    names |= {it: with_ or feature for it, with_ in names_in(folder, whole, f"{own}::").items()}
                    continue
                names[own] = feature
                if source(folder, module) is not None:
                    inner = names_in(folder, module, "")
                    names |= {it: with_ or feature for it, with_ in inner.items() if it.split("::")[0] == own}
    return names


def written(names):
    return [name if feature is None else f"{name} ({feature})" for name, feature in sorted(names.items())]


def exports():
    """What the crate `age` passes on, but for laws and definitions, which are there for proofs: paths that begin with `age`."""
    paths, where = set(), ["age"]
    with open(f"{TOP}/crates/age/src/lib.rt", encoding="utf-8") as it:
        text = re.sub(r"//[^\n]*", "", it.read())
    for found in re.finditer(r"pub mod (\w+) \{|pub use ([\w:]+)::(\{[^}]*\}|\w+);|\}", text):
        if found[1]:
            where.append(found[1])
        elif found[2]:
            if "laws" not in where:
                paths |= {"::".join([*where, name]) for name in re.findall(r"\w+", found[3])}
        else:
            where.pop()
    return paths


def section():
    """The rows of the table, each the texts of its two columns, and the list after it."""
    with open(f"{TOP}/docs/FROM_AGE.md", encoding="utf-8") as it:
        text = it.read().split("\n## Public names\n")[1]
    rows = [re.fullmatch(r"\| (.*?) \| (.*) \|", line) for line in text.splitlines() if line.startswith("| `")]
    return [(row[1], row[2]) for row in rows], text.split("\n\n")[-1]


def in_quotes(text):
    return re.findall(r"`([^`]+)`", text)


def words_of_sources():
    """Each word of the sources of the library."""
    words = set()
    for file in glob.glob(f"{TOP}/crates/age*/src/**/*.rt", recursive=True):
        if not os.path.relpath(file, f"{TOP}/crates").split("/")[0].endswith("_tests"):
            with open(file, encoding="utf-8") as it:
                words |= set(re.findall(r"\w+", re.sub(r"//[^\n]*", "", it.read())))
    return words


def main():
    if len(sys.argv) > 1:
        with open(LIST, "w", encoding="utf-8") as it:
            it.write("\n".join(written(names_of_crate(sys.argv[1]))) + "\n")
        return 0
    faults = []
    with open(LIST, encoding="utf-8") as it:
        wanted = {line.split(" ")[0] for line in it.read().splitlines()}
    rows, rest = section()
    told = [name for first, _ in rows for name in in_quotes(first) if " for " not in name]
    faults += [f"{name} has no row" for name in sorted(wanted - set(told))]
    faults += [f"{name} is no name of the Rust crate" for name in sorted(set(told) - wanted)]
    faults += [f"{name} has two rows" for name in sorted({name for name in told if told.count(name) > 1})]
    kept = {name for first, second in rows if second != "left out" for name in in_quotes(first)}
    words = words_of_sources()
    faults += [f"{name} isn't here" for name in sorted(kept) if name.split("::")[-1] not in words]
    there = exports()
    paths = {re.sub(r"<.*?>", "", path) for path in in_quotes(" ".join(second for _, second in rows) + rest) if path.startswith("age::")}
    modules = {path.rsplit("::", 1)[0] for path in there}
    for path in sorted(paths):
        if path not in there | modules and path.rsplit("::", 1)[0] not in there:
            faults.append(f"{path} isn't passed on by age")
    # a path of a module stands for all that is in it
    faults += [f"{path} isn't told" for path in sorted(there) if path not in paths and path.rsplit("::", 1)[0] not in paths - {"age"}]
    passed = max(0, len(wanted) + len(kept) + len(there) + len(paths) - len(faults))
    for fault in faults:
        print(fault)
    print(f"{passed} passed, {len(faults)} failed")
    return 1 if faults else 0


sys.exit(main())
