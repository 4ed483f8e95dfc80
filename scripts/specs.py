"""Reads the files of `*/specs`: their definitions, and what these cite. The scripts beside it use it."""

import glob
import os
import re

TOP = os.path.dirname(os.path.dirname(os.path.abspath(__file__)))


def text_of(path):
    """The text of a file, by its path from the top or by its whole path."""
    with open(os.path.join(TOP, path), encoding="utf-8") as it:
        return it.read()


def lines_of(path):
    return text_of(path).split("\n")


def verdict(passed, faults):
    """Prints what is wrong, and how much passed and failed. Answers the exit status."""
    print("\n".join([*faults, f"{passed} passed, {len(faults)} failed"]))
    return 1 if faults else 0


def block(definitions):
    """Definitions of one file as it has them, each module's head once."""
    text, heads = [], []
    for made in definitions:
        for depth, head in enumerate(made.heads):
            if heads[depth:depth + 1] != [head]:
                text += head
        heads = made.heads
        text += made.text + [""]
    return text[:-1]


def indent(line):
    return len(line) - len(line.lstrip())


def is_comment(line):
    return line.lstrip().startswith("--")


def imports(text, uses, aliases):
    """Keeps what an import names: `uses` from a name to where it stands, `aliases` from a module's short name to the module."""
    found = re.match(r"(?:unfoldable |pub |ghost )*use (?:Rattle\.)?([^\s;{]+?)(?:\.\{(.*)\})?(?: as (\w+))?;?$", text)
    if found[2] is None:
        aliases[found[3] or found[1].split(".")[-1]] = found[1]
    for part in (found[2] or "").split(","):
        own, _, here = part.strip().partition(" as ")
        if own:
            uses[here or own] = (found[1], own)


def cited(code, uses, aliases, own=()):
    """What a text cites: pairs of a module and a name. Of `a.b` it is `b` where `a` is a module, else `a`."""
    code = re.sub(r'"[^"]*"', "", code)
    for word in re.split(r"[\s(){}\[\],;]+", code):
        first, _, rest = word.strip(".").partition(".")
        if first in aliases and rest:
            yield aliases[first], rest.split(".")[0]
        elif first in own:
            yield None, first
        elif first in uses:
            yield uses[first]


class Definition:
    """One definition: where it and its comment stand in a file of specs, and the heads of the modules round it."""

    def __init__(self, module, name, kind, first, start, end, heads):
        self.module, self.name, self.kind, self.heads = module, name, kind, heads
        self.first, self.text, self.code = first, module.lines[first:end], [line for line in module.lines[start:end] if line and not is_comment(line)]

    def binds(self):
        """The names that it binds itself: variables of its equations, of its types and of `λ` and `let`, and a record's fields."""
        code, names = "\n".join(self.code), set()
        found = re.findall(r"λ ([^.]*)\.|[({]([^(){}:=]+?) : |let ([^=]*?) [:=]", code)
        found += re.findall(rf"(?m)^\s*{re.escape(self.name)} ([^:\n]*?) ?=(?: |$)()()", code)
        for some in found:
            names |= {name for name in re.findall(r"[^\s(),]+", " ".join(some)) if name[0].islower()}
        return names | (set(re.findall(r"(?m)^\s*pub (\S+) :", code)) if self.kind == "record" else set())

    def cites(self):
        module, binds = self.module, self.binds()
        text = "\n".join([re.sub(r"\s--\s.*", "", line) for line in self.code] + [line for head in self.heads for line in head])
        for where, name in cited(text, module.uses, module.aliases, module.definitions):
            if name not in binds or name[0].isupper():
                yield where or module.name, name


class Module:
    """A file of specs."""

    def __init__(self, path):
        self.path, self.name = path, path[len("crates/"):-len(".antt")].replace("/", ".")
        self.lines, self.uses, self.aliases, self.definitions = lines_of(path), {}, {}, {}
        at, heads = 0, []
        while at < len(self.lines):
            line = self.lines[at]
            if line.strip() and not is_comment(line):
                heads = [head for head in heads if indent(head[0]) < indent(line)]
            if not line.strip() or is_comment(line) or re.match(r"(pub )?mod ", line):
                at += 1
            elif re.match(r"(unfoldable |pub )*use ", line):
                imports(line, self.uses, self.aliases)
                at += 1
            elif line.lstrip().startswith("module "):
                end = at + 1
                while not self.lines[end - 1].endswith("where"):
                    end += 1
                heads.append(self.lines[at:end])
                at = end
            else:
                at = self.define(at, heads)

    def define(self, start, heads):
        """Keeps the definition that begins in this line, and answers the line after it."""
        depth = indent(self.lines[start])
        kind, name = re.match(r"\s*(?:abbrev |unfoldable |pub )*(record |data )?([^\s:(){},]+)", self.lines[start]).groups()
        first, end, at = start, start + 1, start + 1
        while first and is_comment(self.lines[first - 1]) and indent(self.lines[first - 1]) == depth:
            first -= 1
        while at < len(self.lines):
            line = self.lines[at]
            if line.strip() and not is_comment(line) and indent(line) <= depth:
                if indent(line) < depth or line.split()[0] not in (name, "unfolding") and line.lstrip()[0] not in ")]}":
                    break
            if line.strip() and (indent(line) > depth or not is_comment(line)):
                end = at + 1
            at += 1
        made = Definition(self, name, (kind or "").strip(), first, start, end, list(heads))
        self.definitions[name] = made
        if made.kind == "data":
            self.definitions |= {found[1]: made for line in made.code[1:] if (found := re.match(r"\s*(?:pub )?(\S+) :", line))}
        return end


FILES = sorted(glob.glob(f"{TOP}/crates/*/specs/**/*.antt", recursive=True))
MODULES = {it.name: it for it in (Module(os.path.relpath(path, TOP)) for path in FILES)}


def find(where, name):
    """The definition of a name that a module has or passes on, or the pair where that is outside of `*/specs`."""
    while where in MODULES and name not in MODULES[where].definitions and name in MODULES[where].uses:
        where, name = MODULES[where].uses[name]
    return MODULES[where].definitions.get(name, (where, name)) if where in MODULES else (where, name)


def closure(names, seen, outside):
    """The definitions that these names need and that weren't seen before; what is outside of `*/specs` is kept apart."""
    new, todo = [], list(names)
    while todo:
        made = find(*todo.pop())
        if isinstance(made, tuple):
            outside.add(made)
        elif made not in seen:
            seen.add(made)
            new.append(made)
            todo += made.cites()
    return new
