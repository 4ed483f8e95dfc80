#!/usr/bin/env python3
"""Whether each link of the pages leads somewhere: its file is there, and where it names a heading, that stands in the file. Paths in backticks that
begin with a folder of the repository are looked at too. A second; the last line is 'N passed, M failed'."""

import glob
import os
import re
import sys

sys.dont_write_bytecode = True
from specs import TOP, text_of, verdict

LINK = re.compile(r"\]\(([^()\s]+)\)")
FENCED = re.compile(r"^```.*?^```", re.M | re.S)
# What a reader looks up from the top of the repository.
NAMED = re.compile(r"`((?:bench|completions|crates|docs|edits|examples|foreign|include|scripts|tests)/[\w./-]+)`")


def pages():
    found = glob.glob(f"{TOP}/*.md") + glob.glob(f"{TOP}/*/**/*.md", recursive=True)
    return sorted(it for it in found if "/out/" not in it)


def anchors(path):
    """The headings of a page, in the words of a link: lower case, spaces as dashes, no other signs."""
    heads = re.findall(r"^#+ +(.*)$", FENCED.sub("", text_of(path)), re.M)
    return {re.sub(r"[^\w -]", "", head.strip().lower()).replace(" ", "-") for head in heads}


def main():
    passed, faults = 0, []
    for page in pages():
        text, name = FENCED.sub("", text_of(page)), os.path.relpath(page, TOP)
        for target in LINK.findall(re.sub(r"`[^`\n]*`", "", text)):
            if re.match(r"[a-z]+:", target):
                continue
            path, _, head = target.partition("#")
            there = os.path.normpath(os.path.join(os.path.dirname(page), path)) if path else page
            if not os.path.exists(there):
                faults.append(f"{name}: {target} isn't there")
            elif head and head not in anchors(there):
                faults.append(f"{name}: {target}: no such heading")
            else:
                passed += 1
        for target in NAMED.findall(text):
            # (what is built stands in `out/` and isn't there before, and a name in capitals stands for any)
            if "/out/" in target or re.search(r"\b(NAME|CRATE)", target) or os.path.exists(f"{TOP}/{target}"):
                passed += 1
            else:
                faults.append(f"{name}: `{target}` isn't there")
    return verdict(passed, faults)


if __name__ == "__main__":
    sys.exit(main())
