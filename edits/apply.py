#!/usr/bin/env python3
"""Whether each edit that must be refused can still be applied: those of the gate (crates/*/must-fail) and those kept here.

An edit is lines 'file: ', 'old: ' and 'new: ', and nothing else. It bends code, or a definition where a crate has no code. Each text after 'old: ' stands exactly once in its file, with
the pairs before it applied. It tries no edit, and takes a second. Its last line is 'N passed, M failed'.
"""

import glob
import os
import re
import sys

TOP = os.path.dirname(os.path.dirname(os.path.abspath(__file__)))


def fault(edit, crate):
    """Says why the edit can't be applied to the crate, if it can't."""
    file, old, texts, pairs = None, None, {}, 0
    if not os.path.isdir(crate):
        return f"there is no crate {os.path.basename(crate)}"
    with open(edit, encoding="utf-8") as it:
        lines = it.read().splitlines()
    for number, line in enumerate(lines, 1):
        word, _, text = line.partition(":")
        text = text.removeprefix(" ")
        if word == "file" and text.startswith(("src/", "specs/")):
            file = text
            if file not in texts:
                if not os.path.isfile(f"{crate}/{file}"):
                    return f"there is no file {file}"
                with open(f"{crate}/{file}", encoding="utf-8") as it:
                    texts[file] = it.read()
        elif word == "old" and file and text and old is None:
            old = text
        elif word == "new" and old is not None:
            count = texts[file].count(old)
            if count != 1:
                return f"line {number - 1}: the text stands in {file} {count} times, and not once"
            if text == old:
                return f"line {number} changes nothing"
            texts[file] = texts[file].replace(old, text)
            old, pairs = None, pairs + 1
        else:
            return f"line {number} is no 'file: src/..' or 'file: specs/..', or no 'old: ' and 'new: ' that follow it"
    if old is not None or not pairs:
        return "an 'old: ' has no 'new: ', or there is none"
    return None


def main():
    passed = failed = 0
    found = glob.glob(f"{TOP}/crates/*/must-fail/*") + glob.glob(f"{TOP}/edits/*/*")
    for edit in sorted(found):
        name, crate = os.path.basename(edit), os.path.basename(os.path.dirname(edit).removesuffix("/must-fail"))
        why = "its name isn't letters, digits, '_' and '-', and then '.edit'"
        if re.fullmatch(r"[A-Za-z0-9_-]+\.edit", name):
            why = fault(edit, f"{TOP}/crates/{crate}")
        if why:
            print(f"{os.path.relpath(edit, TOP)}: {why}")
        passed, failed = passed + (not why), failed + bool(why)
    print(f"{passed} passed, {failed} failed")
    return 1 if failed or not passed else 0


if __name__ == "__main__":
    sys.exit(main())
