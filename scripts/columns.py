#!/usr/bin/env python3
"""Whether the lines of `crates/` have at most 150 columns, in code, definitions, proofs and comments. Longer may be an import or the pairs of a certificate,
which `rt fmt` would give a line for each part, and a line with a text. A second; the last line is 'N passed, M failed', over files."""

import glob
import os
import re
import sys

sys.dont_write_bytecode = True
from specs import TOP, lines_of, verdict

MOST = 150
MAY_BE_LONGER = re.compile(r'\s*(?:unfoldable |pub |ghost )*use |.*"|\s*\((?:prime_\w+, \()+')


def main():
    passed, faults = 0, []
    for path in sorted(glob.glob(f"{TOP}/crates/*/**/*.rt", recursive=True) + glob.glob(f"{TOP}/crates/*/**/*.antt", recursive=True)):
        if "/out/" in path:
            continue
        long = [number for number, line in enumerate(lines_of(path), 1) if len(line) > MOST and not MAY_BE_LONGER.match(line)]
        faults += [f"{os.path.relpath(path, TOP)}:{number}: more than {MOST} columns" for number in long]
        passed += not long
    return verdict(passed, faults)


if __name__ == "__main__":
    sys.exit(main())
