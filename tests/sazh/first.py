"""The first line of README's first block, which runs `sazh` unproved, as it stands there: first.py SAZH, the program that was built.

It runs in a copy of the repository where nothing is built, and what it prints has to be armor that the program opens to the text in that
line. It takes one to three minutes; the last line is 'N passed, M failed'.
"""

import re
import shutil
import subprocess
import sys
import tempfile
from pathlib import Path

TOP = Path(__file__).resolve().parents[2]


def first_line():
    """The line, without its comment, and the text that it encrypts."""
    line = (TOP / "README.md").read_text("utf-8").partition("```sh\n")[2].partition("\n")[0]
    return re.match(r"(echo (\w+) \| .* rt try -- .*?)  +# ", line)


def main():
    program, found = Path(sys.argv[1]).resolve(), first_line()
    passed = {"README's first line runs it unproved": bool(found)}
    if found:
        with tempfile.TemporaryDirectory() as folder:
            copy = Path(folder, "copy")
            shutil.copytree(TOP, copy, ignore=shutil.ignore_patterns("out", ".git"), symlinks=True)
            done = subprocess.run(["bash", "-c", found[1]], stdin=subprocess.DEVNULL, capture_output=True, check=False, cwd=copy)
            key = copy / "crates/sazh/data/key.txt"
            opened = subprocess.run([program, "-d", "-i", key], input=done.stdout, capture_output=True, check=False)
        passed[f"it ends well: {done}"] = done.returncode == 0
        passed["it says that nothing is proved"] = done.stderr.splitlines()[-1:] == [b"run=ended status=0 runners=1 proved=no"]
        begin, end = b"-----BEGIN AGE ENCRYPTED FILE-----\n", b"\n-----END AGE ENCRYPTED FILE-----\n"
        passed["it prints armor"] = done.stdout.startswith(begin) and done.stdout.endswith(end)
        passed[f"which opens to its text: {opened}"] = opened.returncode == 0 and opened.stdout == f"{found[2]}\n".encode()
    for what in [it for it, good in passed.items() if not good]:
        print(f"FAILED: {what}")
    print(f"{sum(passed.values())} passed, {len(passed) - sum(passed.values())} failed")
    return 0 if all(passed.values()) else 1


if __name__ == "__main__":
    sys.exit(main())
