#!/usr/bin/env python3
"""Tries the edits of edits/CRATE/ that the prover must refuse: edits/run.sh [CRATE..], all crates where none is named, or edits/run.sh --stale, those that
`edits/tried.py` tells as changed or stale. edits/run.sh --check is that script, and edits/run.sh --apply says whether each edit can still be applied.

The gate tries those in crates/CRATE/must-fail/; these here stand beside them, and bend the same functions in other ways. It works in a copy of the
repository, crate by crate, over what crates/*/out keeps: first many edits in one check (batches.py), then those that this doesn't refuse by `rt must-fail`
alone, which takes 15 to 40 seconds of a processor for each. RT_JOBS=N uses N processors. A crate of which every edit is refused, by a value or an open
goal, gets its line in edits/TRIED.
The last line is 'N passed, M failed': refused, and all else (not refused, refused for a name or by a limit alone, can't be applied, a crate that isn't
proved).
"""
import datetime
import os
import re
import shutil
import signal
import subprocess
import sys
import tempfile

sys.dont_write_bytecode = True
import apply
import batches
import tried

REFUSED = re.compile(r"^rt: must-fail [^ ]+: refused, as it must be(?! \(only)", re.MULTILINE)
# As many jobs as `rt must-fail` takes.
JOBS = os.environ.get("RT_JOBS") or str(min(4, len(os.sched_getaffinity(0))))
PARTS = ("src", "specs", "proofs", "out")


def copy_of(room, names, found):
    """A copy of what these crates and those below them are made of, with their edits in place of the gate's."""
    for it in ("crates.txt", "HANDLES"):
        shutil.copy2(f"{tried.TOP}/{it}", room)
    subprocess.run(["git", "init", "-q", room], check=True)
    for name in sorted({*names, *(it for name in names for it in tried.below(name, found))}):
        for part in PARTS:
            if os.path.isdir(f"{tried.TOP}/crates/{name}/{part}"):
                shutil.copytree(f"{tried.TOP}/crates/{name}/{part}", f"{room}/crates/{name}/{part}", copy_function=batches.link_proved)
    # (`rt` wants a folder for each line)
    kept = set(os.listdir(f"{room}/crates"))
    with open(f"{room}/crates.txt", encoding="utf-8") as file:
        lines = [line for line in file if set(line.partition(":")[0].split()[:1]) <= kept]
    with open(f"{room}/crates.txt", "w", encoding="utf-8") as file:
        file.writelines(lines)
    for name in names:
        shutil.copytree(f"{tried.TOP}/edits/{name}", f"{room}/edits/{name}")


def run(folder, *words):
    """What a command of `rt` says, line by line as it comes, and its status."""
    said = []
    with subprocess.Popen(["rt", *words], cwd=folder, stdin=subprocess.DEVNULL, stdout=subprocess.PIPE, stderr=subprocess.STDOUT, errors="replace", text=True) as ran:
        try:
            for line in ran.stdout:
                said.append(line)
                if words[0] == "must-fail":
                    print(line, end="", flush=True)
        except BaseException:
            # (whoever ends this ends the check too)
            ran.kill()
            raise
    return "".join(said), ran.returncode


def try_crate(room, name, found):
    """Tries the edits of a crate, and notes it where all are refused. How many are."""
    told, folder = tried.digests(room, name, found, {}), f"{room}/crates/{name}"
    edits = tried.edits(room, name)
    # (a crate that isn't proved itself would refuse every edit)
    said, status = run(folder, "check", "--jobs", JOBS)
    if status:
        print(f"{said}{name} isn't proved, so its edits weren't tried", flush=True)
        return 0
    together = batches.refused_together(folder, edits, JOBS)
    print(f"{name}: {len(together)} of {len(edits)} refused together", flush=True)
    left = [it for it in edits if it not in together]
    refused = len(together)
    if left:
        os.mkdir(f"{folder}/must-fail")
        for it in left:
            shutil.copy2(it, f"{folder}/must-fail")
        said, _ = run(room, "must-fail", name)
        refused += len(REFUSED.findall(said))
    if refused == len(edits):
        tried.write_line(name, told, refused, datetime.date.today().isoformat())
    print(f"{name}: {refused} of {len(edits)} refused, by a value or an open goal", flush=True)
    return refused


def chosen(words):
    """The crates whose edits are tried."""
    if words == ["--stale"]:
        own_changed, stale = tried.changed(tried.TOP)
        return [*own_changed, *stale]
    lacking = [it for it in words if it not in tried.with_edits(tried.TOP)]
    if lacking:
        sys.exit(f"there are no edits in edits/{lacking[0]}")
    return words or tried.with_edits(tried.TOP)


def main(words):
    if words in (["--apply"], ["--check"]):
        return apply.main() if words == ["--apply"] else tried.main()
    names, found = chosen(words), tried.uses(tried.TOP)
    # (those that others stand on come first)
    names.sort(key=lambda it: (len(tried.below(it, found)), it))
    signal.signal(signal.SIGTERM, lambda *_: sys.exit(128 + signal.SIGTERM))
    total = passed = 0
    with tempfile.TemporaryDirectory(prefix="edits-") as room:
        copy_of(room, names, found)
        for name in names:
            total += len(tried.edits(room, name))
            passed += try_crate(room, name, found)
    print(f"{passed} passed, {total - passed} failed")
    return 0 if passed == total else 1


if __name__ == "__main__":
    sys.exit(main(sys.argv[1:]))
