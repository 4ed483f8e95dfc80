#!/usr/bin/env python3
"""Stands for `rt` in the tests of build.py, as KIT/bin/rt: makes the files that build.py looks for, and takes its time.

Like the kit's, it starts what works for it in a group of its own, under a shell that ends that group as soon as `rt` is gone. The
environment tells it: FAKE_LOG, where it writes each crate that it begins with; FAKE_SECONDS for a line of code; FAKE_REFUSES and FAKE_STAYS,
a crate that isn't proved and one that never ends.
"""

import os
import pathlib
import signal
import subprocess
import sys
import time


def guarded(*words):
    """Runs this as the kit's `rt` does, and says how it ended. The shell is slow, as on a machine with much to do."""
    ends, _held = os.pipe()
    guard = subprocess.Popen(["sh", "-c", "read _; sleep 0.5; kill -9 0"], preexec_fn=os.setpgrp, stdin=ends)
    status = subprocess.call(words, stdin=subprocess.DEVNULL, preexec_fn=lambda: os.setpgid(0, guard.pid))
    os.killpg(guard.pid, signal.SIGKILL)
    guard.wait()
    return status


def uses():
    lines = (line.partition(":") for line in pathlib.Path("../../crates.txt").read_text("utf-8").splitlines())
    return {name.split()[0]: below.split() for name, _, below in lines}


def main(verb, *words):
    if verb == "version":
        print("a kit for tests")
        return 0
    name, out = os.path.basename(os.getcwd()), pathlib.Path("out")
    if (out / "rlib/stamp").exists():
        return 0
    with open(os.environ["FAKE_LOG"], "a", encoding="utf-8") as log:
        log.write(f"{name} {' '.join([verb, *words])}\n")
    for it in uses()[name]:
        if not pathlib.Path(f"../{it}/out/rlib/{it}.rlib").is_dir():
            print(f"{name}: {it} isn't there")
            return 1
    lines = pathlib.Path("src/lib.rt").read_text("utf-8").count("\n")
    seconds = 200 if os.environ.get("FAKE_STAYS") == name else lines * float(os.environ["FAKE_SECONDS"])
    status = guarded("sleep", str(seconds))
    if status or os.environ.get("FAKE_REFUSES") == name:
        print(f"{name}: an open goal")
        return 1
    (out / f"rlib/{name}.rlib").mkdir(parents=True, exist_ok=True)
    if any(it.startswith("--cpu=") for it in words):
        made = out / (name if verb == "run" else f"lib{name}.a")
        made.write_text("#!/bin/sh\necho it runs\n", "ascii")
        made.chmod(0o755)
    else:
        (out / "rlib/stamp").write_text("proved", "ascii")
    return 0


if __name__ == "__main__":
    sys.exit(main(*sys.argv[1:]))
