"""Runs build.py in a small repository of its own, over a `rt` that proves nothing and only takes its time (kit.py).

Tried are what it says while it works, how it ends when it is told to, two at once, a disk that is full, and a crate that isn't proved. The
last line is 'N passed, M failed'.
"""

import os
import re
import shutil
import signal
import subprocess
import sys
import tempfile
import time
from pathlib import Path

HERE = Path(__file__).resolve().parent
TOP = HERE.parents[1]
# With the lines of each crate: `slow` is the longest.
CRATES = {"low": ("", 12), "side": ("", 20), "slow": ("low", 16), "sazh": ("side slow", 18), "age_c staticlib": ("low", 3)}
# What it says of its work: what is proved, how many are left, and what the rest is guessed to take.
TOLD = r"sazh: +\d+\.\d min: proving (\w+ \(\d+\.\d min\)(?: and \w+ \(\d+\.\d min\))?), (\d) left(, some \d+ min more)?"
PROVED = re.compile(r"sazh: +\d+\.\d min: (\w+) is proved, (\d) left")
# What the tests have shorter than it is.
SHORTER = {"EVERY = 60": "EVERY = 0.3"}


class Tries:
    """Counts what is as it has to be, in a folder with a repository, a kit and a folder for temporary files."""

    def __init__(self, folder):
        self.folder, self.passed, self.failed = Path(folder), 0, 0
        self.top, self.temporary, self.log = self.folder / "repository", self.folder / "temporary", self.folder / "log"
        kit = self.folder / "kit/bin"
        kit.mkdir(parents=True)
        (kit / "rt").write_text((HERE / "kit.py").read_text("utf-8").replace("/usr/bin/env python3", f"{sys.executable} -IS", 1), "utf-8")
        (kit / "rt").chmod(0o755)
        (kit / "rtlib.py").write_text(RTLIB, "ascii")
        self.environment = {**os.environ, "PATH": f"{kit}:{os.environ['PATH']}", "TMPDIR": str(self.temporary), "FAKE_LOG": str(self.log)}
        self.environment.pop("SAZH_CPU", None)

    def ends(self, what, good):
        self.passed, self.failed = self.passed + bool(good), self.failed + (not good)
        if not good:
            print(f"FAILED: {what}", flush=True)

    def fresh(self, **constants):
        """A repository where nothing was built, with these constants in its build.py."""
        for it in (self.top, self.temporary):
            shutil.rmtree(it, ignore_errors=True)
            it.mkdir()
        text = (TOP / "build.py").read_text("utf-8")
        for old, new in {**SHORTER, **constants}.items():
            self.ends(f"build.py has {old}", text.count(f"\n{old}\n") == 1)
            text = text.replace(f"\n{old}\n", f"\n{new}\n")
        (self.top / "build.py").write_text(text, "utf-8")
        shutil.copy(TOP / "sazh", self.top)
        (self.top / "crates.txt").write_text("".join(f"{name}: {below}\n" for name, (below, _) in CRATES.items()), "ascii")
        for name, (_, lines) in CRATES.items():
            source = self.top / "crates" / name.split()[0] / "src"
            source.mkdir(parents=True)
            (source / "lib.rt").write_text("line\n" * lines, "ascii")
        self.log.write_text("", "ascii")

    def begins(self, *words, before=(), script=False, **environment):
        build = [self.top / "sazh"] if script else [sys.executable, self.top / "build.py"]
        words = [*before, *build, *(words or ("sazh", "--version"))]
        how = {"stdin": subprocess.DEVNULL, "stdout": subprocess.PIPE, "stderr": subprocess.STDOUT, "text": True}
        return subprocess.Popen(words, env={**self.environment, "FAKE_SECONDS": "0.05", **environment}, **how)

    def builds(self, *words, **environment):
        """The status and the lines of a whole run."""
        process = self.begins(*words, **environment)
        said = process.communicate(timeout=60)[0]
        return process.returncode, said.splitlines()

    def begun(self):
        """The crates that `rt` began with, in that order."""
        return [line.split()[0] for line in self.log.read_text("ascii").splitlines()]

    def waits_for(self, what, reached):
        until = time.monotonic() + 30
        while not reached() and time.monotonic() < until:
            time.sleep(0.02)
        self.ends(what, reached())

    def at_work(self):
        """The processes that a build has here, by the log that they were told of."""
        mark, found = f"FAKE_LOG={self.log}".encode(), []
        for it in Path("/proc").glob("[0-9]*"):
            try:
                if mark in (it / "environ").read_bytes() and (it / "stat").read_text().rpartition(")")[2].split()[0] != "Z":
                    found.append((it / "cmdline").read_bytes())
            except OSError:
                pass
        return found

    def stays(self):
        """Whether what works for the crate that never ends is at work."""
        return b"sleep\x00200\x00" in self.at_work()

    def is_clean(self, what):
        self.ends(f"{what}: no process is left: {self.at_work()}", not self.at_work())
        self.ends(f"{what}: no folder is left", not os.listdir(self.temporary) and not (self.top / "out/moved").exists())


# What build.py asks of the kit to take the libraries of a gate for built.
RTLIB = '''
import os

class Crate:
    def __init__(self, folder, top, _):
        self.folder, self.top = folder, top

    def below(self):
        folder = f"{self.top}/crates"
        return [Crate(f"{folder}/{it}", self.top, {}) for it in os.listdir(folder) if f"{folder}/{it}" != self.folder]

    def stamp(self):
        return "proved"

    def is_built(self):
        return os.path.exists(f"{self.folder}/out/rlib/stamp")

def root_above(folder):
    return os.path.dirname(os.path.dirname(folder))
'''


def whole(tries):
    """A build from nothing proves each crate once and says what it is at, and the next has nothing to do."""
    tries.fresh()
    # (each crate for a second or two, so that what it is at is told of each, also on a slow machine)
    status, lines = tries.builds(FAKE_SECONDS="0.1")
    tries.ends(f"a whole build: {status}, {lines}", status == 0 and lines[0].startswith("sazh: proving 4 crates on "))
    tries.ends("each crate once", sorted(tries.begun()) == ["low", "sazh", "side", "slow"] and tries.begun()[-1] == "sazh")
    proved = [PROVED.fullmatch(it) for it in lines]
    tries.ends(f"each is told: {lines}", [it[2] for it in proved if it] == ["3", "2", "1", "0"])
    told = [(i, re.fullmatch(TOLD, it)) for i, it in enumerate(lines)]
    told, first = [(i, it) for i, it in told if it], next((i for i, it in enumerate(proved) if it), 0)
    tries.ends(f"two side by side: {lines}", any(" and " in it[1] for _, it in told))
    tries.ends(f"the last crate alone: {lines}", any(it[1].startswith("sazh (") and it[2] == "1" for _, it in told))
    tries.ends(f"a guess as soon as a time is known: {lines}", all(bool(it[3]) == (i > first) for i, it in told))
    tries.is_clean("a whole build")
    tries.ends("nothing to do", tries.builds() == (0, []) and len(tries.begun()) == 4)
    (tries.top / "crates/side/src/lib.rt").write_text("another\n", "ascii")
    shutil.rmtree(tries.top / "crates/side/out")
    status, lines = tries.builds(FAKE_SECONDS="0")
    tries.ends(f"after a change: {status}, {lines}", status == 0 and tries.begun()[4:] == ["side", "sazh"])


def told_to_end(tries):
    """It ends at a signal with all that it started, and keeps what is proved."""
    for number in (signal.SIGTERM, signal.SIGHUP, signal.SIGINT):
        tries.fresh()
        process = tries.begins(FAKE_STAYS="slow")
        tries.waits_for(f"{number.name}: slow is at work", tries.stays)
        process.send_signal(number)
        start = time.monotonic()
        said = process.communicate(timeout=30)[0].splitlines()
        tries.ends(f"{number.name}: it ends at once", time.monotonic() - start < 8)
        tries.ends(f"{number.name}: status {process.returncode}", process.returncode == 128 + number)
        last = f"sazh: ended by {number.name}; what was proved is kept, and the next run goes on from there"
        tries.ends(f"{number.name}: {said}", said[-1] == last and sum("ended" in it for it in said) == 1)
        tries.is_clean(number.name)
        before = {it[1] for it in map(PROVED.fullmatch, said) if it}
        status, lines = tries.builds(**({} if number == signal.SIGTERM else {"FAKE_SECONDS": "0"}))
        known = next(i for i, it in enumerate(map(PROVED.fullmatch, lines)) if it and it[1] not in before)
        tries.ends(f"{number.name}: what is kept says nothing of the time: {lines}", not any("more" in it for it in lines[:known]))
        begun = [tries.begun().count(it) for it in ("low", "slow")]
        tries.ends(f"{number.name}: the next goes on: {status}, {lines}", status == 0 and begun == [1, 2])
    tries.fresh()
    process = tries.begins(script=True, FAKE_STAYS="slow")
    tries.waits_for("./sazh: slow is at work", tries.stays)
    process.terminate()
    said = process.communicate(timeout=30)[0].splitlines()
    tries.ends(f"./sazh: {process.returncode}, {said}", process.returncode == -signal.SIGTERM and "ended by SIGTERM" in said[-1])
    tries.waits_for("./sazh: no process is left", lambda: not tries.at_work())
    tries.is_clean("./sazh")
    status, lines = tries.builds(script=True, FAKE_SECONDS="0")
    tries.ends(f"./sazh goes on and runs the program: {status}, {lines}", status == 0 and lines[-1] == "it runs" and tries.begun().count("low") == 1)
    tries.fresh()
    process = tries.begins(before=["nohup"], FAKE_SECONDS="0.02")
    tries.waits_for("nohup: low is begun", lambda: "low" in tries.begun())
    process.send_signal(signal.SIGHUP)
    said = process.communicate(timeout=30)[0]
    tries.ends(f"nohup: {process.returncode}, {said}", process.returncode == 0 and "ended" not in said)


def killed(tries):
    """Killed, it takes what it started with it and leaves no lock; its folder goes at the next start."""
    tries.fresh()
    process = tries.begins(FAKE_STAYS="slow")
    tries.waits_for("KILL: slow is at work", tries.stays)
    process.kill()
    process.communicate(timeout=30)
    tries.waits_for("KILL: no process is left", lambda: not tries.at_work())
    tries.ends("KILL: its folder is left", len(os.listdir(tries.temporary)) == 1)
    other = tries.temporary / "sazh-build-0123456789abcdef"
    other.mkdir()
    status, lines = tries.builds(FAKE_SECONDS="0")
    tries.ends(f"KILL: the next goes on: {status}, {lines}", status == 0 and tries.begun().count("low") == 1)
    tries.ends("KILL: its folder is gone, and no other", os.listdir(tries.temporary) == [other.name])


def at_once(tries):
    """A second build of a clone waits for the first, also one of another program."""
    tries.fresh()
    first = tries.begins()
    tries.waits_for("the first is at work", lambda: tries.begun())
    second, third = tries.begins(), tries.begins("age_c")
    tries.waits_for("both wait", lambda: len([it for it in tries.at_work() if b"build.py" in it]) == 3)
    said = [it.communicate(timeout=60)[0].splitlines() for it in (first, second, third)]
    tries.ends("all three succeed", [it.returncode for it in (first, second, third)] == [0, 0, 0])
    waits = "another build in this folder is at work; waiting for it"
    tries.ends(f"the second: {said[1]}", said[1] == [f"sazh: {waits}"])
    tries.ends(f"the third: {said[2]}", said[2][0] == f"age_c: {waits}" and said[2][-1].endswith(": age_c is proved, 0 left"))
    tries.ends("the library is there", (tries.top / "crates/age_c/out/libage_c.a").is_file())
    tries.ends("each crate once", sorted(tries.begun()) == ["age_c", "low", "sazh", "side", "slow"])
    tries.is_clean("three at once")
    (tries.top / "crates/sazh/out/built_from").unlink()
    first = tries.begins(FAKE_SECONDS="0.3")
    tries.waits_for("the program is at work", lambda: tries.begun().count("sazh") == 2)
    second = tries.begins()
    second.stdout.readline()
    second.send_signal(signal.SIGTERM)
    said = second.communicate(timeout=30)[0].splitlines()
    tries.ends(f"one that waits is ended: {said}", second.returncode == 143 and len(said) == 1 and "ended by SIGTERM" in said[0])
    said = first.communicate(timeout=60)[0]
    tries.ends(f"and the first goes on: {said}", first.returncode == 0)


def refusals(tries):
    """Too little disk, a crate that isn't proved, and no kit."""
    tries.fresh(**{"DISK = 8": "DISK = 8_000_000"})
    status, lines = tries.builds()
    says = rf"sazh: proving takes 8e\+06 GB of disk, and {re.escape(str(tries.top))} has \d+\.\d: make room there"
    tries.ends(f"too little disk: {status}, {lines}", status == 2 and len(lines) == 1 and re.fullmatch(says, lines[0]) and not tries.begun())
    for name in ("low", "side", "slow"):
        (tries.top / f"crates/{name}/out/rlib/{name}.rlib").mkdir(parents=True)
        (tries.top / f"crates/{name}/out/rlib/stamp").write_text("proved", "ascii")
    status, lines = tries.builds(FAKE_SECONDS="0")
    tries.ends(f"only the program is new: {status}, {lines}", status == 0 and tries.begun() == ["sazh"])

    tries.fresh()
    status, lines = tries.builds(FAKE_REFUSES="slow", FAKE_SECONDS="0.01")
    tries.ends(f"not proved: {status}, {lines}", status == 3 and lines[-2:] == ["slow: an open goal", "sazh: slow could not be proved"])
    tries.is_clean("not proved")
    status, lines = tries.builds(PATH=str(tries.folder / "nothing"))
    tries.ends(f"no kit: {status}, {lines}", status == 2 and len(lines) == 1 and "none on the path" in lines[0])


def after_gate(tries):
    """Over the libraries that a gate left the program alone is proved."""
    tries.fresh()
    for name in ("low", "side", "slow"):
        (tries.top / f"crates/{name}/out/rlib/{name}.rlib").mkdir(parents=True)
    status, lines = tries.builds("--after-gate", "sazh", "--version", FAKE_SECONDS="0")
    tries.ends(f"after a gate: {status}, {lines}", status == 0 and tries.begun() == ["sazh"])
    tries.ends("it says so", lines[0].startswith("sazh: building it for ") and lines[0].endswith(", with the libraries that are proved"))
    tries.is_clean("after a gate")
    tries.fresh()
    status, lines = tries.builds("--after-gate", "sazh", "--version", FAKE_SECONDS="0")
    tries.ends(f"where a gate left nothing: {status}, {lines}", status == 0 and len(tries.begun()) == 4)


def main():
    with tempfile.TemporaryDirectory() as folder:
        tries = Tries(folder)
        for part in (whole, told_to_end, killed, at_once, refusals, after_gate):
            part(tries)
    print(f"{tries.passed} passed, {tries.failed} failed")
    return 1 if tries.failed else 0


if __name__ == "__main__":
    sys.exit(main())
