#!/usr/bin/env python3
"""Whether edits/run.sh notes what it tried and no more, and whether its check sees what has changed since: in a repository of three crates, with a script in
place of `rt` that refuses what it is told to. Takes some seconds; the last line is 'N passed, M failed'."""

import os
import shutil
import subprocess
import sys
import tempfile
from pathlib import Path

TOP = Path(__file__).resolve().parents[2]
LOW = """use std::alloc::Global;

/// Adds one.
pub fn raised(x: u8) -> u8
    requires small { x < 255 }
    ensures more { result ≡ x + 1 }
{
    let one = 1;
    x + one
}
"""
HIGH = """pub struct Count {
    at: u8,
}

impl Count {
    /// Goes on.
    #[inline]
    pub fn next(&mut self) -> u8
        ensures next { result ≡ self.new.at }
    {
        self.at = low::raised(self.at);
        let now = self.at;
        now
    }

    fn none(&self) -> bool {
        self.at == 0
    }
}

pub fn twice(x: u8) -> u8 {
    low::raised(low::raised(x))
}
"""
EDITS = {
    "counts_from_nothing": ("self.at = low::raised(self.at);", "self.at = low::raised(0);"),
    "answers_zero": ("let now = self.at;", "let now = 0;"),
    "none_is_some": ("self.at == 0", "self.at != 0"),
    "once": ("low::raised(low::raised(x))", "low::raised(x)"),
    "other_start": ("    at: u8,\n", "    at: u16,\n"),
}
# In place of `rt`: it takes no source for proved that has a word of WRONG, and says so as `rt` does.
RT = '''#!/usr/bin/env python3
import glob, os, sys
WRONG = {"raised(0)": "note: src/lib.rt:7:5: it is not proved that", "now = 0": "./proofs/Count/next/Answers.antt:3:1: error: `next`: expected type `a`",
         "!= 0": "note: src/lib.rt:16:5: it is not proved that", "low::raised(x)\\n": "./proofs/twice/Answers.antt:3:1: error: `x`: module `Goals` has no `x`"}
ALONE = {"once": "note: src/lib.rt:21:1: it is not proved", "other_start": os.environ.get("OTHER", "note: src/lib.rt:1:1: it is not proved")}
if sys.argv[1] == "version":
    print("kit logic", os.environ.get("LOGIC", "abc"))
elif sys.argv[1] == "check":
    os.makedirs("out/incremental", exist_ok=True)
    text = open("src/lib.rt").read()
    told = [why for word, why in WRONG.items() if word in text]
    print("\\n".join([*told, "logic=not-proved" if told else "logic=proved"]))
    sys.exit(1 if told else 0)
elif sys.argv[1] == "must-fail":
    for edit in sorted(glob.glob(f"crates/{sys.argv[2]}/must-fail/*.edit")):
        name = os.path.basename(edit)
        print(f"rt: must-fail {sys.argv[2]}/{name}: refused, as it must be{ALONE.get(name[:-5], ': open')}")
'''


SAYS = {"same": (0, "1 passed, 0 failed"), "stale": (0, "1 passed, 0 failed, 1 stale"), "fails": (1, "0 passed, 1 failed")}


class Runs:
    def __init__(self, room):
        self.room, self.passed, self.failed = Path(room), 0, 0
        self.environment = {**os.environ, "PATH": f"{room}/bin:{os.environ['PATH']}"}

    def write(self, path, text):
        path = self.room / path
        path.parent.mkdir(parents=True, exist_ok=True)
        path.write_text(text, encoding="utf-8")

    def change(self, path, old, new):
        text = (self.room / path).read_text(encoding="utf-8")
        assert old in text, (path, old)
        self.write(path, text.replace(old, new))

    def says(self, *words, **environment):
        ran = subprocess.run([f"{self.room}/edits/run.sh", *words], capture_output=True, text=True, env={**self.environment, **environment})
        return ran.returncode, ran.stdout.strip().split("\n")

    def wants(self, what, words, status, last, also=lambda said: True, **environment):
        """Whether the command ends so, with this last line, and what else is asked of its lines."""
        got, said = self.says(*words, **environment)
        good = (got, said[-1]) == (status, last) and also(said)
        self.passed, self.failed = self.passed + bool(good), self.failed + (not good)
        if not good:
            print(f"failed: {what}: {got}, {said}")

    def lines(self):
        file = self.room / "edits/TRIED"
        return {it.split()[0]: it.split() for it in file.read_text().splitlines() if not it.startswith("#")} if file.exists() else {}


def repository(runs):
    for it in ("run.sh", "run.py", "tried.py", "batches.py", "apply.py"):
        (runs.room / "edits").mkdir(exist_ok=True)
        shutil.copy2(TOP / "edits" / it, runs.room / "edits" / it)
    runs.write("bin/rt", RT)
    (runs.room / "bin/rt").chmod(0o755)
    runs.write("crates.txt", "low:\nhigh: low\ntop: high\n")
    runs.write("HANDLES", "Handles allowed: none.\n")
    for name, text in (("low", LOW), ("high", HIGH), ("top", "pub fn top() {}\n")):
        runs.write(f"crates/{name}/src/lib.rt", text)
        runs.write(f"crates/{name}/specs/Lib.antt", f"-- What {name} is.\nof-{name} : ℕ\n")
        runs.write(f"crates/{name}/proofs/Lib.antt", "mod Other\n")
    for name, (old, new) in EDITS.items():
        runs.write(f"edits/high/{name}.edit", f"file: src/lib.rt\nold: {old.strip(chr(10))}\nnew: {new.strip(chr(10))}\n")


def tries(runs):
    """What is noted of edits that are refused together, alone, for a name, or not."""
    runs.wants("no line yet", ["--check"], 0, "1 passed, 0 failed, 1 stale", lambda said: "no line" in said[0])
    for why, other in (("a name", "a proof file names what the edit took away"), ("a limit", "by a limit of the prover")):
        runs.wants(f"refused only for {why}", ["high"], 1, "4 passed, 1 failed", lambda said: not runs.lines(), OTHER=f" (only because {other}): x")
    runs.wants("all refused, three of them together and two alone", ["high"], 0, "5 passed, 0 failed", lambda said: runs.lines()["high"][4] == "5"
               and "high: 3 of 5 refused together" in said and sum("must-fail high/" in it for it in said) == 2)
    runs.wants("the line fits", ["--check"], *SAYS["same"])
    runs.write("edits/high/means_the_same.edit", "file: src/lib.rt\nold: self.at == 0\nnew: 0 == self.at\n")
    runs.wants("an edit more", ["--check"], *SAYS["fails"], lambda said: "edits/run.sh high" in said[0])
    runs.change("bin/rt", "refused, as it must be{ALONE", "{'NOT REFUSED' if name[:5] == 'means' else 'refused, as it must be'}{ALONE")
    runs.wants("one isn't refused", ["--stale"], 1, "5 passed, 1 failed", lambda said: runs.lines()["high"][4] == "5")
    (runs.room / "edits/high/means_the_same.edit").unlink()
    runs.change("bin/rt", '{"raised(0)"', '{"pub struct Count": "note: src/lib.rt:1:1: it is not proved", "raised(0)"')
    runs.wants("a crate that isn't proved", ["high"], 1, "0 passed, 5 failed", lambda said: "isn't proved" in "".join(said))
    runs.wants("no such crate", ["nothing"], 1, "")


CHANGES = [
    # What is changed, from what, to what, and whether it is no change, makes the crate stale, or fails.
    ("low/src/lib.rt", "let one = 1;", "let one = 2;", "same"),
    ("low/src/lib.rt", "/// Adds one.", "/// Adds 1.", "same"),
    ("low/specs/Lib.antt", "-- What", "-- which", "same"),
    ("low/proofs/Lib.antt", "mod Other", "mod Another", "same"),
    ("low/src/lib.rt", "x + 1 }", "x + 2 }", "stale"),
    ("low/src/lib.rt", "x < 255", "x < 254", "stale"),
    ("low/specs/Lib.antt", "ℕ", "ℤ", "stale"),
    ("top/src/lib.rt", "top()", "other()", "same"),
    ("high/src/lib.rt", "/// Goes on.", "/// Goes further.", "same"),
    ("high/src/lib.rt", "= self.at;", "= self.at + 0;", "fails"),
    ("high/src/lib.rt", "ensures next", "ensures other", "fails"),
    ("high/specs/Lib.antt", "ℕ", "ℤ", "fails"),
    ("high/proofs/Lib.antt", "mod Other", "mod Another", "fails"),
]


def changes(runs):
    for path, old, new, wanted in CHANGES:
        runs.change(f"crates/{path}", old, new)
        runs.wants(f"{path}: {old} to {new} is told as {wanted}", ["--check"], *SAYS[wanted])
        runs.change(f"crates/{path}", new, old)
    runs.wants("another logic is told as stale", ["--check"], *SAYS["stale"], LOGIC="other")
    runs.wants("as it was", ["--check"], *SAYS["same"])
    shutil.rmtree(runs.room / "edits/high")
    runs.wants("a line without edits", ["--check"], 1, "0 passed, 1 failed", lambda said: "take its line out" in said[0])


def main():
    with tempfile.TemporaryDirectory(prefix="edits-tests-") as room:
        runs = Runs(room)
        repository(runs)
        tries(runs)
        changes(runs)
        print(f"{runs.passed} passed, {runs.failed} failed")
        return 1 if runs.failed or not runs.passed else 0


if __name__ == "__main__":
    sys.exit(main())
