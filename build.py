#!/usr/bin/env python3
"""Proves and builds a program, with the libraries below it side by side, where something has changed since the last time:
build.py PROGRAM WORD.., where the words are those of a run of it that succeeds. build.py LIBRARY does the same for a static library, which is
crates/LIBRARY/out/libLIBRARY.a then. build.py --level prints the level that it would be compiled for. build.py --after-gate PROGRAM WORD.. takes the
libraries that an `rt ci` has just left in a clone where nothing was built before, and proves and builds the program alone; where it left none, all is
proved as ever.

Says on standard error which crates it proves and how many are left, once a minute what it is at and about how long the rest takes, and nothing where
there is nothing to do. Each crate
is proved by `rt lib` over what earlier runs have kept, as soon as those that it uses are there, the one with the longest
chain above it first, with most of the processors' time and by as many jobs as there are processors, four at most, one whose
chain is nearly as long by half as many, the others by one. `rt` locks a crate and all below it, so each is proved in a folder
of its own, with the libraries below it beside it. Exit status 3 where a crate isn't proved, 2 where the disk has too little room.

Ended by TERM, HUP or INT it ends all that it started, and its exit status is 128 and the signal's number. What was proved until then is kept. So it
ends with a script that waits for it and has its own number in SAZH_WAITS. Two of them in one clone work one after the other.

The program is compiled for the level of the processors here, x86-64-v3 where they have all of it and x86-64-v2 elsewhere, or for the
one that SAZH_CPU names, as for a program that is carried to another machine. The proofs are the same: for another level the program alone is
built anew. Exit status 2 where SAZH_CPU names no level, or one that the processors here lack.

`sazh` is then linked once more, with the C library inside, where the machine has that as a static library: such a file needs none
where it runs, and takes half a MiB less of memory. Elsewhere the program stays as the kit linked it, and a line says so.
"""
import contextlib
import ctypes
import fcntl
import hashlib
import importlib
import os
import re
import shutil
import signal
import subprocess
import sys
import tempfile
import time

TOP = os.path.dirname(os.path.abspath(__file__))
AFTER_GATE = sys.argv[1] == "--after-gate"
PROGRAM, *WORDS = sys.argv[1 + AFTER_GATE :]
# Who tells of a refusal.
WHO = "build.py" if PROGRAM == "--level" else PROGRAM
STAMP = f"{TOP}/crates/{PROGRAM}/out/built_from"
# The lock of the clone, with the folder that the last build worked in, and where what is moved into its place stands before.
LOCK = f"{TOP}/out/lock"
MOVED = f"{TOP}/out/moved"
# What a job of a check takes, in GB.
MEMORY = 1.5
# What the clone holds once all is proved, in GB: what `rt` keeps for later runs, too.
DISK = 8
# After how many seconds it says again what it is at.
EVERY = 60
# By their numbers in Linux: what a process gets when the one that started it ends, and whether it gets the processes below it whose parent ends.
PARENT_DEATH_SIGNAL, CHILD_SUBREAPER = 1, 36
PRCTL = ctypes.CDLL(None).prctl
# The signals that told it to end, so far.
TOLD = []
# The levels that a program can be compiled for, and what a processor of the second has beyond the first, in the words of Linux.
LEVELS = ["x86-64-v2", "x86-64-v3"]
OF_V3 = {"abm", "avx", "avx2", "bmi1", "bmi2", "f16c", "fma", "movbe", "xsave"}


class Ended(Exception):
    """It was told to end."""


def listen():
    """Notes a signal that tells it to end, also the end of the script that waits for it: so it ends where it knows all that it has started."""
    for it in (signal.SIGTERM, signal.SIGHUP, signal.SIGINT):
        # (`nohup`, and a shell for what it runs beside itself, has one ignored: it stays so)
        if signal.getsignal(it) is not signal.SIG_IGN:
            signal.signal(it, lambda number, _: TOLD.append(number))
    if os.environ.get("SAZH_WAITS") == str(os.getppid()):
        PRCTL(PARENT_DEATH_SIGNAL, signal.SIGTERM)


def end_if_told():
    if TOLD:
        raise Ended


def say(text):
    # (a terminal that was closed takes no more, and what was started has to be ended all the same)
    with contextlib.suppress(OSError):
        print(f"{WHO}: {text}", file=sys.stderr, flush=True)


def named():
    """The lines of crates.txt, each cut at its colon."""
    with open(f"{TOP}/crates.txt", encoding="utf-8") as file:
        return [line.partition("#")[0].partition(":") for line in file]


# Whether it is a static library, and what is built.
STATIC = any(name.split() == [PROGRAM, "staticlib"] for name, _, _ in named())
PRODUCT = f"{TOP}/crates/{PROGRAM}/out/" + (f"lib{PROGRAM}.a" if STATIC else PROGRAM)


def crates():
    """The crates below the program and itself, with those of the repository that each uses."""
    lines = named()
    uses = {name.split()[0]: words.split() for name, _, words in lines if name.strip()}
    found, left = {}, [PROGRAM]
    while left:
        name = left.pop()
        if name not in found:
            found[name] = [it for it in uses[name] if it in uses]
            left += found[name]
    return found


def level():
    """The level to compile the program for."""
    with open("/proc/cpuinfo", encoding="utf-8") as file:
        flags = [set(line.partition(":")[2].split()) for line in file if line.startswith("flags")]
    here = LEVELS[1] if flags and all(OF_V3 <= it for it in flags) else LEVELS[0]
    asked = os.environ.get("SAZH_CPU") or here
    if asked not in LEVELS:
        print(f"{WHO}: SAZH_CPU is {asked}, and not one of {', '.join(LEVELS)}", file=sys.stderr)
        sys.exit(2)
    if LEVELS.index(asked) > LEVELS.index(here):
        # (a program is run as soon as it is built, so none is built here for a better machine)
        print(f"{WHO}: the processors here lack a feature of {asked}, which SAZH_CPU asks for", file=sys.stderr)
        sys.exit(2)
    return asked


def sources(name):
    for at, folders, files in os.walk(f"{TOP}/crates/{name}"):
        folders[:] = sorted(it for it in folders if it not in ("out", "must-fail"))
        yield from (os.path.join(at, it) for it in sorted(files))


def built_from(names):
    """A digest of all that the program is made of, whatever it is compiled for."""
    version = subprocess.run(["rt", "version"], stdin=subprocess.DEVNULL, capture_output=True)
    end_if_told()
    version.check_returncode()
    digest = hashlib.sha256(version.stdout)
    for path in [f"{TOP}/crates.txt", *(it for name in sorted(names) for it in sources(name))]:
        with open(path, "rb") as file:
            text = file.read()
        digest.update(f"{os.path.relpath(path, TOP)} {len(text)}\n".encode() + text)
    return digest.hexdigest()


def work(name):
    """What a crate takes to be proved: by its lines of code, since an answer in words costs little, and a start."""
    lines = {it: open(it, "rb").read().count(b"\n") for it in sources(name)}
    code = sum(it for path, it in lines.items() if path.endswith(".rt"))
    return 60 + code + (sum(lines.values()) - code) / 100


def works(uses):
    """What each crate takes."""
    found = {name: work(name) for name in uses}
    # (the program is compiled, and linked with the proofs of all below it: of `sazh` that is two fifths of its time)
    found[PROGRAM] += sum(found[name] for name in below(PROGRAM, uses)) / 10
    return found


def free_memory():
    with open("/proc/meminfo", encoding="utf-8") as file:
        return int(re.search(r"MemAvailable:\s+(\d+)", file.read())[1]) / 1e6


def chain(name, above, weight):
    """The work that can be done only one after another from this crate on."""
    return weight[name] + max((chain(it, above, weight) for it in above[name]), default=0)


def link(source, target):
    try:
        os.link(source, target)
    except OSError:
        shutil.copy2(source, target)


def below(name, uses):
    return {it for used in uses[name] for it in {used, *below(used, uses)}}


def kit():
    """The folder of the kit."""
    return os.path.dirname(os.path.dirname(os.path.realpath(shutil.which("rt"))))


def left_by_gate(uses):
    """The libraries below the program, where `rt ci` left all of them. `rt` takes none of these for built, since they fit one another alone."""
    libraries = below(PROGRAM, uses)
    out = {name: f"{TOP}/crates/{name}/out/rlib" for name in libraries}
    whole = all(os.path.isdir(f"{out[it]}/{it}.rlib") and not os.path.exists(f"{out[it]}/stamp") for it in libraries)
    return libraries if whole else set()


class OtherKit(Exception):
    """The kit's `rt` notes in another way what is built."""


def is_noted(folder):
    """Has `rt` take the libraries below the crate of this folder for built, where all of them are of one `rt ci`. Says whether that can be done."""
    sys.path.insert(0, f"{kit()}/bin")
    try:
        rtlib = importlib.import_module("rtlib")
        libraries = rtlib.Crate(folder, rtlib.root_above(folder), {}).below()
        for it in libraries:
            with open(f"{it.folder}/out/rlib/stamp", "x", encoding="utf-8") as file:
                file.write(it.stamp())
        return all(it.is_built() for it in libraries)
    except (Exception, SystemExit):
        return False


@contextlib.contextmanager
def alone():
    """Has no other build of this clone beside it."""
    os.makedirs(os.path.dirname(LOCK), exist_ok=True)
    with open(LOCK, "a+", encoding="utf-8") as lock:
        waits = False
        while True:
            try:
                fcntl.flock(lock, fcntl.LOCK_EX | fcntl.LOCK_NB)
                break
            except BlockingIOError:
                if not waits:
                    say("another build in this folder is at work; waiting for it")
                waits = True
            time.sleep(0.2)
            end_if_told()
        yield


@contextlib.contextmanager
def new_room():
    """A folder that is removed at the end, or by the next build of the clone where this one is killed."""
    with open(LOCK, encoding="utf-8") as lock:
        left = lock.read()
    # (its process is gone, since it held the lock)
    if re.fullmatch(r"/.*/\w+-build-[0-9a-f]{16}", left):
        shutil.rmtree(left, ignore_errors=True)
    shutil.rmtree(MOVED, ignore_errors=True)
    room = f"{tempfile.gettempdir()}/{PROGRAM}-build-{os.urandom(8).hex()}"
    with open(LOCK, "w", encoding="utf-8") as lock:
        lock.write(room)
    os.mkdir(room, 0o700)
    try:
        yield room
    finally:
        shutil.rmtree(room, ignore_errors=True)


def begin_apart():
    """Has a process begin a group, which the keys of a terminal don't reach, and end if this one is killed."""
    # (a group and no session of its own: between sessions Linux shares the processors out whatever `nice` says)
    os.setpgrp()
    PRCTL(PARENT_DEATH_SIGNAL, signal.SIGKILL)


class Run:
    """A crate that is proved in a folder of its own."""

    def __init__(self, name, uses, cpu, jobs, niceness, after_gate, room):
        self.name, self.jobs, self.began = name, jobs, time.monotonic()
        self.room = f"{room}/{name}"
        os.mkdir(self.room)
        libraries = below(name, uses)
        with open(f"{TOP}/crates.txt", encoding="utf-8") as file:
            lines = [line for line in file if set(line.partition(":")[0].split()[:1]) & {name, *libraries}]
        with open(f"{self.room}/crates.txt", "w", encoding="utf-8") as file:
            file.writelines(lines)
        kept = shutil.ignore_patterns("incremental", "must-fail")
        for it in libraries:
            shutil.copytree(f"{TOP}/crates/{it}", f"{self.room}/crates/{it}", ignore=kept, copy_function=link)
        folder = f"{self.room}/crates/{name}"
        shutil.copytree(f"{TOP}/crates/{name}", folder, copy_function=link)
        if after_gate and not is_noted(folder):
            raise OtherKit
        words = ["nice", f"-n{niceness}", "rt", "lib", "--jobs", str(jobs)]
        if name == PROGRAM:
            built = ["rt", "lib" if STATIC else "run", f"--cpu={cpu}", "--jobs", str(jobs)]
            words = built if STATIC else [*built, "--", *WORDS]
        self.found = self.made_at()
        self.log = f"{self.room}/log"
        with open(self.log, "wb") as log:
            self.process = subprocess.Popen(words, cwd=folder, stdin=subprocess.DEVNULL, stdout=log, stderr=log, preexec_fn=begin_apart)

    def seconds(self):
        return time.monotonic() - self.began

    def made_at(self):
        """When its library was made, or None where there is none."""
        folder = f"{self.room}/crates/{self.name}/out/rlib"
        return os.stat(folder).st_mtime_ns if os.path.isdir(folder) else None

    def was_kept(self):
        """Whether an earlier run had proved it: then its time says nothing of how fast this one is."""
        return self.found is not None and self.found == self.made_at()

    def keep(self):
        """Puts what was built into its place."""
        out = f"{TOP}/crates/{self.name}/out"
        # (from another disk it comes slowly, and what was cut off shall not stand there for the whole)
        shutil.move(f"{self.room}/crates/{self.name}/out", MOVED)
        shutil.rmtree(out, ignore_errors=True)
        os.rename(MOVED, out)
        shutil.rmtree(self.room, ignore_errors=True)

    def said(self):
        with open(self.log, encoding="utf-8", errors="replace") as log:
            return log.read()


def end(runs):
    """Ends these and all that they started."""
    PRCTL(CHILD_SUBREAPER, 1)
    for it in runs:
        if it.process.poll() is None:
            os.killpg(it.process.pid, signal.SIGKILL)
    # (`rt` starts others in groups that end themselves once it is gone, and from now on they come to this process then)
    until = time.monotonic() + 10
    with contextlib.suppress(ChildProcessError):
        while time.monotonic() < until:
            if os.waitpid(-1, os.WNOHANG) == (0, 0):
                time.sleep(0.05)


class Build:
    """The crates that a program is made of: which are done, which are proved now, and how fast this machine was so far."""

    def __init__(self, uses, cpu, done, after_gate):
        self.uses, self.cpu, self.after_gate = uses, cpu, after_gate
        self.above = {name: [it for it in uses if name in uses[it]] for name in uses}
        self.weight = works(uses)
        self.chains = {name: chain(name, self.above, self.weight) for name in uses}
        self.order = sorted(uses, key=lambda name: -self.chains[name])
        # (more processes than processors cost little, and a processor that waits for the longest crate much)
        fit = int(free_memory() / MEMORY)
        self.lanes = max(1, min(len(os.sched_getaffinity(0)), fit))
        self.most, self.jobs = min(4, self.lanes), max(self.lanes, fit)
        self.done, self.running, self.past = set(done), [], []
        self.began = self.told = time.monotonic()

    def proves_all(self):
        """Proves and builds all that isn't done. Says whether all of it is proved."""
        if self.done:
            say(f"building it for {self.cpu}, with the libraries that are proved")
        else:
            say(f"proving {len(self.uses)} crates on {self.lanes} processors, for {self.cpu}")
        with new_room() as room:
            try:
                while len(self.done) < len(self.uses):
                    self.start(room)
                    self.tell()
                    time.sleep(0.2)
                    ended = [it for it in self.running if it.process.poll() is not None]
                    # (also where what it runs was told to end, too: that isn't refused)
                    end_if_told()
                    if not all(self.takes(run) for run in ended):
                        return False
                return True
            finally:
                if self.running:
                    end(self.running)

    def start(self, room):
        """Starts the crates that can be proved now."""
        begun = self.done | {it.name for it in self.running}
        ready = [it for it in self.order if it not in begun and self.done.issuperset(self.uses[it])]
        left = max(self.chains[name] for name in self.uses if name not in self.done)
        for name in ready:
            # (a crate from which little hangs doesn't keep a longer chain waiting; each job reads what stands below anew)
            length = self.chains[name]
            ahead = sum(self.chains[it.name] >= length for it in self.running)
            jobs = self.most if length == left else max(1, self.most // 2) if length > 0.75 * left else 1
            if ahead >= self.lanes or (self.running and sum(it.jobs for it in self.running) + jobs > self.jobs):
                break
            niceness = round(19 * (1 - length / self.chains[self.order[0]]))
            self.running.append(Run(name, self.uses, self.cpu, jobs, niceness, self.after_gate, room))

    def takes(self, run):
        """Keeps what one made that has ended, and says so. Says whether it is proved."""
        if run.process.returncode != 0:
            with contextlib.suppress(OSError):
                print(run.said(), end="", file=sys.stderr)
            say(f"{run.name} could not be proved")
            return False
        self.running.remove(run)
        if not run.was_kept():
            self.past.append((run.jobs, self.weight[run.name], run.seconds()))
        run.keep()
        self.done.add(run.name)
        say(f"{self.minutes():4.1f} min: {run.name} is proved, {len(self.uses) - len(self.done)} left")
        return True

    def minutes(self):
        return (time.monotonic() - self.began) / 60

    def tell(self):
        """Says once in a while what it is at."""
        if time.monotonic() < self.told + EVERY:
            return
        self.told = time.monotonic()
        *others, last = [f"{it.name} ({it.seconds() / 60:.1f} min)" for it in self.running]
        names = f"{', '.join(others)} and {last}" if others else last
        rest = self.minutes_left()
        guess = "" if rest is None else f", some {max(1, round(rest))} min more"
        say(f"{self.minutes():4.1f} min: proving {names}, {len(self.uses) - len(self.done)} left{guess}")

    def pace(self, jobs):
        """The work that a crate with so many jobs does in a minute, by those that had as many here, or by all where there were none."""
        like = [it for it in self.past if it[0] == jobs] or self.past
        return 60 * sum(work for _, work, _ in like) / sum(seconds for _, _, seconds in like)

    def minutes_left(self):
        """How long the rest takes, as a guess: as all of it does at the speed until now, or the longest chain alone. None while nothing is known."""
        if not self.past:
            return None
        left = {name: weight for name, weight in self.weight.items() if name not in self.done}
        for it in self.running:
            # (one that takes longer than was thought may take longer still)
            left[it.name] -= min(0.95 * left[it.name], it.seconds() / 60 * self.pace(it.jobs))
        behind = sum(work for _, work, _ in self.past) + sum(self.weight[it.name] - left[it.name] for it in self.running)
        by_all = sum(left.values()) * self.minutes() / behind
        return max(by_all, max(chain(name, self.above, left) for name in left) / self.pace(self.most))


def link_alone(program):
    """Links a program that was built with the C library inside it, from the object that the kit made. Says whether that can be done here."""
    libraries = [f"{kit()}/c/libos_c.a", f"{kit()}/c/liblibc_c.a"]
    linker = ["cc", f"-B{kit()}/toolchain/bin", "-fuse-ld=lld", "-static-pie", "-s", "-Wl,--gc-sections"]
    alone = f"{program}.alone"
    try:
        made = subprocess.run([*linker, "-o", alone, f"{program}.o", *libraries], stdin=subprocess.DEVNULL, capture_output=True)
        # (a run of it, for the case that it links here and doesn't start)
        if made.returncode == 0 and subprocess.run([alone, *WORDS], stdin=subprocess.DEVNULL, capture_output=True).returncode == 0:
            os.replace(alone, program)
            return True
    except OSError:
        pass
    if os.path.exists(alone):
        os.remove(alone)
    return False


def look_for_room(uses):
    """Refuses to begin where the disk has too little room for the libraries that were never built here."""
    libraries = {name: work(name) for name in below(PROGRAM, uses)}
    new = sum(it for name, it in libraries.items() if not os.path.isdir(f"{TOP}/crates/{name}/out/rlib/{name}.rlib"))
    needed = DISK * new / max(1, sum(libraries.values()))
    temporary = tempfile.gettempdir()
    # (what is proved moves from the second to the first; on a disk of its own the second has what is proved now, over copies)
    places = {os.stat(temporary).st_dev: (temporary, needed / 2), os.stat(TOP).st_dev: (TOP, needed)}
    for path, takes in places.values():
        free = shutil.disk_usage(path).free / 1e9
        if free < takes:
            more = " or name another folder in TMPDIR" if path == temporary else ""
            say(f"proving takes {takes:.2g} GB of disk, and {path} has {free:.1f}: make room there{more}")
            sys.exit(2)


def noted():
    """What was built last: the digest of its sources, its level, and `gate` where its libraries are of an `rt ci`."""
    try:
        with open(STAMP, encoding="utf-8") as file:
            return file.read().split()
    except OSError:
        return []


def stands(uses, cpu):
    """Whether the program was built of these sources."""
    return noted()[:2] == [built_from(uses), cpu] and os.path.exists(PRODUCT)


def bring(uses, cpu):
    """Proves and builds what isn't yet."""
    digest, kept = built_from(uses), noted()
    same = kept[:1] == [digest]
    of_gate = same and kept[2:] == ["gate"]
    left = left_by_gate(uses) if AFTER_GATE or of_gate else set()
    look_for_room(uses)
    try:
        over_gate = bool(left) and Build(uses, cpu, left, after_gate=True).proves_all()
    except OtherKit:
        over_gate = False
    # (where the sources are those of the last run, its libraries stand as they were proved: nothing of them hangs on the level)
    if not over_gate and not Build(uses, cpu, below(PROGRAM, uses) if same and not of_gate else (), after_gate=False).proves_all():
        sys.exit(3)
    is_alone = PROGRAM != "sazh" or link_alone(PRODUCT)
    end_if_told()
    if not is_alone:
        say("it needs this machine's C library, since `cc` finds no static one here")
    with open(STAMP, "w", encoding="utf-8") as file:
        file.write(f"{digest} {cpu}{' gate' if over_gate else ''}\n")


def main():
    cpu = level()
    if PROGRAM == "--level":
        print(cpu)
        return
    if not shutil.which("rt"):
        say("it is proved by `rt`, and there is none on the path: put the kit's `bin` there")
        sys.exit(2)
    listen()
    try:
        uses = crates()
        if stands(uses, cpu):
            return
        with alone():
            if not stands(uses, cpu):
                bring(uses, cpu)
        end_if_told()
    except Ended:
        say(f"ended by {signal.Signals(TOLD[0]).name}; what was proved is kept, and the next run goes on from there")
        sys.exit(128 + TOLD[0])


main()
