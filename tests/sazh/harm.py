"""What `sazh` does to files that are there: modes, owners, links, FIFOs, devices, full disks, refused calls and kills."""

import ctypes
import os
import re
import resource
import shutil
import signal
import stat
import subprocess
import threading
import time
from pathlib import Path

# Who the program is run as where a right has to be missing and the tests are run by root, who has all.
NOBODY = 65_534
# The system's calls by their numbers on x86-64 (Linux, arch/x86/entry/syscalls/syscall_64.tbl).
RENAME, LINK, UNLINK = (82, 264, 316), (86, 265), (87, 263)
CHMOD, CHOWN = (90, 91, 268, 452), (92, 93, 94, 260)
# The seconds that a run may take.
WAIT = 20


class Instruction(ctypes.Structure):
    _fields_ = [("code", ctypes.c_ushort), ("jt", ctypes.c_ubyte), ("jf", ctypes.c_ubyte), ("k", ctypes.c_uint)]


class Program(ctypes.Structure):
    _fields_ = [("len", ctypes.c_ushort), ("filter", ctypes.POINTER(Instruction))]


def refuse(calls):
    """Has the system answer EPERM to these calls of this process, by a filter (seccomp(2))."""
    load = [Instruction(0x20, 0, 0, 0)]
    jumps = [Instruction(0x15, len(calls) - i, 0, call) for i, call in enumerate(calls)]
    ends = [Instruction(0x06, 0, 0, 0x7FFF0000), Instruction(0x06, 0, 0, 0x00050001)]
    filters = (Instruction * (len(calls) + 3))(*load, *jumps, *ends)
    libc = ctypes.CDLL(None, use_errno=True)
    if libc.prctl(38, 1, 0, 0, 0) or libc.prctl(22, 2, ctypes.byref(Program(len(filters), filters)), 0, 0):
        raise OSError(ctypes.get_errno(), "no filter")


def is_possible(what, **how):
    """Whether the system here lets a test begin a process so. Where it doesn't, that is said, and what stands on it isn't tested."""
    try:
        subprocess.run(["true"], check=True, **how)
    except (OSError, subprocess.SubprocessError) as why:
        print(f"{what} can't be tested here: {why}")
        return False
    return True


class Harm:
    """Runs that find files, and what they leave of them."""

    def __init__(self, runs):
        self.runs, self.path = runs, runs.path
        self.plain = runs.path("plain").read_bytes()
        self.decrypt = ["decrypt", "-i", "key"]
        # One who hasn't all rights: whoever runs the tests, or nobody in the place of root.
        self.other = {"user": NOBODY, "group": NOBODY, "extra_groups": []} if os.getuid() == 0 else {}
        self.has_other = is_possible("another user", **self.other)
        self.has_filters = is_possible("refused calls", preexec_fn=lambda: refuse(LINK))

    def run(self, words, given=b"", **more):
        """As `Runs.run`, and for a while, since what waits for a stream waits for ever."""
        try:
            words, more = [self.runs.program, *words], {"cwd": self.runs.folder, "timeout": WAIT, **more}
            return subprocess.run(words, input=given, capture_output=True, check=False, **more)
        except subprocess.TimeoutExpired:
            return subprocess.CompletedProcess(words, -1, b"", b"it waits")

    def left(self, folder="."):
        return [name for name in os.listdir(self.path(folder)) if name.endswith(".part")]

    def is_refused(self, done, says):
        lines = done.stderr.splitlines()
        return done.returncode == 1 and len(lines) == 1 and lines[0].startswith(b"sazh: ") and says in lines[0] and not done.stdout

    def ends(self, what, good, done=None):
        told = "" if done is None else f": status {done.returncode}, {done.stderr!r}"
        self.runs.ends(f"{what}{told}", good)

    def old(self, name, text=b"before", mode=0o644):
        path = self.path(name)
        path.unlink(missing_ok=True)
        path.write_bytes(text)
        path.chmod(mode)
        return path

    def modes(self):
        for mode in (0o600, 0o640, 0o711, 0o440):
            path = self.old("kept", mode=mode)
            done = self.run([*self.decrypt, "-f", "-o", "kept", "file"])
            kept = stat.S_IMODE(path.stat().st_mode)
            good = done.returncode == 0 and not done.stderr and kept == mode
            self.ends(f"mode {mode:o} is kept: {kept:o}", good and path.read_bytes() == self.plain, done)

    def owners(self):
        if os.getuid() != 0:
            print("owners: they can be tested by root alone")
            return
        path = self.old("kept", mode=0o640)
        try:
            os.chown(path, 12_345, 12_346)
        except OSError as why:
            print(f"owners can't be tested here: {why}")
            return
        done = self.run([*self.decrypt, "-f", "-o", "kept", "file"])
        it = path.stat()
        good = (it.st_uid, it.st_gid, stat.S_IMODE(it.st_mode)) == (12_345, 12_346, 0o640)
        self.ends("the owner is kept", done.returncode == 0 and not done.stderr and good and path.read_bytes() == self.plain, done)
        if not self.has_other:
            return
        self.shared("owned", 0o777)
        path = self.old("owned/out", mode=0o666)
        os.chown(path, 12_345, 12_346)
        done = self.as_other([*self.decrypt, "-f", "-o", "owned/out", "file"])
        good = path.read_bytes() == b"before" and path.stat().st_uid == 12_345 and not self.left("owned")
        self.ends("an owner that can't be kept", self.is_refused(done, b"owned/out: its owner and group can't be kept") and good, done)

    def shared(self, name, mode):
        """A folder with this mode, and all that a run in it as another user takes."""
        folder = self.path(name)
        folder.mkdir(exist_ok=True)
        for it in ("key", "file"):
            self.path(it).chmod(0o644)
        self.path(".").chmod(0o755)
        folder.chmod(mode)
        return folder

    def as_other(self, words, stdout=subprocess.PIPE):
        """Run as one who hasn't all rights, who may not be let to where the program stands."""
        program = self.runs.program
        if self.other:
            program = self.path("program")
            if not program.exists():
                shutil.copyfile(self.runs.program, program)
                program.chmod(0o755)
        how = {"stdin": subprocess.DEVNULL, "stdout": stdout, "stderr": subprocess.PIPE, "cwd": self.runs.folder, "timeout": WAIT}
        return subprocess.run([program, *words], check=False, **how, **self.other)

    def links(self):
        path = self.old("kept")
        other = self.path("other_name")
        other.unlink(missing_ok=True)
        os.link(path, other)
        done = self.run([*self.decrypt, "-f", "-o", "kept", "file"])
        told = done.stderr == b"sazh: kept: it had 2 names (hard links): the others keep what it was\n"
        good = done.returncode == 0 and told and path.read_bytes() == self.plain
        self.ends("a hard link is told", good and other.read_bytes() == b"before", done)
        self.path("below").mkdir(exist_ok=True)
        target = self.old("below/target", mode=0o600)
        for name, to in (("link", "below/target"), ("link_to_link", "link")):
            self.path(name).symlink_to(to)
        for name in ("link", "link_to_link"):
            target.write_bytes(b"before")
            done = self.run([*self.decrypt, "-o", name, "file"])
            good = self.is_refused(done, f"{name}: there is such a file already".encode())
            self.ends(f"{name} without -f", good and target.read_bytes() == b"before", done)
            done = self.run([*self.decrypt, "-f", "-o", name, "file"])
            good = done.returncode == 0 and self.path(name).is_symlink() and target.read_bytes() == self.plain and not self.left("below")
            self.ends(f"what {name} points to is written", good and stat.S_IMODE(target.stat().st_mode) == 0o600, done)
        self.path("to_nothing").symlink_to("nowhere")
        for force in ([], ["-f"]):
            done = self.run([*self.decrypt, *force, "-o", "to_nothing", "file"])
            good = self.path("to_nothing").is_symlink() and not self.path("nowhere").exists()
            says = b"to_nothing: it is a link to a file that isn't there"
            self.ends(f"a link to nothing {force}", self.is_refused(done, says) and good, done)

    def streams(self):
        fifo = self.path("fifo")
        os.mkfifo(fifo)
        for force in ([], ["-f"]):
            got = []
            reader = threading.Thread(target=lambda: got.append(self.read_for(fifo, 20)))
            reader.start()
            done = self.run([*self.decrypt, *force, "-o", "fifo", "file"])
            reader.join()
            good = done.returncode == 0 and got == [self.plain] and stat.S_ISFIFO(fifo.stat().st_mode)
            self.ends(f"a FIFO {force}", good and not self.left(), done)
        self.shared("below", 0o755)
        for force in ([], ["-f"]):
            done = self.run(["decrypt", "-i", "none", *force, "-o", "below", "file"])
            good = self.is_refused(done, b"below: it is a folder")
            self.ends(f"a folder, before anything is read {force}", good and b"-f" not in done.stderr, done)
        if self.has_other:
            self.devices()

    def devices(self):
        """By one who may not write to /dev: a program that is wrong would replace what stands there."""
        for force in ([], ["-f"]):
            done = self.as_other([*self.decrypt, *force, "-o", "/dev/null", "file"])
            good = done.returncode == 0 and not done.stderr
            self.ends(f"/dev/null {force}", good and stat.S_ISCHR(os.stat("/dev/null").st_mode), done)
            done = self.as_other([*self.decrypt, *force, "-o", "/dev/full", "file"])
            good = self.is_refused(done, b"/dev/full: no space is left on the device")
            self.ends(f"/dev/full {force}", good and b"-f" not in done.stderr, done)
            done = self.as_other([*self.decrypt, *force, "-o", "/dev/stdout", "file"])
            self.ends(f"/dev/stdout {force}", done.returncode == 0 and done.stdout == self.plain and not done.stderr, done)
            path = self.old("shown")
            with open(path, "ab") as shown:
                done = self.as_other([*self.decrypt, *force, "-o", "/dev/stdout", "file"], shown)
            self.ends(f"/dev/stdout that is a file {force}", done.returncode == 0 and path.read_bytes() == b"before" + self.plain, done)

    @staticmethod
    def read_for(fifo, seconds):
        """What comes from a FIFO, until its writers end or the time is up."""
        all_read, end = b"", time.monotonic() + seconds
        file = os.open(fifo, os.O_RDONLY | os.O_NONBLOCK)
        while time.monotonic() < end:
            try:
                block = os.read(file, 1 << 16)
            except BlockingIOError:
                block = None
            if block == b"" and all_read:
                break
            all_read += block or b""
            time.sleep(0 if block else 0.01)
        os.close(file)
        return all_read

    def clashes(self):
        """Two words that name one stream are a wrong command line, and nothing is written."""
        os.mkfifo(self.path("once"))
        for words in (
            ["encrypt", "-p", "/dev/stdin"], ["encrypt", "-p", "/dev/stdin", "-"], ["encrypt", "-R", "/dev/stdin", "/dev/stdin"],
            ["encrypt", "-R", "/dev/fd/0", "-R", "/proc/self/fd/0", "file"], ["decrypt", "-i", "/dev/stdin"],
            ["decrypt", "-i", "key", "-p", "/dev/stdin", "/dev/stdin"], ["decrypt", "-i", "/dev/stdin", "-p", "/dev/stdin", "file"],
            ["part", "-i", "/dev/stdin", "0", "1", "-"], ["migrate", "-i", "/dev/stdin"], ["decrypt", "-p", "/dev/fd/0", "-"],
            ["encrypt", "-p", "once", "once"], ["decrypt", "-i", "once", "./once"],
        ):
            done = self.run(words, b"a passphrase\nand a text\n")
            good = done.returncode == 2 and not done.stdout and b"name the same stream" in done.stderr.splitlines()[0]
            self.ends(f"{words} of one stream", good and b"Usage: sazh" in done.stderr, done)
        with open(self.path("recipients"), "rb") as given:
            words = [self.runs.program, "encrypt", "-R", "/dev/stdin"]
            done = subprocess.run(words, stdin=given, capture_output=True, check=False, cwd=self.runs.folder)
        self.ends("standard input twice, where it is a file", done.returncode == 2 and not done.stdout, done)
        done = self.run(["encrypt", "-R", "recipients", "recipients"])
        self.runs.gives("a file twice is no stream", self.decrypt, self.path("recipients").read_bytes(), done.stdout)

    def refused(self):
        """What is left where the system refuses a call."""
        new, over = [*self.decrypt, "-o", "refused", "file"], [*self.decrypt, "-f", "-o", "kept", "file"]
        out = self.path("refused")
        done = self.run(new, preexec_fn=lambda: refuse(LINK + RENAME))
        self.ends("no link and no rename", self.is_refused(done, b"refused: ") and not out.exists() and not self.left(), done)
        done = self.run(new, preexec_fn=lambda: (refuse(LINK), os.umask(0o027)))
        good = done.returncode == 0 and out.read_bytes() == self.plain and stat.S_IMODE(out.stat().st_mode) == 0o640
        self.ends("no link", good and not self.left(), done)
        out.unlink(missing_ok=True)
        done = self.run(new, preexec_fn=lambda: refuse(UNLINK))
        left = self.left()
        good = done.returncode == 0 and out.exists() and out.read_bytes() == self.plain
        good = good and len(left) == 1 and f"{left[0]} is left".encode() in done.stderr
        self.ends("no unlink", good and os.path.samefile(self.path(left[0]), out), done)
        for name in [*left, "refused"]:
            self.path(name).unlink(missing_ok=True)
        for what, refused in (("no rename over a file", RENAME), ("no mode", CHMOD)):
            path = self.old("kept", mode=0o640)
            done = self.run(over, preexec_fn=lambda calls=refused: refuse(calls))
            good = path.read_bytes() == b"before" and stat.S_IMODE(path.stat().st_mode) == 0o640 and not self.left()
            self.ends(what, self.is_refused(done, b"kept: permission denied") and good, done)

    def names(self):
        """A name as long as one may be, and a folder in which no file can be made."""
        name = "n" * 255
        done = self.run([*self.decrypt, "-o", name, "file"])
        good = done.returncode == 0 and self.path(name).exists()
        self.ends("a name of 255 bytes", good and self.path(name).read_bytes() == self.plain, done)
        done = self.run([*self.decrypt, "-f", "-o", name, "recipients"])
        self.ends("which stays", self.path(name).exists() and not self.left(), done)
        if not self.has_other:
            return
        self.shared("closed", 0o755)
        path = self.old("closed/out", mode=0o666)
        self.path("closed").chmod(0o555)
        done = self.as_other([*self.decrypt, "-f", "-o", "closed/out", "file"])
        says = b"closed/out: no file can be made beside it (permission denied): to write into it, use >"
        self.ends("a folder that is closed", self.is_refused(done, says) and path.read_bytes() == b"before", done)
        self.path("closed").chmod(0o755)

    def full(self):
        """A disk that takes no more: a limit on a file's length."""
        def limit():
            signal.signal(signal.SIGXFSZ, signal.SIG_IGN)
            resource.setrlimit(resource.RLIMIT_FSIZE, (70_000, 70_000))

        path = self.old("kept")
        for words, name in (([*self.decrypt, "-o", "never", "file"], b"never"), ([*self.decrypt, "-f", "-o", "kept", "file"], b"kept")):
            done = self.run(words, preexec_fn=limit, restore_signals=False)
            good = not self.path("never").exists() and path.read_bytes() == b"before" and not self.left()
            self.ends(f"{words} of 70,000 bytes", self.is_refused(done, name + b": File too large") and good, done)

    def killed(self):
        """A run that is killed leaves a file that its owner alone reads, and the next one isn't hindered."""
        for force in ([], ["-f"]):
            if not force:
                self.path("kept").unlink()
            words = [self.runs.program, "encrypt", "-R", "recipients", *force, "-o", "kept"]
            with subprocess.Popen(words, stdin=subprocess.PIPE, cwd=self.runs.folder, preexec_fn=lambda: os.umask(0o022)) as process:
                process.stdin.write(bytes(500_000))
                process.stdin.flush()
                end = time.monotonic() + 20
                while time.monotonic() < end and not any(self.path(name).stat().st_size for name in self.left()):
                    time.sleep(0.01)
                process.kill()
                process.stdin.close()
            left = self.left()
            good = process.returncode == -signal.SIGKILL and len(left) == 1
            good = good and re.fullmatch(r"sazh-[0-9a-f]{8}\.part", left[0]) is not None
            self.ends(f"what a kill leaves {force}: {left}", good and stat.S_IMODE(self.path(left[0]).stat().st_mode) == 0o600)
            done = self.run([*self.decrypt, *force, "-o", "kept", "file"], preexec_fn=lambda: os.umask(0o022))
            good = done.returncode == 0 and self.path("kept").read_bytes() == self.plain and self.left() == left
            self.ends(f"the run after it {force}", good and stat.S_IMODE(self.path("kept").stat().st_mode) == 0o644, done)
            for name in left:
                self.path(name).unlink()

    def reasons(self):
        """The system's reason, with the name of what it refused."""
        self.path("loop").symlink_to("loop")
        long = "x" * 256
        into = ["encrypt", "-R", "recipients"]
        cases = (
            ([*self.decrypt, "below"], b"below: it is a folder"), (["decrypt", "-i", "below", "file"], b"below: it is a folder"),
            (["encrypt", "-R", "below", "plain"], b"below: it is a folder"), (["encrypt", "-p", "below", "plain"], b"below: it is a folder"),
            ([*into, "below"], b"below: it is a folder"), (["part", "-i", "key", "0", "1", "below"], b"below: it is a folder"),
            ([*self.decrypt, long], b"x: the name is too long"), (["decrypt", "-i", long, "file"], b"x: the name is too long"),
            ([*into, "-o", long, "plain"], b"x: the name is too long"), ([*into, "plain/x"], b"plain/x: Not a directory"),
            ([*into, "-o", "plain/x", "plain"], b"plain/x: Not a directory"), ([*self.decrypt, "loop"], b"loop: Too many levels of symbolic links"),
            ([*self.decrypt, "-f", "-o", "loop", "file"], b"loop: Too many levels of symbolic links"),
            ([*self.decrypt, "no\n\x1b[31mne"], b"no\\n\\u{1b}[31mne: no such file"), (["encrypt", "-R", "no\rne"], b"no\\rne: no such file"),
            ([*self.decrypt, "-o", "no\nne/x", "file"], b"no\\nne/x: no such file"),
        )
        for words, says in cases:
            done = self.run(words)
            self.ends(f"{words}", self.is_refused(done, says), done)
        part, rewrite = ["part", "-i", "key", "0", "90000", "file"], ["migrate", "-i", "key", "file"]
        for words in ([*into, "plain"], [*self.decrypt, "file"], part, rewrite, ["keygen"], ["--help"], ["--version"]):
            how = {"stderr": subprocess.PIPE, "check": False, "cwd": self.runs.folder}
            with open("/dev/full", "wb") as full:
                done = subprocess.run([self.runs.program, *words], stdout=full, **how)
            says = b"sazh: standard output: no space is left on the device\n"
            self.ends(f"{words} to a full device", done.returncode == 1 and done.stderr == says, done)
            read, write = os.pipe()
            os.close(read)
            done = subprocess.run([self.runs.program, *words], stdout=write, **how)
            os.close(write)
            self.ends(f"{words} to a closed pipe", done.returncode == 141 and not done.stderr, done)


def random_fields(file):
    """What is drawn anew for each file: the shares and bodies of its stanzas, and the nonce of its payload (age-encryption.org/v1)."""
    end = file.index(b"\n", file.index(b"\n--- ") + 1) + 1
    stanzas = re.findall(rb"-> X25519 (\S+)\n(\S+)\n", file[:end])
    return [field for stanza in stanzas for field in stanza] + [file[end : end + 16]]


def to_two(runs, recipient):
    """Each of two recipients opens a file alone, and two files of one plaintext have no random field in common."""
    other = (runs.path("other_key"), runs.run(["keygen"]).stdout)
    other[0].write_bytes(other[1])
    second = other[1].splitlines()[0].removeprefix(b"# public key: ").decode()
    for words in (["-r", recipient, "-r", second], ["-r", second, "-R", "recipients"]):
        files = [runs.run(["encrypt", *words], b"to two").stdout for _ in range(2)]
        for key in ("key", "other_key"):
            runs.gives(f"to two, opened with {key} alone", ["decrypt", "-i", key], b"to two", files[0])
        fields = [field for file in files for field in random_fields(file)]
        runs.ends("random fields", len(fields) == 10 and len(set(fields)) == 10)


def harms(runs, recipient):
    to_two(runs, recipient)
    harm = Harm(runs)
    for it in (harm.modes, harm.owners, harm.links, harm.streams, harm.clashes, harm.names, harm.full, harm.killed, harm.reasons):
        it()
    if harm.has_filters:
        harm.refused()
