"""Runs the program `sazh` on real files: vectors that no code of the library made, files of its own, wrong words and damaged files.

Each run has to end as it is said here, with this output, this status and, where it refuses, one line on standard error. The last line is
'N passed, M failed'.
"""

import base64
import hashlib
import hmac
import os
import re
import stat
import subprocess
import sys
import tempfile
import time
from pathlib import Path

from guide import guides
from harm import harms
from installed import installs
from others import rekeys, verifies
from table import table
from terminal import terminals
from told import SECRET, armor, tells

VECTORS = Path(__file__).resolve().parent.parent / "vectors"
IDENTITY_OF_THE_PROTECTED_FILE = b"AGE-SECRET-KEY-1YZ3PRM0AJDSQEWZVRM7NKJL58NQMG3DRAA0JKHX5UL6ND5DJ5P2QJCU2JK"
RECIPIENT_OF_THE_PROTECTED_FILE = "age1ysxuaeqlk7xd8uqsh8lsnfwt9jzzjlqf49ruhpjrrj5yatlcuf7qke4pqe"
SIZES = [0, 1, 65_535, 65_536, 65_537, 200_000]
SMALL, BIG = 1 << 20, 1 << 30
VERSION = b"age-encryption.org/v1\n"
# The file key of `one_byte.age`, which its identity gets.
FILE_KEY_OF_ONE_BYTE = bytes.fromhex("08649e8fd60556f05b45b09fdcf79fed")
# Stanzas that no identity knows, in the early form: the empty line after a body of whole lines, or of none, is missing.
LINE = b"A" * 64 + b"\n"
EARLY_STANZAS = {"an empty body": b"-> early\n", "a body of a line": b"-> early with words\n" + LINE, "a body of two lines": b"-> early\n" + LINE + LINE}
HINT = b": a header of an early form: sazh migrate rewrites it\n"
# What a part of a bare file may read: two chunks, buffers, the file of keys and what the system's loader reads.
MOST_READ = 400_000


def plaintext(size):
    return bytes(i * 7 % 251 for i in range(size))


class Runs:
    """Counts the runs of the program that ended as they have to."""

    def __init__(self, program, folder):
        self.program, self.folder = Path(program).resolve(), folder
        self.passed = self.failed = 0

    def ends(self, what, good):
        self.passed, self.failed = self.passed + good, self.failed + (not good)
        if not good:
            print(f"FAILED: {what}")

    def path(self, name):
        return Path(self.folder, name)

    def run(self, words, given=b""):
        return subprocess.run([self.program, *words], input=given, capture_output=True, check=False, cwd=self.folder)

    def gives(self, what, words, wanted, given=b""):
        """It succeeds, and this is what standard output shows."""
        done = self.run(words, given)
        self.ends(f"{what}: status {done.returncode}, {done.stderr!r}", done.returncode == 0 and done.stdout == wanted and not done.stderr)

    def reads(self, words, given=subprocess.DEVNULL):
        """What it shows, and how many bytes it read, by what Linux tells of a process that has ended (proc(5), /proc/PID/io)."""
        with subprocess.Popen([self.program, *words], stdin=given, stdout=subprocess.PIPE, cwd=self.folder) as process:
            shown = process.stdout.read()
            os.waitid(os.P_PID, process.pid, os.WEXITED | os.WNOWAIT)
            told = dict(line.split(": ") for line in Path(f"/proc/{process.pid}/io").read_text("ascii").splitlines())
        return shown, int(told["rchar"])

    def takes(self, words, wanted):
        """The least of the times that runs take which show this."""
        times = []
        for _ in range(20):
            start = time.perf_counter()
            good = self.run(words).stdout == wanted
            times.append(time.perf_counter() - start)
            self.ends(f"{words}", good)
        return min(times)

    def refuses(self, what, words, given=b"", front=None, status=1, says=b""):
        """It refuses with one line, or a wrong command line with its usage, after a beginning of this output, or none."""
        done = self.run(words, given)
        lines = done.stderr.splitlines()
        good = done.returncode == status and len(lines) >= 1 and (status == 2 or len(lines) == 1)
        good = good and lines[0].startswith(b"sazh: ") and says in done.stderr
        good = good and (done.stdout == b"" if front is None else front.startswith(done.stdout))
        self.ends(f"{what}: status {done.returncode}, {done.stderr!r}, {len(done.stdout)} bytes", good)


def vectors(runs):
    """What others made opens, whole, in parts, and not with a byte changed."""
    at = lambda name: VECTORS / name
    key = ["-i", at("key.txt")]
    protected = ["-i", at("protected_identity.age"), "-p", at("protected_identity.passphrase")]
    opened = [
        ("empty.age", key, 0),
        ("one_byte.age", key, 1),
        ("whole_chunk.age", key, 65_536),
        ("one_byte_more.age", key, 65_537),
        ("under_passphrase.age", ["-p", at("passphrase.txt")], 1_000),
        ("to_protected.age", protected, 300),
    ]
    for name, who, size in opened:
        plain, file = plaintext(size), at(name).read_bytes()
        runs.gives(name, ["decrypt", *who, at(name)], plain)
        runs.gives(f"{name} from standard input", ["decrypt", *who], plain, file)
        for place, count in {(0, size), (size // 2, 3), (max(size - 1, 0), 5), (size, 1), (1, 0) if size else (0, 0)}:
            runs.gives(f"{name} from {place}, {count} bytes", ["part", *who, str(place), str(count), at(name)], plain[place : place + count])
        runs.gives(f"a part of {name} from standard input", ["part", *who, str(size // 2), "3", "-"], plain[size // 2 : size // 2 + 3], file)
        runs.refuses(f"{name} past its end", ["part", *who, str(size + 1), "1", at(name)])
        step = 1 if len(file) < 800 and name != "under_passphrase.age" and who is not protected else max(len(file) // 60, 1)
        for i in range(0, len(file), step):
            changed = bytearray(file)
            changed[i] ^= 1
            runs.refuses(f"{name}, byte {i} changed", ["decrypt", *who], bytes(changed), plain)
    name = "protected_identity.age"
    done = runs.run(["decrypt", "-p", at("protected_identity.passphrase"), at(name)])
    runs.ends(name, done.returncode == 0 and len(done.stdout) == 189 and done.stdout.splitlines()[-1] == IDENTITY_OF_THE_PROTECTED_FILE)
    given = ["encrypt", "-r", RECIPIENT_OF_THE_PROTECTED_FILE]
    file = runs.run(given, b"to its recipient").stdout
    runs.gives(f"to the recipient of {name}", ["decrypt", *protected], b"to its recipient", file)
    runs.refuses(f"{name} without its passphrase", ["decrypt", *protected[:2]], file, says=b"-p")
    runs.refuses(f"{name} with another passphrase", ["decrypt", *protected[:3], at("passphrase.txt")], file)
    runs.refuses("another's key", ["decrypt", *key], file)


def files(runs):
    """What it wrote, it reads."""
    runs.gives("a key", ["keygen", "-q", "-o", "key"], b"")
    text = runs.path("key").read_bytes()
    recipient = text.splitlines()[0].removeprefix(b"# public key: ").decode()
    runs.ends("the key's file is its owner's alone", stat.S_IMODE(runs.path("key").stat().st_mode) == 0o600)
    runs.ends("two lines", len(text.splitlines()) == 2 and text.endswith(b"\n") and recipient.startswith("age1"))
    runs.ends("another key each time", runs.run(["keygen"]).stdout != runs.run(["keygen"]).stdout)
    runs.path("recipients").write_bytes(f"# mine\r\n\r\n{recipient}\n".encode())
    runs.path("passphrase").write_bytes("pässe\nand what follows it".encode())
    ways = {
        "to a recipient": (["-r", recipient], ["-i", "key"]),
        "to two": (["-r", RECIPIENT_OF_THE_PROTECTED_FILE, "-R", "recipients"], ["-i", VECTORS / "key.txt", "-i", "key"]),
        "under a passphrase": (["-p", "passphrase"], ["-p", "passphrase"]),
    }
    for what, (to, who) in ways.items():
        for size in SIZES if what != "under a passphrase" else SIZES[:2]:
            plain = plaintext(size)
            for armor in ([], ["-a"]):
                file = runs.run(["encrypt", *to, *armor], plain).stdout
                runs.ends("armor", file.startswith(b"-----BEGIN" if armor else b"age-encryption.org/v1\n"))
                runs.gives(f"{what} {armor}, {size} bytes", ["decrypt", *who], plain, file)
    runs.path("plain").write_bytes(plaintext(100_000))
    runs.gives("from a file to a file", ["encrypt", "-R", "recipients", "-o", "file", "plain"], b"")
    runs.gives("back", ["decrypt", "-i", "key", "-o", "back", "file"], b"")
    runs.ends("the same", runs.path("back").read_bytes() == plaintext(100_000))
    runs.gives("a part", ["part", "-i", "key", "70000", "100", "file"], plaintext(100_000)[70_000:70_100])
    return recipient


def sparse(runs, recipient, size, name):
    """The file of so many zeros to a recipient, of which only its front and its end are kept, and the rest are holes."""
    with open(runs.path("zeros"), "wb") as zeros:
        zeros.truncate(size)
    with open(runs.path("zeros"), "rb") as zeros, open(runs.path(name), "wb") as file:
        with subprocess.Popen([runs.program, "encrypt", "-r", recipient], stdin=zeros, stdout=subprocess.PIPE) as process:
            at, last = 0, b""
            while block := process.stdout.read(SMALL):
                if at == 0:
                    file.write(block[:4096])
                at, last = at + len(block), (last + block)[-200_000:]
            file.seek(at - len(last))
            file.write(last)
    runs.ends(f"a file of {size} zeros", process.returncode == 0 and at > size)


def seeks(runs, recipient):
    """A part of a bare file reads a chunk or two, however long the file is, also where it is standard input, from where that stands."""
    end = lambda size, name: ["part", "-i", "key", str(size - 10), "10", name]
    for size, name in ((SMALL, "of_a_mib"), (BIG, "of_a_gib")):
        sparse(runs, recipient, size, name)
        shown, read = runs.reads(end(size, name))
        runs.ends(f"the end of {name}: {shown}, {read} bytes read", shown == bytes(10) and read < MOST_READ)
        with open(runs.path(name), "rb") as file:
            shown, read = runs.reads(end(size, "-"), file)
        runs.ends(f"the end of {name} as standard input: {shown}, {read} bytes read", shown == bytes(10) and read < MOST_READ)
    small, big = (runs.takes(end(size, name), bytes(10)) for size, name in ((SMALL, "of_a_mib"), (BIG, "of_a_gib")))
    # (to read a GiB takes a tenth of a second or more; a busy machine makes one run or another take some milliseconds more)
    runs.ends(f"the end of a GiB takes {big:.4f} s, of a MiB {small:.4f} s", big < small + 0.05)
    runs.path("behind").write_bytes(b"before" + runs.path("file").read_bytes())
    with open(runs.path("behind"), "rb") as file:
        file.seek(6)
        shown, read = runs.reads(["part", "-i", "key", "70000", "100", "-"], file)
    runs.ends(f"behind other bytes: {len(shown)}, {read} bytes read", shown == plaintext(100_000)[70_000:70_100] and read < MOST_READ)
    runs.gives("from a pipe", ["part", "-i", "key", "70000", "100", "-"], plaintext(100_000)[70_000:70_100], runs.path("file").read_bytes())


def mac(key, text):
    return hmac.new(key, text, hashlib.sha256).digest()


def header(file_key, stanzas):
    """A header of these stanzas, as they are written (age-encryption.org/v1, "Header"): its key is HKDF-SHA-256 of the file key (RFC 5869)."""
    text = VERSION + stanzas + b"---"
    key = mac(mac(b"", file_key), b"header\x01")
    return text + b" " + base64.b64encode(mac(key, text)).rstrip(b"=") + b"\n"


def early_file(runs, what, early, canonical):
    """A file whose header is of the early form is refused with a hint, and rewritten as the file of the same stanzas."""
    key = ["-i", VECTORS / "key.txt"]
    for form, file in (("bare", early), ("in armor", armor(early))):
        runs.path("early").write_bytes(file)
        runs.gives(f"{what}, {form}, rewritten", ["migrate", *key, "early"], canonical)
        runs.gives(f"{what}, {form}, rewritten from a pipe", ["migrate", *key], canonical, file)
        runs.gives(f"{what}, {form}, rewritten to a file", ["migrate", *key, "-f", "-o", "rewritten", "early"], b"")
        runs.ends("the same", runs.path("rewritten").read_bytes() == canonical)
        runs.gives(f"{what}, {form}, opened", ["decrypt", *key, "rewritten"], plaintext(1))
        runs.gives(f"a part of {what}, {form}", ["part", *key, "0", "1", "rewritten"], plaintext(1))
        runs.refuses(f"{what}, {form}, as it is", ["decrypt", *key, "early"], says=b"sazh: early" + HINT)
        runs.refuses(f"a part of {what}, {form}, as it is", ["part", *key, "0", "1", "early"], says=b"sazh: early" + HINT)
        for words in (["decrypt", *key], ["decrypt", *key, "/dev/stdin"], ["part", *key, "0", "1", "-"], ["part", *key, "0", "1", "/dev/stdin"]):
            runs.refuses(f"{words} of a pipe, {what}, {form}", words, file, says=b": invalid header\n")


def migrates(runs):
    """An early file is rewritten, any other stays as it is, and nothing is written where a header is refused."""
    key = ["-i", VECTORS / "key.txt"]
    file = Path(VECTORS, "one_byte.age").read_bytes()
    end = file.index(b"\n", file.index(b"\n---") + 1) + 1
    stanza, rest = file[len(VERSION) : file.index(b"---")], file[end:]
    runs.ends("the file key of one_byte.age", header(FILE_KEY_OF_ONE_BYTE, stanza) == file[:end])
    for what, early in EARLY_STANZAS.items():
        for place, old, new in (
            ("before", early + stanza, early + b"\n" + stanza),
            ("after", stanza + early, stanza + early + b"\n"),
            ("on both sides", early + stanza + early, early + b"\n" + stanza + early + b"\n"),
        ):
            early_file(runs, f"{what} {place}", header(FILE_KEY_OF_ONE_BYTE, old) + rest, header(FILE_KEY_OF_ONE_BYTE, new) + rest)

    at = lambda name: VECTORS / name
    protected = ["-i", at("protected_identity.age"), "-p", at("protected_identity.passphrase")]
    for name, who in (("empty.age", key), ("one_byte.age", key), ("whole_chunk.age", key), ("under_passphrase.age", ["-p", at("passphrase.txt")])):
        runs.gives(f"{name} stays", ["migrate", *who, at(name)], at(name).read_bytes())
    for name, who in (("one_byte_more.age", key), ("to_protected.age", protected)):
        lines = at(name).read_bytes().split()[4:-4]
        runs.gives(f"{name} without its armor", ["migrate", *who, at(name)], base64.b64decode(b"".join(lines)))

    early = header(FILE_KEY_OF_ONE_BYTE, stanza + EARLY_STANZAS["a body of a line"])
    cases = {
        "another identity": (["-i", "key"], early + rest, b": none of the keys in key opens it\n"),
        "a passphrase": (["-p", "passphrase"], early + rest, b": it is encrypted to keys, and not with a passphrase: give them by -i FILE\n"),
        "another MAC": (key, header(bytes(16), stanza + EARLY_STANZAS["a body of a line"]) + rest, b": invalid header MAC\n"),
        "another header": (key, early.replace(b"AAAA", b"AAAB", 1) + rest, b": invalid header MAC\n"),
        "the header alone": (key, early, b": it ends in its header\n"),
        "no header": (key, plaintext(1_000), b': no age file: it begins with "\\x00\\x07\\x0e'),
        "an empty file": (key, b"", b": it is empty\n"),
    }
    for what, (who, given, says) in cases.items():
        runs.path("early").write_bytes(given)
        runs.refuses(f"{what} is rewritten", ["migrate", *who, "early"], says=says)
        runs.refuses(f"{what} is rewritten from a pipe", ["migrate", *who], given, says=says)
        runs.refuses(f"{what} is rewritten to a file", ["migrate", *who, "-o", "never", "early"], says=says)
        runs.ends("no file", not runs.path("never").exists())
    runs.ends("nothing is left beside", not [name for name in os.listdir(runs.folder) if name.endswith(".part")])

    runs.path("early").write_bytes(early + rest)
    runs.refuses("a file that is there", ["migrate", *key, "-o", "rewritten", "early"], says=b"rewritten: there is such a file already")
    runs.refuses("a file that is there, for a plaintext", ["decrypt", *key, "-o", "rewritten", "early"], says=b"rewritten: there is such a file already")
    runs.refuses("no such file", ["migrate", *key, "none"], says=b"none: no such file")
    runs.refuses("no such identities", ["migrate", "-i", "none", "early"], says=b"none: no such file")
    with open(runs.path("early"), "rb") as given:
        done = subprocess.run([runs.program, "decrypt", *key], stdin=given, capture_output=True, check=False)
    runs.ends("an early file as standard input", done.returncode == 1 and not done.stdout and done.stderr == b"sazh: standard input: invalid header\n")
    # A header of the standard that is refused for what its stanzas are isn't told as an early one.
    beside = header(FILE_KEY_OF_ONE_BYTE, stanza + b"-> scrypt " + b"A" * 22 + b" 10\n" + b"A" * 43 + b"\n")
    runs.path("beside").write_bytes(beside + rest)
    for words in (["decrypt", *key, "beside"], ["part", *key, "0", "1", "beside"], ["migrate", *key, "beside"]):
        runs.refuses(f"{words}", words, says=b"sazh: beside: invalid header\n")
    # The payload isn't looked at.
    runs.gives("an early file that is cut", ["migrate", *key, "-o", "cut_late"], b"", early + rest[:-1])
    runs.refuses("which isn't opened", ["decrypt", *key, "cut_late"])


def outputs(runs):
    """A file that is there stays, and one that doesn't become whole isn't there."""
    before = runs.path("back").read_bytes()
    runs.refuses("a file that is there", ["decrypt", "-i", "key", "-o", "back", "file"], says=b"back")
    runs.ends("it stays", runs.path("back").read_bytes() == before)
    runs.refuses("a file that is there, for a key", ["keygen", "-o", "key"], says=b"key")
    runs.path("cut").write_bytes(runs.path("file").read_bytes()[:-1])
    runs.refuses("a bad end", ["decrypt", "-i", "key", "-o", "never", "cut"])
    runs.ends("no file", not runs.path("never").exists())
    runs.refuses("a bad end over a file", ["decrypt", "-i", "key", "-f", "-o", "back", "cut"])
    runs.ends("the old file", runs.path("back").read_bytes() == before)
    runs.path("small").write_bytes(b"small")
    runs.gives("over a file", ["encrypt", "-R", "recipients", "-f", "-o", "back", "small"], b"")
    runs.gives("which is the new one", ["decrypt", "-i", "key", "back"], b"small")
    runs.ends("nothing is left beside", not [name for name in os.listdir(runs.folder) if name.endswith(".part")])
    runs.path("folder").mkdir()
    runs.refuses("a folder", ["keygen", "-o", "folder"], says=b"folder: it is a folder")
    runs.refuses("a folder that isn't there", ["keygen", "-o", "none/key"], says=b"none/key")


def refusals(runs, recipient):
    runs.path("empty").write_bytes(b"")
    runs.path("bad").write_bytes(f"{recipient}\n\nage1x\n".encode())
    runs.path("latin").write_bytes(b"p\xe4sse\n")
    cases = {
        "no such file": (["decrypt", "-i", "key", "none"], b"none: no such file"),
        "no such identities": (["decrypt", "-i", "none", "file"], b"none: no such file"),
        "no identities": (["decrypt", "-i", "recipients", "file"], b"recipients: line 3: a recipient, where an identity is wanted"),
        "no recipient": (["encrypt", "-r", "age1x"], b"-r: too short or too long for a key"),
        "a bad file of recipients": (["encrypt", "-R", "bad"], b"bad: line 3"),
        "an empty file of recipients": (["encrypt", "-R", "empty"], b"empty: "),
        "no passphrase": (["encrypt", "-p", "empty"], b"empty: "),
        "a passphrase that is no text": (["encrypt", "-p", "latin"], b"latin: "),
        "no age file": (["decrypt", "-i", "key", "plain"], b"plain: no age file: "),
        "an empty file": (["decrypt", "-i", "key", "empty"], b"empty: it is empty"),
        "another key": (["decrypt", "-i", VECTORS / "key.txt", "file"], b"file: none of the keys in "),
    }
    for what, (words, says) in cases.items():
        runs.refuses(what, words, says=says)


def command_lines(runs, recipient):
    for words in (
        [], ["no"], ["encrypt"], ["decrypt"], ["decrypt", "-x"], ["encrypt", "-r", recipient, "-p", "passphrase"],
        ["encrypt", "-r", recipient, "-o", "a", "-o", "b"], ["decrypt", "-i", "key", "a", "b"], ["part", "-i", "key", "1", "file"],
        ["part", "-i", "key", "x", "1", "file"], ["part", "-i", "key", "1", "-1", "file"], ["keygen", "more"],
        ["migrate"], ["migrate", "file"], ["migrate", "-i", "key", "-a"], ["migrate", "-i", "key", "a", "b"], ["migrate", "-i", "key", "-o", "a", "-o", "b"],
        ["-d", "-e", "-i", "key"], ["-d", "-r", recipient], ["-i", "key", "file"], ["-d", "file"], ["-r", recipient, "keygen"], ["-p"],
        ["part", "-i", "key", "--from", "1", "file"],
    ):
        runs.refuses(f"{words}", words, status=2, says=b"Usage: sazh")
    runs.refuses("an option without its value", ["encrypt", "-r"], status=2, says=b"a value is required for '--recipient <RECIPIENT>'")
    runs.refuses("a misspelt option", ["encrypt", "--recipent", recipient], status=2, says=b"a similar argument exists: '--recipient'")
    for command in ("keygen", "encrypt", "decrypt", "part", "migrate", "rekey", "verify", "inspect"):
        for option in ("-h", "--help"):
            done = runs.run([command, option])
            good = done.returncode == 0 and not done.stderr and f"Usage: sazh {command} ".encode() in done.stdout
            runs.ends(f"{command} {option}", good and done.stdout.endswith(b"\n"))
    for words in (["--help"], ["-h"]):
        done = runs.run(words)
        runs.ends(f"{words}", done.returncode == 0 and not done.stderr and b"sazh encrypt" in done.stdout and b"read -rsp" in done.stdout)
    # What proved it, as `rt` names that here: "rattle-kit-.. logic .."
    logic = subprocess.run(["rt", "version"], capture_output=True, check=True).stdout.split()[-1]
    for words in (["--version"], ["-V"]):
        done = runs.run(words)
        runs.ends(f"{words}: {done}", done.returncode == 0 and re.fullmatch(rb"sazh [0-9.]+ \(logic %b\)\n" % logic, done.stdout) and not done.stderr)
    for words in (
        [SECRET], ["decrypt", "-i", "key", "a", SECRET], ["-d", f"-x{SECRET}"], ["-d", f"--idenity={SECRET.lower()}"], ["part", "-i", "key", SECRET, "1", "file"],
        ["-d", "-i", SECRET, "file"], ["decrypt", "-i", "key", "-p", SECRET, "file"], ["-p", SECRET], ["-r", recipient, "-o", SECRET], ["-R", SECRET], ["keygen", "-o", SECRET],
    ):
        done = runs.run(words)
        good = done.returncode == 2 and not done.stdout and done.stderr.startswith(b"sazh: a word holds a secret key")
        runs.ends("a secret key isn't repeated", good and SECRET.encode() not in done.stderr.upper())


def words_of_age(runs, recipient):
    """Without a command, the options of `age` do what they do there, in their long and short forms, several behind one `-`."""
    plain = plaintext(1_000)
    runs.path("notes").write_bytes(plain)
    ways = {
        "to a recipient": (["-r", recipient], ["-d", "-i", "key"]),
        "by long options": (["--encrypt", "--recipient", recipient, "--armor"], ["--decrypt", "--identity", "key"]),
        "by long options with =": ([f"--recipient={recipient}"], ["--decrypt", "--identity=key"]),
        "to a file of recipients": (["-aR", "recipients"], ["-di", "key"]),
        "to a file of recipients, and one more": (["-R", "recipients", "-r", RECIPIENT_OF_THE_PROTECTED_FILE], ["-dikey"]),
        "under a passphrase": (["-e", "-p", "passphrase"], ["-d", "-p", "passphrase"]),
        "under a passphrase, by long options": (["--passphrase-file=passphrase"], ["--decrypt", "--passphrase-file", "passphrase"]),
    }
    for what, (to, who) in ways.items():
        file = runs.run(to, plain).stdout
        runs.gives(f"{what}, from standard input", who, plain, file)
        runs.gives(f"{what}, from a file", [*to, "-f", "-o", "notes.age", "notes"], b"")
        runs.gives(f"{what}, to a file", [*who, "--force", "--output", "notes.out", "notes.age"], b"")
        runs.ends(what, runs.path("notes.out").read_bytes() == plain)
    runs.gives("a part by options", ["part", "-i", "key", "--from", "70000", "--count", "100", "file"], plaintext(100_000)[70_000:70_100])
    runs.gives("a part by options, from a pipe", ["part", "-i", "key", "--from=70000", "--count=100"], plaintext(100_000)[70_000:70_100], runs.path("file").read_bytes())
    runs.path("keygen").write_bytes(plain)
    runs.gives("a file named as a command", ["-f", "-o", "notes.age", "-r", recipient, "--", "keygen"], b"")
    runs.gives("which is it", ["-d", "-i", "key", "notes.age"], plain)


def standard_input(runs, recipient):
    """`-` is standard input for -i, -R, -p and IN, one of them at a time."""
    plain = plaintext(1_000)
    runs.path("notes").write_bytes(plain)
    key, line = runs.path("key").read_bytes(), runs.path("passphrase").read_bytes()
    runs.gives("recipients from standard input", ["-R", "-", "-f", "-o", "notes.age", "notes"], b"", runs.path("recipients").read_bytes())
    runs.gives("identities from standard input", ["-d", "-i", "-", "notes.age"], plain, key)
    runs.gives("a part with identities from standard input", ["part", "-i", "-", "1", "10", "notes.age"], plain[1:11], key)
    runs.gives("a passphrase from standard input", ["-p", "-", "-f", "-o", "notes.age", "notes"], b"", line)
    runs.gives("which decrypts", ["-d", "-p", "-", "notes.age"], plain, line)
    for words in (["-R", "-", "-r", recipient], ["-p", "-"], ["-d", "-i", "-"], ["-d", "-i", "-", "-"], ["-d", "-i", "-", "-p", "-", "notes.age"], ["-d", "-i", "-", "-i", "-", "notes.age"]):
        runs.refuses(f"{words}", words, line, status=2, says=b"name the same stream")


def recipes(runs):
    """The ways to hand over a passphrase that the help and the manual tell, in bash: what `read` reads, and what another program writes."""
    plain = runs.path("notes").read_bytes()
    typed = """read -rsp 'passphrase: ' word && "$0" -p <(printf '%s\\n' "$word") -f -o notes.age notes"""
    piped = """pass() { printf 'a passphrase\\n'; }; "$0" -d -p <(pass show notes) notes.age"""
    how = {"capture_output": True, "check": False, "cwd": runs.folder}
    done = subprocess.run(["bash", "-c", typed, runs.program], input=b"a passphrase\n", **how)
    runs.ends(f"a passphrase that is typed: {done}", done.returncode == 0 and not done.stdout)
    done = subprocess.run(["bash", "-c", piped, runs.program], input=b"", **how)
    runs.ends(f"a passphrase that a program writes: {done}", done.returncode == 0 and done.stdout == plain and not done.stderr)


def main():
    with tempfile.TemporaryDirectory() as folder:
        runs = Runs(sys.argv[1], folder)
        vectors(runs)
        recipient = files(runs)
        seeks(runs, recipient)
        migrates(runs)
        outputs(runs)
        refusals(runs, recipient)
        tells(runs, recipient)
        rekeys(runs, recipient)
        verifies(runs)
        harms(runs, recipient)
        command_lines(runs, recipient)
        words_of_age(runs, recipient)
        standard_input(runs, recipient)
        recipes(runs)
        guides(runs)
        installs(runs)
        table(runs.program, runs.ends)
        terminals(runs, recipient, (IDENTITY_OF_THE_PROTECTED_FILE.decode(), RECIPIENT_OF_THE_PROTECTED_FILE))
    print(f"{runs.passed} passed, {runs.failed} failed")
    return 1 if runs.failed else 0


if __name__ == "__main__":
    sys.exit(main())
