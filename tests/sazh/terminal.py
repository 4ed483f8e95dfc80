"""`sazh` at a terminal: what it shows there, what it refuses to, and how far it tells that it is. And what stands beside that: recipients of
identities, files that aren't written through, what a file is, and how long its header may be."""

import base64
import hashlib
import json
import os
import pty
import re
import stat
import subprocess
import threading
import time
import tty
from pathlib import Path

from told import CHUNK, NONCE, TAG, VERSION, armor, header_end

SECRET = b"AGE-SECRET-KEY-1"
# The seconds that a run may take, and those between two pieces of what is slow.
WAIT, PAUSE = 60, 0.4
# A line that tells how far a command is, and what takes it away again.
TOLD = re.compile(rb"\rsazh: (\d+) ([KMG]i)?B( of (\d+) ([KMG]i)?B, (\d+) %)?, (\d+) ([KMG]i)?B/s *")
GONE = b"\r" + b" " * 60 + b"\r"


class Terminal:
    """A terminal of its own, and all that was shown on it."""

    def __init__(self):
        self.master, self.slave = pty.openpty()
        tty.setraw(self.slave)
        self.shown = b""
        self.reading = threading.Thread(target=self.read)
        self.reading.start()

    def read(self):
        while True:
            try:
                part = os.read(self.master, 65_536)
            except OSError:
                return
            if not part:
                return
            self.shown += part

    def end(self):
        os.close(self.slave)
        self.reading.join(WAIT)
        os.close(self.master)
        return self.shown


class File:
    """A file in place of a terminal, and all that was written to it."""

    def __init__(self, path, mode=0o600):
        path.unlink(missing_ok=True)
        self.slave = os.open(path, os.O_RDWR | os.O_CREAT, mode)
        os.fchmod(self.slave, mode)

    def end(self):
        written = os.pread(self.slave, 1 << 16, 0)
        os.close(self.slave)
        return written


class Pipe(Terminal):
    """A pipe in place of one."""

    def __init__(self):
        self.master, self.slave = os.pipe()
        self.shown = b""
        self.reading = threading.Thread(target=self.read)
        self.reading.start()


def at_terminal(runs, words, output, error, given=()):
    """The status of a run, and what its standard output and error show. It is given these pieces, slowly where there is more than one."""
    how = {"stdin": subprocess.PIPE, "stdout": output.slave, "stderr": error.slave, "cwd": runs.folder}
    with subprocess.Popen([runs.program, *words], **how) as process:
        for i, piece in enumerate(given):
            time.sleep(PAUSE if i else 0)
            process.stdin.write(piece)
            process.stdin.flush()
        process.stdin.close()
        status = process.wait(WAIT)
    return status, output.end(), error.end()


def of_binary(runs, recipient):
    """What is no text goes to a terminal by `-o -` alone, and is refused before anything is read."""
    to = ["-r", recipient]
    file, plain = runs.path("file").read_bytes(), runs.path("plain").read_bytes()
    start, text = b"sazh: standard output is a terminal, and this is no text: ", b"-a writes text, "
    rest = b"-o FILE writes a file, and -o - writes it there all the same\n"
    for words, as_text in (
        ([*to, "plain"], text), (["encrypt", *to, "plain"], text), (["-p", "passphrase", "plain"], text), (["-R", "none", "plain"], text),
        (["rekey", "-i", "key", *to, "file"], text), (["rekey", "-i", "none", *to, "file"], text), (["migrate", "-i", "key", "file"], b""),
    ):
        done = at_terminal(runs, words, Terminal(), Terminal())
        runs.ends(f"{words}, on a terminal: {done}", done == (1, b"", start + as_text + rest))
    rekey = ["rekey", "-i", "key", *to]
    for words in (["encrypt", *to, "-o", "-", "plain"], [*rekey, "-o", "-", "file"], ["encrypt", *to, "-a", "plain"], [*rekey, "-a", "file"]):
        status, shown, told = at_terminal(runs, words, Terminal(), Pipe())
        runs.ends(f"{words}, on a terminal: {status}, {told!r}", status == 0 and not told)
        runs.gives(f"which is a file, {words}", ["decrypt", "-i", "key"], plain, shown)
    status, shown, told = at_terminal(runs, ["migrate", "-i", "key", "-o", "-", "file"], Terminal(), Pipe())
    runs.ends(f"migrate on a terminal: {status}, {told!r}", status == 0 and not told and shown == file)
    status, shown, told = at_terminal(runs, [*to, "-f", "-o", "from_terminal", "plain"], Terminal(), Terminal())
    runs.ends(f"a file from a terminal: {status}, {told!r}", status == 0 and not shown and not told)
    runs.gives("which is one", ["decrypt", "-i", "key", "from_terminal"], plain)
    status, shown, told = at_terminal(runs, ["decrypt", "-i", "key", "file"], Terminal(), Pipe())
    runs.ends(f"a content on a terminal: {status}, {told!r}", status == 0 and not told and shown == plain)


def of_keys(runs):
    """A new key tells its recipient on standard error, and where others may see it."""
    on_terminal = b"sazh: warning: the terminal shows the secret key: -o FILE keeps it in a file that its owner alone reads\n"
    readable = lambda name: b"sazh: warning: " + name + b": others than its owner may read this file of a secret key\n"
    line = lambda key: b"Public key: " + key.splitlines()[0].removeprefix(b"# public key: ") + b"\n"
    for words in (["keygen"], ["keygen", "-q"], ["keygen", "-o", "-"]):
        status, key, told = at_terminal(runs, words, Terminal(), Terminal())
        runs.ends(f"{words}, on a terminal: {status}, {told!r}", status == 0 and key.splitlines()[1].startswith(SECRET) and told == on_terminal)
    status, key, told = at_terminal(runs, ["keygen"], Pipe(), Terminal())
    runs.ends(f"a key in a pipe: {status}, {told!r}", status == 0 and told == line(key))
    status, key, told = at_terminal(runs, ["keygen", "--quiet"], Pipe(), Terminal())
    runs.ends(f"a key in a pipe, quietly: {status}, {told!r}", status == 0 and SECRET in key and not told)
    for mode, warning in ((0o600, b""), (0o640, readable(b"standard output")), (0o604, readable(b"standard output")), (0o622, b"")):
        status, key, told = at_terminal(runs, ["keygen"], File(runs.path("new"), mode), Pipe())
        runs.ends(f"a key in a file of the mode {mode:o}: {status}, {told!r}", status == 0 and told == warning + line(key))
        runs.path("old").write_bytes(b"old")
        runs.path("old").chmod(mode)
        status, shown, told = at_terminal(runs, ["keygen", "-f", "-o", "old"], Terminal(), Pipe())
        key, warning = runs.path("old").read_bytes(), warning.replace(b"standard output", b"old")
        good = status == 0 and not shown and told == warning + line(key) and stat.S_IMODE(runs.path("old").stat().st_mode) == mode
        runs.ends(f"a key over a file of the mode {mode:o}: {status}, {told!r}", good)
    runs.path("new").unlink()
    status, shown, told = at_terminal(runs, ["keygen", "-q", "-o", "new"], Terminal(), Pipe())
    runs.ends(f"a key in a new file, quietly: {status}, {told!r}", (status, shown, told) == (0, b"", b""))


def of_progress(runs, recipient):
    """How far a command is that takes longer than a second is told on a terminal, in one line, which goes again."""
    to, pieces = ["encrypt", "-r", recipient], [bytes([i]) * 100_000 for i in range(5)]
    content = b"".join(pieces)
    status, file, told = at_terminal(runs, to, Pipe(), Terminal(), pieces)
    lines = told.removesuffix(GONE).split(b"\r")
    good = status == 0 and told.endswith(GONE) and len(lines) > 1 and not lines[0] and b"\n" not in told
    good = good and all(TOLD.fullmatch(b"\r" + it) and len(it) == 60 for it in lines[1:])
    runs.ends(f"a slow pipe: {status}, {told!r}", good)
    counts = [int(TOLD.fullmatch(b"\r" + it)[1]) for it in lines[1:]] if good else []
    # (what is told is in KiB, and the last pieces are told once more than a second went by)
    good = good and counts == sorted(counts) and 200_000 // 1024 <= counts[0] and counts[-1] <= len(content) // 1024
    runs.ends(f"its bytes: {counts}", good)
    runs.gives("its file", ["decrypt", "-i", "key"], content, file)
    quiet = ("quietly", [*to, "-q"], Pipe(), Terminal()), ("without a terminal", to, Pipe(), Pipe()), ("quick", to, Pipe(), Terminal())
    for what, words, output, error in quiet:
        given = pieces if what != "quick" else [content]
        status, file, told = at_terminal(runs, words, output, error, given)
        runs.ends(f"a pipe, {what}: {status}, {told!r}", status == 0 and not told)
        runs.gives(f"its file, {what}", ["decrypt", "-i", "key"], content, file)
    cut = [file[:150_000], b"", b"", b"", file[150_000:-1]]
    status, shown, told = at_terminal(runs, ["decrypt", "-i", "key"], Pipe(), Terminal(), cut)
    parts = told.split(GONE)
    good = status == 1 and content.startswith(shown) and len(parts) == 2 and parts[1].startswith(b"sazh: standard input: damaged ")
    runs.ends(f"a file that is cut: {status}, {told!r}", good and bool(TOLD.match(parts[0])))
    status, shown, told = at_terminal(runs, ["decrypt", "-i", "key"], Terminal(), Terminal(), [file[:150_000], b"", b"", b"", file[150_000:]])
    runs.ends(f"a content on a terminal: {status}, {told!r}", status == 0 and shown == content and not told)
    with open(runs.path("zeros"), "wb") as zeros:
        zeros.truncate(2 << 30)
    with open("/dev/null", "wb") as null:
        error = Terminal()
        done = subprocess.run([runs.program, *to, "zeros"], stdout=null, stderr=error.slave, check=False, cwd=runs.folder)
        told = error.end()
    found = TOLD.match(told)
    good = done.returncode == 0 and found and found[4] == b"2048" and found[5] == b"Mi" and int(found[6]) <= 100 and told.endswith(GONE)
    runs.ends(f"a file of 2 GiB: {done.returncode}, {told[:80]!r}", bool(good))
    runs.path("zeros").unlink()


def of_identities(runs, recipient, known):
    """The recipients of identities, as text and to encrypt to. `known` is a secret key and its recipient, by another program."""
    secret, public = known
    runs.path("keyring").write_text(f"# two\n{secret}\n\n" + runs.path("key").read_text("ascii"), "ascii")
    both = f"{public}\n{recipient}\n".encode()
    runs.gives("-y", ["keygen", "-y", "keyring"], both)
    runs.gives("-y from a pipe", ["keygen", "--recipients"], both, runs.path("keyring").read_bytes())
    runs.path("team").unlink(missing_ok=True)
    runs.gives("-y to a file", ["keygen", "-y", "-o", "team", "keyring"], b"")
    runs.ends("which has them", runs.path("team").read_bytes() == both)
    runs.path("known").write_text(f"{secret}\n", "ascii")
    two = ["-e", "-i", "known", "--identity=key"], ["-e", "-r", recipient, "-i", "known"]
    for words in (["encrypt", "-i", "keyring"], ["-e", "-i", "keyring"], *two):
        file = runs.run(words, b"to both").stdout
        for who in ("key", "known"):
            runs.gives(f"{words}, opened with {who}", ["decrypt", "-i", who], b"to both", file)
    file = runs.run(["-e", "-i", "known"], b"to one").stdout
    runs.gives("to one", ["decrypt", "-i", "known"], b"to one", file)
    runs.refuses("and not with another", ["decrypt", "-i", "key"], file, says=b"none of the keys in key opens it")
    runs.path("bad").write_text(f"{secret}\n{secret[:-1]}\n", "ascii")
    protected = Path(__file__).resolve().parent.parent / "vectors" / "protected_identity.age"
    runs.path("protected").write_bytes(protected.read_bytes())
    for name, says in (
        ("bad", b"sazh: bad: line 2: too short or too long for a key\n"), ("empty", b"sazh: empty: no identity is in it\n"),
        ("team", b"sazh: team: line 1: a recipient, where an identity is wanted\n"), ("none", b"sazh: none: no such file\n"),
        ("protected", b"sazh: protected: it is encrypted with a passphrase, without which its recipients can't be told\n"),
    ):
        to_file = ["keygen", "-yo", "never", name], ["-e", "-i", name, "-o", "never", "plain"]
        for words in (["keygen", "-y", name], ["encrypt", "-i", name, "plain"], *to_file):
            runs.refuses(f"{words}", words, says=says)
            runs.ends("no file", not runs.path("never").exists())
    runs.refuses("an operand of keygen", ["keygen", "key"], status=2, says=b'the word "key" is one too many')
    runs.refuses("identities without -e", ["-i", "key", "plain"], status=2, says=b"the option -i needs -d, to decrypt, or -e, to encrypt")


def of_sync(runs, recipient):
    """A file that isn't written through is written all the same."""
    plain = runs.path("plain").read_bytes()
    runs.gives("--no-sync", ["encrypt", "-r", recipient, "--no-sync", "-f", "-o", "unsynced", "plain"], b"")
    runs.gives("a file that isn't written through", ["decrypt", "-i", "key", "unsynced"], plain)
    runs.gives("--no-sync over a file", ["-di", "key", "--no-sync", "-fo", "unsynced", "file"], b"")
    runs.ends("the content", runs.path("unsynced").read_bytes() == plain)


def stanzas_of(header):
    """The stanzas of a header: the type, the arguments and the bytes of the body of each (age-encryption.org/v1, "Recipient stanza")."""
    found = re.findall(rb"-> (\S+)((?: \S+)*)\n((?:[A-Za-z0-9+/]{64}\n)*[A-Za-z0-9+/]{0,63}\n)", header)
    for kind, args, body in found:
        digits = body.replace(b"\n", b"")
        yield kind.decode(), args.decode().split(), len(base64.b64decode(digits + b"=" * (-len(digits) % 4)))


def shown(file, form, size):
    """What `inspect` tells of a file with a content of so many bytes, as text and as JSON."""
    end = header_end(file)
    stanzas, payload, chunks = list(stanzas_of(file[:end])), len(file) - end - NONCE, max(1, -(-size // CHUNK))
    lines = [f"form: {form}", f"header: {end} bytes"]
    lines += [f"stanza: {' '.join([kind, *args])}, {count} bytes" for kind, args, count in stanzas]
    lines += [f"payload: {payload} bytes", f"chunks: {chunks}", f"content: {size} bytes", ""]
    listed = [{"type": kind, "arguments": args, "body_length": count} for kind, args, count in stanzas]
    told = {
        "version": "age-encryption.org/v1", "form": form, "header_length": end, "stanzas": listed, "keeps_rule": True, "opened_by": None,
        "rest_length": len(file) - end, "payload": {"length": payload, "chunks": chunks, "plaintext_length": size},
    }
    return "\n".join(lines).encode(), told


def tells(runs, what, words, told, given=b""):
    """It succeeds, and what it shows is a line of this JSON."""
    done = runs.run(words, given)
    try:
        good = json.loads(done.stdout) == told and done.stdout.endswith(b"}\n") and done.stdout.count(b"\n") == 1
    except ValueError:
        good = False
    runs.ends(f"{what}: status {done.returncode}, {done.stdout!r}, {done.stderr!r}", good and done.returncode == 0 and not done.stderr)


def of_inspection(runs, recipient):
    """What a file is, told without a key, and who opens it."""
    for size in (0, 1, CHUNK - 1, CHUNK, CHUNK + 1, 200_001):
        for to in (["-r", recipient], ["-i", "keyring"]):
            file = runs.run(["encrypt", *to], bytes(size)).stdout
            for form, given in (("binary", file), ("armor", armor(file))):
                text, told = shown(file, form, size)
                runs.path("given").write_bytes(given)
                runs.gives(f"inspect of {size} bytes, {form}", ["inspect", "given"], text)
                runs.gives(f"inspect of {size} bytes from a pipe, {form}", ["inspect"], text, given)
                tells(runs, f"inspect of {size} bytes, {form}, as JSON", ["inspect", "--json", "given"], told)
                tells(runs, f"inspect of {size} bytes from a pipe, {form}, as JSON", ["inspect", "--json", "-"], told, given)
    vectors = Path(__file__).resolve().parent.parent / "vectors"
    for name, size in (("one_byte.age", 1), ("whole_chunk.age", CHUNK), ("under_passphrase.age", 1_000)):
        text, told = shown((vectors / name).read_bytes(), "binary", size)
        runs.gives(f"inspect of {name}", ["inspect", vectors / name], text)
        tells(runs, f"inspect of {name}, as JSON", ["inspect", "--json", vectors / name], told)
    text, told = shown((vectors / "one_byte.age").read_bytes(), "binary", 1)
    for words, who in (
        (["-i", vectors / "key.txt"], vectors / "key.txt"), (["-i", "key", "-i", vectors / "key.txt"], vectors / "key.txt"), (["-i", "key"], None),
        (["-i", "key", "-i", vectors / "key.txt", "-i", "keyring"], vectors / "key.txt"), (["-p", "passphrase"], None),
    ):
        one, by = vectors / "one_byte.age", f"opened by: {who or 'nobody'}\n".encode()
        runs.gives(f"who opens it, {words}", ["inspect", *words, one], text + by)
        runs.gives(f"who opens it from a pipe, {words}", ["inspect", *words], text + by, one.read_bytes())
        tells(runs, f"who opens it, {words}, as JSON", ["inspect", "--json", *words, one], {**told, "opened_by": who and str(who)})
    word = ["-p", vectors / "passphrase.txt"]
    text, told = shown((vectors / "under_passphrase.age").read_bytes(), "binary", 1_000)
    runs.gives("the passphrase opens it", ["inspect", *word, vectors / "under_passphrase.age"], text + f"opened by: {word[1]}\n".encode())
    file = (vectors / "one_byte.age").read_bytes()
    end = header_end(file)
    changed = file[: end - 20] + (b"B" if file[end - 20 : end - 19] == b"A" else b"A") + file[end - 19 :]
    runs.refuses("who opens a changed header", ["inspect", "-i", vectors / "key.txt"], changed, says=b": invalid header MAC\n")
    for what, given, says in (
        ("nothing", b"", b": it is empty\n"), ("no age file", b"PK\x03\x04", b': no age file: it begins with "PK'),
        ("a header that ends", file[: end - 5], b": it ends in its header\n"),
    ):
        runs.refuses(f"inspect of {what}", ["inspect"], given, says=says)
    short = file[: end + NONCE] + bytes(CHUNK + 2 * TAG)
    ends = {"no whole nonce": file[: end + 15], "no chunk": file[: end + 16], "a short chunk": file[: end + 31], "a short last one": short}
    for what, given in ends.items():
        done = runs.run(["inspect", "--json"], given)
        says = b"sazh: standard input: damaged: no file has so many bytes behind its header\n"
        good = done.returncode == 1 and done.stderr == says and json.loads(done.stdout)["payload"] is None
        runs.ends(f"inspect of {what}: {done}", good)


def of_header_limits(runs, recipient):
    """A header that is longer than it may be is refused before anything is written, in each form and by each command."""
    file, plain = runs.path("file").read_bytes(), runs.path("plain").read_bytes()
    end, key = header_end(file), ["-i", "key"]
    for form, given in (("bare", file), ("in armor", armor(file))):
        runs.path("given").write_bytes(given)
        for command, more in (
            (["decrypt", *key], plain), (["part", *key, "--from", "10", "--count", "5"], plain[10:15]), (["migrate", *key], file),
            (["verify", *key], f"length {len(plain)}\nsha256 {hashlib.sha256(plain).hexdigest()}\n".encode()), (["-d", *key], plain),
            (["inspect"], shown(file, "armor" if form == "in armor" else "binary", len(plain))[0]),
        ):
            runs.gives(f"{command}, {form}, a header that fits", [*command, f"--header-limit={end}", "given"], more)
            runs.gives(f"{command}, {form}, a header that fits, from a pipe", [*command, "--header-limit", str(end)], more, given)
            says = f": its header doesn't end within {end - 1} bytes: --header-limit BYTES takes a longer one\n".encode()
            runs.refuses(f"{command}, {form}, a longer one", [*command, "--header-limit", str(end - 1), "given"], says=b"sazh: given" + says)
            what = f"{command}, {form}, a longer one from a pipe"
            runs.refuses(what, [*command, "--header-limit", str(end - 1)], given, says=b"sazh: standard input" + says)
        rekey = ["rekey", *key, "-r", recipient, "--header-limit", "50", "-o", "never", "given"]
        runs.refuses("rekey", rekey, says=b"sazh: given: its header doesn't end within 50 bytes")
        runs.ends("no file", not runs.path("never").exists())
    stanza = b"-> for another\n" + b"A" * 64 + b"\n\n"
    long = file[: file.index(b"\n") + 1] + stanza * (17 * (1 << 20) // len(stanza))
    for form, given in (("bare", long), ("in armor", armor(long))):
        runs.refuses(f"a header of 17 MiB, {form}", ["decrypt", *key], given, says=b"its header doesn't end within 16777216 bytes")
    runs.refuses("a line of 40 MiB", ["decrypt", *key], VERSION + b"-> " + b"a" * (40 << 20), says=b"its header doesn't end within 16777216 bytes")
    runs.refuses("what is no age file", ["decrypt", *key], b"x" * (40 << 20), says=b"no age file")


def terminals(runs, recipient, known):
    of_binary(runs, recipient)
    of_keys(runs)
    of_progress(runs, recipient)
    of_identities(runs, recipient, known)
    of_sync(runs, recipient)
    of_inspection(runs, recipient)
    of_header_limits(runs, recipient)
