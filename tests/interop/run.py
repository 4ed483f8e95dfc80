"""Compares the program `sazh` with another implementation; `run.sh` says how."""

import os
import pty
import random
import select
import shutil
import subprocess
import sys
import tempfile
from pathlib import Path

import peer

SIZES = [0, 1, 2, 15, 16, 17, 1_000, 65_535, 65_536, 65_537, 131_071, 131_072, 131_073, 200_000]
PASSPHRASE = "correct horse battery staple"


def ran(words, typed=None):
    """Runs a program, which has to succeed. What is typed goes to its terminal, each line after something was asked."""
    if typed is None:
        done = subprocess.run(words, stdin=subprocess.DEVNULL, capture_output=True, check=False)
        if done.returncode:
            raise peer.Refused(done.stderr.decode().strip())
        return
    child, terminal = pty.fork()
    if child == 0:
        os.execvp(words[0], words)
    said = b""
    try:
        while select.select([terminal], [], [], 60)[0]:
            said += os.read(terminal, 1024)
            if typed and said.rstrip().endswith(b":"):
                os.write(terminal, typed.pop(0).encode() + b"\n")
                said = b""
    except OSError:
        pass
    if os.waitstatus_to_exitcode(os.waitpid(child, 0)[1]):
        raise peer.Refused(said.decode(errors="replace").strip())


class Program:
    """The program `age` or `rage`."""

    def __init__(self, path):
        self.path = path
        done = subprocess.run([path, "--version"], capture_output=True, check=True)
        self.name = f"{os.path.basename(path)} {done.stdout.decode().strip()}"

    def encrypt(self, recipients, armor, plain, file):
        words = [self.path, *(["-a"] if armor else []), "-o", file]
        if recipients is None:
            ran([*words, "-p", plain], [PASSPHRASE, PASSPHRASE])
        else:
            ran([*words, *(w for r in recipients for w in ("-r", r)), plain])

    def decrypt(self, key, file, plain):
        if key is None:
            ran([self.path, "-d", "-o", plain, file], [PASSPHRASE])
        else:
            ran([self.path, "-d", "-i", key, "-o", plain, file])


class Python:
    """The implementation beside this file."""

    name = "peer.py"

    @staticmethod
    def encrypt(recipients, armor, plain, file):
        text = Path(plain).read_bytes()
        if recipients is None:
            made = peer.encrypt_under(PASSPHRASE.encode(), text, random.choice([1, 10, 14, 15]))
        else:
            made = peer.encrypt_to(recipients, text)
        Path(file).write_bytes(peer.armored(made) if armor else made)

    @staticmethod
    def decrypt(key, file, plain):
        with_key = PASSPHRASE.encode()
        if key is not None:
            texts = [line for line in Path(key).read_bytes().decode().splitlines() if not line.startswith("#")]
            with_key = peer.Key.of(texts[0])
        Path(plain).write_bytes(peer.decrypt(with_key, Path(file).read_bytes()))


class Sazh:
    """The program of this repository."""

    def __init__(self, path, folder):
        self.path, self.passphrase = path, f"{folder}/passphrase"
        Path(self.passphrase).write_bytes(PASSPHRASE.encode() + b"\n")

    def encrypt(self, recipients, armor, plain, file):
        words = ["-p", self.passphrase] if recipients is None else [w for r in recipients for w in ("-r", r)]
        ran([self.path, "encrypt", *words, *(["-a"] if armor else []), "-o", file, plain])

    def decrypt(self, key, file, plain):
        words = ["-p", self.passphrase] if key is None else ["-i", key]
        ran([self.path, "decrypt", *words, "-o", plain, file])


def cases():
    """200 files: how many recipients, or None for a passphrase, whether in armor, and how many bytes."""
    for i in range(200):
        size = SIZES[i] if i < len(SIZES) else random.randrange(200_001)
        kind = None if i % 10 == 9 else 1 if i % 3 else random.randrange(2, 6)
        yield kind, i % 2 == 1, size


def one_way(name, writer, reader, keys, folder):
    passed = failed = 0
    plain, file, back = f"{folder}/plain", f"{folder}/file", f"{folder}/back"
    for number, (kind, armor, size) in enumerate(cases(), 1):
        what = f"{name} {number}: {'a passphrase' if kind is None else f'{kind} recipients'}, {'armor, ' if armor else ''}{size} bytes"
        for old in (file, back):
            if os.path.exists(old):
                os.remove(old)
        chosen = None if kind is None else random.sample(keys, kind)
        Path(plain).write_bytes(os.urandom(size))
        try:
            writer.encrypt(None if chosen is None else [recipient for _, recipient in chosen], armor, plain, file)
            reader.decrypt(None if chosen is None else random.choice(chosen)[0], file, back)
            # (`age` makes no file of an empty plaintext)
            given = Path(back).read_bytes() if size or os.path.exists(back) else b""
            good = given == Path(plain).read_bytes()
            print(f"{what}: {'the same' if good else 'OTHER BYTES'}")
        except (peer.Refused, ValueError, OSError) as fault:
            good = False
            print(f"{what}: REFUSED: {fault}")
        passed, failed = passed + good, failed + (not good)
    return passed, failed


def main():
    path = os.path.abspath(sys.argv[1])
    found = shutil.which("age") or shutil.which("rage")
    with tempfile.TemporaryDirectory() as folder:
        ours, other = Sazh(path, folder), Program(found) if found else Python()
        print(f"with {other.name}")
        keys = []
        for i in range(6):
            name = f"{folder}/key{i}"
            if i % 2:
                Path(name).write_bytes((peer.Key().text() + "\n").encode())
            else:
                ran([path, "keygen", "-o", name])
            texts = [line for line in Path(name).read_bytes().decode().splitlines() if not line.startswith("#")]
            keys.append((name, peer.Key.of(texts[0]).recipient()))
        there = one_way("from sazh", ours, other, keys, folder)
        back = one_way("to sazh", other, ours, keys, folder)
    failed = there[1] + back[1]
    print(f"{there[0] + back[0]} passed, {failed} failed")
    return 1 if failed else 0


if __name__ == "__main__":
    sys.exit(main())
