"""The options of `age`, by a table of command lines: what each of them comes to with `age` 1.1.1, it comes to with `sazh`.

Where a program of that name is installed, each row is run on it too, so that the table tells what `age` does and not what one thinks of it, and what one
of them writes is opened by the other.
"""

import shutil
import subprocess
import tempfile
from pathlib import Path

# Two identities with their recipients, of the vectors and of nobody.
KEY = "AGE-SECRET-KEY-1YZ3PRM0AJDSQEWZVRM7NKJL58NQMG3DRAA0JKHX5UL6ND5DJ5P2QJCU2JK"
RECIPIENT = "age1ysxuaeqlk7xd8uqsh8lsnfwt9jzzjlqf49ruhpjrrj5yatlcuf7qke4pqe"
PLAIN = bytes(i * 5 % 253 for i in range(70_000))
ARMOR = b"-----BEGIN AGE ENCRYPTED FILE-----\n"
BARE = b"age-encryption.org/v1\n"

# What a row comes to: it writes a file that the identity opens, bare or in armor, or the plaintext, and to where; or it is refused.
SHOWN, FILE = "shown", "out"

# Command lines that encrypt, what stands on standard input, the form, and where it goes.
ENCRYPTS = [
    (["-r", RECIPIENT], PLAIN, BARE, SHOWN),
    (["-e", "-r", RECIPIENT], PLAIN, BARE, SHOWN),
    (["--encrypt", "--recipient", RECIPIENT], PLAIN, BARE, SHOWN),
    ([f"--recipient={RECIPIENT}"], PLAIN, BARE, SHOWN),
    ([f"-r={RECIPIENT}"], PLAIN, BARE, SHOWN),
    (["-r", RECIPIENT, "-r", "OTHER"], PLAIN, BARE, SHOWN),
    (["-r", "OTHER", "-r", RECIPIENT], PLAIN, BARE, SHOWN),
    (["-r", RECIPIENT, "plain"], b"", BARE, SHOWN),
    (["-r", RECIPIENT, "-"], PLAIN, BARE, SHOWN),
    (["-r", RECIPIENT, "--", "plain"], b"", BARE, SHOWN),
    (["-a", "-r", RECIPIENT, "plain"], b"", ARMOR, SHOWN),
    (["--armor", "-r", RECIPIENT], PLAIN, ARMOR, SHOWN),
    (["-r", RECIPIENT, "-o", "out", "plain"], b"", BARE, FILE),
    (["-r", RECIPIENT, "-o=out", "plain"], b"", BARE, FILE),
    (["-r", RECIPIENT, "--output", "out", "plain"], b"", BARE, FILE),
    (["-r", RECIPIENT, "--output=out"], PLAIN, BARE, FILE),
    (["-r", RECIPIENT, "-a", "-o", "out"], PLAIN, ARMOR, FILE),
    (["-r", RECIPIENT, "-o", "-"], PLAIN, BARE, SHOWN),
    (["-R", "recipients"], PLAIN, BARE, SHOWN),
    (["--recipients-file", "recipients", "plain"], b"", BARE, SHOWN),
    (["--recipients-file=recipients"], PLAIN, BARE, SHOWN),
    (["-R", "-", "plain"], f"# a comment\n\n{RECIPIENT}\n".encode(), BARE, SHOWN),
    (["-R", "others", "-R", "recipients"], PLAIN, BARE, SHOWN),
    (["-R", "others", "-r", RECIPIENT], PLAIN, BARE, SHOWN),
    (["-e", "-i", "key"], PLAIN, BARE, SHOWN),
    (["--encrypt", "--identity", "key", "-a", "plain"], b"", ARMOR, SHOWN),
    (["-e", "-i", "other_key", "-i", "key", "plain"], b"", BARE, SHOWN),
    (["-e", "-i", "key", "-r", "OTHER", "plain"], b"", BARE, SHOWN),
    (["-e", "-i", "-", "plain"], f"{KEY}\n".encode(), BARE, SHOWN),
    (["-r", RECIPIENT], b"", BARE, SHOWN),
]

# Command lines that decrypt: what stands on standard input, by the name of a file, and where the plaintext goes.
DECRYPTS = [
    (["-d", "-i", "key"], "bare", SHOWN),
    (["--decrypt", "--identity", "key"], "bare", SHOWN),
    (["--decrypt", "--identity=key"], "armored", SHOWN),
    (["-d", "-i", "key", "bare"], None, SHOWN),
    (["-d", "-i", "key", "armored"], None, SHOWN),
    (["-d", "-i", "key", "-"], "bare", SHOWN),
    (["-d", "-i", "key", "--", "bare"], None, SHOWN),
    (["-d", "-i", "key", "-o", "out", "bare"], None, FILE),
    (["-d", "-i", "key", "--output", "out"], "armored", FILE),
    (["-d", "-i", "key", "-o", "-", "bare"], None, SHOWN),
    (["-d", "-i", "other_key", "-i", "key", "bare"], None, SHOWN),
    (["-d", "-i", "key", "-i", "other_key", "bare"], None, SHOWN),
    (["-d", "-i", "commented", "bare"], None, SHOWN),
    (["-d", "-i", "-", "bare"], "key", SHOWN),
]

# Command lines that are refused, with what stands on standard input by the name of a file.
REFUSED = [
    ([], "plain"),
    (["-e"], "plain"),
    (["-a"], "plain"),
    (["-e", "-d", "-r", RECIPIENT], "plain"),
    (["-r", "age1"], "plain"),
    (["-r", "OTHER!"], "plain"),
    (["-r", KEY], "plain"),
    (["-r"], "plain"),
    (["-R", "nothing"], "plain"),
    (["-R", "empty"], "plain"),
    (["-R", "key"], "plain"),
    (["-r", RECIPIENT, "missing"], None),
    (["-r", RECIPIENT, "plain", "plain"], None),
    (["-r", RECIPIENT, "-o", "no/such/folder"], "plain"),
    (["-i", "key"], "plain"),
    (["-e", "-i", "missing"], "plain"),
    (["-e", "-i", "empty"], "plain"),
    (["-e", "-i", "recipients"], "plain"),
    (["--no-such-option"], "plain"),
    (["-d"], "bare"),
    (["-d", "-i", "other_key"], "bare"),
    (["-d", "-i", "missing"], "bare"),
    (["-d", "-i", "empty"], "bare"),
    (["-d", "-i", "recipients"], "bare"),
    (["-d", "-i", "key", "-r", RECIPIENT], "bare"),
    (["-d", "-i", "key", "-R", "recipients"], "bare"),
    (["-d", "-i", "key", "-a"], "armored"),
    (["-d", "-i", "key", "missing"], None),
    (["-d", "-i", "key", "bare", "bare"], None),
    (["-d", "-i", "key"], "plain"),
    (["-d", "-i", "key"], "cut"),
    (["-d", "-i", "key"], "empty"),
    (["-d", "-i", "key"], "longer"),
]


class Program:
    """One of the two programs, in a folder of its own with the same files."""

    def __init__(self, path, folder, files):
        self.path, self.folder = path, Path(folder)
        for name, content in files.items():
            (self.folder / name).write_bytes(content)

    def run(self, words, given):
        (self.folder / "out").unlink(missing_ok=True)
        return subprocess.run([self.path, *words], input=given, capture_output=True, check=False, cwd=self.folder)

    def wrote(self, done, where):
        """What went there, and nothing elsewhere; else None."""
        out = self.folder / "out"
        if where == SHOWN:
            return None if out.exists() else done.stdout
        return out.read_bytes() if out.exists() and not done.stdout else None


def rows(program, opens, other, files, ends):
    """Runs all rows on a program. `opens` decrypts a file for the identity, by whatever program."""
    with_other = lambda words: [word.replace("OTHER", other) for word in words]
    for words, given, form, where in ENCRYPTS:
        done = program.run(with_other(words), given)
        file = program.wrote(done, where)
        good = done.returncode == 0 and file is not None and file.startswith(form)
        plain = b"" if given == b"" and "plain" not in words else PLAIN
        ends(f"{words}: status {done.returncode}, {done.stderr!r}", good and opens(file) == plain)
    for words, given, where in DECRYPTS:
        done = program.run(words, b"" if given is None else files[given])
        ends(f"{words}: status {done.returncode}, {done.stderr!r}", done.returncode == 0 and program.wrote(done, where) == PLAIN)
    for words, given in REFUSED:
        done = program.run(with_other(words), b"" if given is None else files[given])
        # (a file of which only the end is wrong may have been written up to there)
        shown = PLAIN if given in ("cut", "longer") else b""
        good = done.returncode != 0 and done.stderr and shown.startswith(done.stdout) and not (program.folder / "out").exists()
        ends(f"{words}: status {done.returncode}, {done.stderr!r}", bool(good))


def table(sazh, ends):
    """Runs the table on `sazh`, with `age` where it is installed, each opening what the other wrote; and else with `sazh` alone."""
    age, keygen = shutil.which("age"), shutil.which("age-keygen")
    with tempfile.TemporaryDirectory() as folder:
        base = Path(folder)
        key_file = subprocess.run([keygen] if age and keygen else [sazh, "keygen"], capture_output=True, check=True).stdout
        other = next(line for line in key_file.decode().splitlines() if "public key: " in line).rpartition(" ")[2]
        files = {
            "plain": PLAIN,
            "empty": b"",
            "key": f"{KEY}\n".encode(),
            "commented": f"# created: today\n\n# public key: {RECIPIENT}\n{KEY}\n".encode(),
            "other_key": key_file,
            "recipients": f"# one\n{RECIPIENT}\n".encode(),
            "others": f"{other}\n".encode(),
        }
        first = age or sazh
        make = lambda *words: subprocess.run([first, *words, "-r", RECIPIENT], input=PLAIN, capture_output=True, check=True).stdout
        files["bare"], files["armored"] = make(), make("-a")
        files["cut"], files["longer"] = files["bare"][:-1], files["bare"] + b"x"
        for program, opener in ((sazh, age or sazh), (age, sazh)):
            if program is None:
                continue
            home = base / Path(program).name
            home.mkdir()
            (base / "key").write_bytes(files["key"])
            opens = lambda file, by=opener: subprocess.run([by, "-d", "-i", base / "key"], input=file, capture_output=True, check=False).stdout
            name = Path(program).name
            rows(Program(program, home, files), opens, other, files, lambda what, good, name=name: ends(f"{name} {what}", good))

