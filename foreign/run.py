"""Compares the library for C with another implementation and with the program; `run.sh` says how.

run.py SAZH FOLDER: FOLDER has libage_c.a and libage_c.so.
"""

import os
import random
import re
import shutil
import subprocess
import sys
import tempfile
import time
from pathlib import Path

TOP = Path(__file__).resolve().parent.parent
sys.path[:0] = [str(TOP / "tests" / "interop"), str(TOP / "examples" / "foreign")]
sys.dont_write_bytecode = True

import age_c  # noqa: E402
import peer  # noqa: E402

SIZES = [0, 1, 65_535, 65_536, 65_537, 200_000]
PASSPHRASE = b"correct horse battery staple\n"
# The statuses of age_c.h that are looked for by name.
STATUSES = dict(re.findall(r"\bAGE_(\w+) = (\d+)", (TOP / "include" / "age_c.h").read_text()))
TOO_SHORT, BAD_ARGUMENT, UNEXPECTED_EOF, BAD_CHUNK, LAST_CHUNK_EMPTY, NOT_IDENTITY = (
    int(STATUSES[name]) for name in ["OUT_TOO_SHORT", "BAD_ARGUMENT", "UNEXPECTED_EOF", "BAD_CHUNK", "LAST_CHUNK_EMPTY", "NOT_IDENTITY"]
)
NEED_MORE, PAST_END, TRUNCATED, INVALID_HEADER, UNKNOWN_FORMAT = (
    int(STATUSES[name]) for name in ["NEED_MORE", "PAST_END", "TRUNCATED", "INVALID_HEADER", "UNKNOWN_FORMAT"]
)
DECRYPTION_FAILED, INVALID_MAC, NO_MATCHING_KEYS, PLUGIN, NO_RANDOM = (
    int(STATUSES[name]) for name in ["DECRYPTION_FAILED", "INVALID_MAC", "NO_MATCHING_KEYS", "PLUGIN", "NO_RANDOM"]
)
NOT_TEXT, NOT_RECIPIENT, NO_RECIPIENT, NO_IDENTITY, NO_PASSPHRASE, PASSPHRASE_NEEDED = (
    int(STATUSES[name]) for name in ["NOT_TEXT", "NOT_RECIPIENT", "NO_RECIPIENT", "NO_IDENTITY", "NO_PASSPHRASE", "PASSPHRASE_NEEDED"]
)


class Count:
    """What passed and what failed. A failure is told."""

    def __init__(self):
        self.passed = self.failed = 0

    def check(self, what, good):
        if good:
            self.passed += 1
        else:
            self.failed += 1
            print(f"FAILED: {what}")


class Program:
    """One of the examples, as a program: the words of age.c."""

    # What a status says, by its number.
    text_of = None

    def __init__(self, name, words, folder, environment=None):
        self.name, self.words, self.folder, self.environment = name, words, folder, environment

    def run(self, command, keys, given, *more):
        """The status, and what was written. A refusal has to be told in one line."""
        paths = [f"{self.folder}/{name}" for name in ("keys", "given", "out")]
        Path(paths[0]).write_bytes(keys)
        Path(paths[1]).write_bytes(given)
        Path(paths[2]).unlink(missing_ok=True)
        words = [*self.words, command, *paths, *map(str, more)]
        done = subprocess.run(words, env=self.environment, stdin=subprocess.DEVNULL, capture_output=True, check=False)
        told = f"age: {self.text_of(done.returncode)}\n".encode() if done.returncode else b""
        if done.returncode not in range(99) or done.stderr != told:
            print(f"{self.name} {command}: status {done.returncode}: {done.stderr.decode(errors='replace')}")
            return 100, None
        return done.returncode, Path(paths[2]).read_bytes() if os.path.exists(paths[2]) else None


class Sazh(Program):
    """The program of this repository."""

    def run(self, command, keys, given, *more):
        paths = [f"{self.folder}/{name}" for name in ("keys", "given", "out")]
        Path(paths[0]).write_bytes(keys)
        Path(paths[1]).write_bytes(given)
        words = {
            "encrypt": ["encrypt", "-R"],
            "armor": ["encrypt", "-a", "-R"],
            "encrypt-passphrase": ["encrypt", "-p"],
            "decrypt": ["decrypt", "-i"],
            "decrypt-passphrase": ["decrypt", "-p"],
            "part": [],
        }[command]
        if command == "part":
            words = [*self.words, "part", "-i", paths[0], *map(str, more), paths[1]]
            done = subprocess.run(words, stdin=subprocess.DEVNULL, capture_output=True, check=False)
            return done.returncode, done.stdout if done.returncode == 0 else None
        words = [*self.words, *words, paths[0], "-f", "-o", paths[2], paths[1]]
        done = subprocess.run(words, stdin=subprocess.DEVNULL, capture_output=True, check=False)
        return done.returncode, Path(paths[2]).read_bytes() if done.returncode == 0 else None


def programs(folder, out, library):
    """The examples: C, under valgrind where that is, Python, and Rust where that is."""
    made = []
    static = f"{out}/libage_c.a"
    words = ["cc", "-Wall", "-Wextra", "-Werror", "-O2", f"-I{TOP}/include", f"{TOP}/examples/foreign/age.c", static]
    subprocess.run([*words, "-o", f"{folder}/age-c"], check=True)
    made.append(Program("C", [f"{folder}/age-c"], folder))
    if shutil.which("valgrind"):
        # (it knows no instructions past x86-64-v3)
        words = ["valgrind", "-q", "--leak-check=full", "--errors-for-leak-kinds=all", "--error-exitcode=99", f"{folder}/age-c"]
        made.append(Program("C under valgrind", words, folder))
    if shutil.which("rustc"):
        rust = ["rustc", "-O", "--edition=2024", "-o", f"{folder}/age-rust", f"{TOP}/examples/foreign/age.rs"]
        subprocess.run([*rust, "-L", f"native={out}", "-l", "static=age_c"], check=True)
        made.append(Program("Rust", [f"{folder}/age-rust"], folder))
    python = [sys.executable, f"{TOP}/examples/foreign/age_c.py"]
    made.append(Program("Python", python, folder, {**os.environ, "AGE_C_LIBRARY": library}))
    return made


def both_ways(count, program, others, keys):
    """Files of the program are read by the others, and the other way round: to recipients, bare and in armor, and under a passphrase."""
    recipients = "".join(key.recipient() + "\n" for key in keys).encode()
    text = (keys[-1].text() + "\n").encode()
    for size in SIZES[:3] if "valgrind" in program.name else SIZES:
        plain = os.urandom(size)
        for form in ("encrypt", "armor"):
            status, file = program.run(form, recipients, plain)
            count.check(f"{program.name} {form} {size}", status == 0 and peer.decrypt(keys[0], file) == plain)
            for other in others:
                count.check(f"{program.name} {form} {size}, read by {other.name}", other.run("decrypt", text, file) == (0, plain))
                status, file_of_other = other.run(form, recipients, plain)
                good = status == 0 and program.run("decrypt", text, file_of_other) == (0, plain)
                count.check(f"{other.name} {form} {size}, read by {program.name}", good)
        made = peer.encrypt_to([key.recipient() for key in keys], plain)
        for given in (made, peer.armored(made)):
            count.check(f"{program.name} reads {size} of peer.py", program.run("decrypt", text, given) == (0, plain))
    if "valgrind" in program.name:
        return
    plain = os.urandom(1000)
    status, file = program.run("encrypt-passphrase", PASSPHRASE, plain)
    count.check(f"{program.name} under a passphrase", status == 0 and peer.decrypt(PASSPHRASE.strip(), file) == plain)
    given = peer.encrypt_under(PASSPHRASE.strip(), plain, 10)
    count.check(f"{program.name} reads under a passphrase", program.run("decrypt-passphrase", PASSPHRASE, given) == (0, plain))


def parts(count, program, other, keys):
    """Parts of plaintexts at many places, and whole ones by chunks, as `sazh part` and peer.py have them; of damaged and of cut files what is left."""
    text = (keys[0].text() + "\n").encode()
    few = "valgrind" in program.name
    for size in [0, 65_537] if few else [*SIZES, 131_072]:
        plain = os.urandom(size)
        file = peer.encrypt_to([key.recipient() for key in keys], plain)
        count.check(f"{program.name} streams {size}", program.run("stream", text, file) == (0, plain))
        # (C at all of them, the others, which start slower, at some)
        places = {0, 1, 10, 65_535, 65_536, 65_537, 131_071, 131_072, size - 1, size, size + 1, size // 2} if other else {0, 65_535, size, size + 1}
        for place in sorted(place for place in places if place >= 0 and not (few and place > size)):
            for wanted in (0, 1, 100, 65_536, 2**63) if other else (100, 2**63):
                told = program.run("part", text, file, place, wanted)
                good = told == (0, plain[place : place + wanted]) if place <= size else told == (PAST_END, None)
                count.check(f"{program.name}: {wanted} bytes from {place} of {size}: {told[0]}", good)
                if other and wanted in (1, 100) and place <= size:
                    status, given = other.run("part", text, file, place, wanted)
                    count.check(f"{other.name}: {wanted} bytes from {place} of {size}", (status, given) == (0, plain[place : place + wanted]))
    if few:
        return
    # (three chunks: the one in the middle is damaged, or the file is cut in the last or between two)
    plain = os.urandom(140_000)
    file = peer.encrypt_to([keys[0].recipient()], plain)
    begins = len(file) - (140_000 + 3 * 16)
    bent = bytearray(file)
    bent[begins + 65_552 + 7] ^= 1
    for what, given in [("damaged", bytes(bent)), ("cut", file[:-1]), ("cut between chunks", file[: begins + 2 * 65_552])]:
        count.check(f"{program.name} streams a {what} file", program.run("stream", text, given) == (BAD_CHUNK, None))
        for place, wanted in [(0, 65_536), (5, 100), (65_536, 1), (70_000, 100), (131_072, 10), (139_990, 100), (131_000, 2**63)]:
            status, out = program.run("part", text, given, place, wanted)
            right = status == 0 and out == plain[place : place + wanted] or status in (BAD_CHUNK, PAST_END) and out is None
            count.check(f"{program.name}: {wanted} bytes from {place} of a {what} file: {status}", right)
            if other:
                status_of_other, out_of_other = other.run("part", text, given, place, wanted)
                agree = (status == 0) == (status_of_other == 0) and (status != 0 or out == out_of_other)
                # (the chunk that a cut made the last is read by `sazh` as one before it, and refused by the examples)
                agree = agree or what == "cut between chunks" and status == BAD_CHUNK and out_of_other == plain[place : place + wanted]
                count.check(f"{program.name} and {other.name}: {wanted} bytes from {place} of a {what} file", agree)
    status, out = program.run("part", text, bytes(bent), 10, 60_000)
    count.check(f"{program.name}: a whole chunk before a damaged one", (status, out) == (0, plain[10:60_010]))
    count.check(f"{program.name}: the damaged chunk", program.run("part", text, bytes(bent), 65_536, 1) == (BAD_CHUNK, None))
    for what, wanted, given in [
        ("a cut header", UNEXPECTED_EOF, file[:100]),
        ("a cut nonce", UNEXPECTED_EOF, file[: begins - 1]),
        ("no payload", TRUNCATED, file[:begins]),
        ("a file for another", NO_MATCHING_KEYS, peer.encrypt_to([keys[1].recipient()], plain)),
        ("a file in armor", INVALID_HEADER, peer.armored(file)),
    ]:
        status, out = program.run("part", text, given, 0, 10)
        count.check(f"{program.name}: a part of {what}: {status} in place of {wanted}", (status, out) == (wanted, None))


def headers(count, library, keys):
    """Each front of a file: more of it is needed, or its payload is told; and fronts that are damaged, refused at the byte that tells."""
    text = (keys[-1].text() + "\n").encode()
    for stanzas in (1, 3, 60):
        recipients = [keys[number % 3].recipient() for number in range(stanzas - 1)] + [keys[-1].recipient()]
        file = peer.encrypt_to(recipients, b"a plaintext")
        begins = len(file) - len(b"a plaintext") - 16
        told = library.open_header(text, file)
        count.check(f"the place of a payload after {stanzas} stanzas", told is not None and told[1] == begins)
        key = peer.hkdf(file[begins - 16 : begins], b"payload", peer.file_key_of(peer.parsed(file)[0], keys[-1]))
        count.check(f"its key after {stanzas} stanzas", told[0] == key)
        count.check("the chunk by it", library.open_chunk(told[0], 0, True, file[told[1] :]) == b"a plaintext")
        for length in range(len(file) + 1):
            given = library.open_header(text, file[:length])
            if given != (told if length >= begins else None):
                count.check(f"a front of {length} bytes with {stanzas} stanzas", False)
                break
        else:
            count.check(f"each front with {stanzas} stanzas", True)
    wrong = bytearray(file)
    changed = file.index(b"\n---") + 10
    wrong[changed] = ord("B" if file[changed] == ord("A") else "A")  # (another letter of base64: what isn't one is a damaged header)
    for what, wanted, given in [
        ("another MAC", INVALID_MAC, bytes(wrong)),
        ("another version", UNKNOWN_FORMAT, b"age-encryption.org/v2\n"),
        ("another version that isn't told yet", None, b"age-encryption.org/v2"),
        ("another magic", INVALID_HEADER, b"age-encryption.orz"),
        ("armor", INVALID_HEADER, b"-"),
        ("nothing", None, b""),
        ("a file for another", NO_MATCHING_KEYS, peer.encrypt_to([keys[0].recipient()], b"")),
    ]:
        try:
            answer = library.open_header(text, given)
        except age_c.Refused as fault:
            answer = fault.status
        count.check(f"a front with {what}: {answer} in place of {wanted}", answer == wanted)
    count.check("a bad identity is told first", refused(library.open_header, b"no key\n", b"") == NOT_IDENTITY)
    under = peer.encrypt_under(PASSPHRASE.strip(), b"a plaintext", 10)
    told = library.open_header(PASSPHRASE, under, under_passphrase=True)
    count.check("a chunk under a passphrase", library.open_chunk(told[0], 0, True, under[told[1] :]) == b"a plaintext")
    count.check("a short front under a passphrase", library.open_header(PASSPHRASE, under[:50], under_passphrase=True) is None)
    count.check("another passphrase", refused(library.open_header, b"another\n", under, True) == DECRYPTION_FAILED)
    count.check("a passphrase, and a file to a key", refused(library.open_header, PASSPHRASE, file, True) == NO_MATCHING_KEYS)
    ctypes = age_c.ctypes
    for front, length, wanted in [(file, 31, (TOO_SHORT, 32, begins)), (file[:9], 32, (NEED_MORE, 0, 0)), (b"-", 32, (INVALID_HEADER, 0, 0))]:
        room, written, place = ctypes.create_string_buffer(b"\xaa" * 40, 40), ctypes.c_size_t(77), ctypes.c_size_t(77)
        status = library.calls.age_open_header(*age_c.passed(text, front), room, length, ctypes.byref(written), ctypes.byref(place))
        good = (status, written.value, place.value) == wanted and room.raw == b"\xaa" * 40
        count.check(f"what is left after status {status} of age_open_header", good)


def vectors(count, program):
    """Each vector opens to what tests/vectors/README.md says."""
    folder = TOP / "tests" / "vectors"
    own = (folder / "key.txt").read_bytes()
    passphrase = (folder / "protected_identity.passphrase").read_bytes()
    status, held = program.run("decrypt-passphrase", passphrase, (folder / "protected_identity.age").read_bytes())
    count.check(f"{program.name}: protected_identity.age", status == 0 and len(held) == 189)
    rows = [("empty.age", own, 0), ("one_byte.age", own, 1), ("whole_chunk.age", own, 65_536), ("one_byte_more.age", own, 65_537)]
    for name, keys, size in [*rows, ("to_protected.age", held, 300)]:
        plain = bytes(7 * i % 251 for i in range(size))
        count.check(f"{program.name}: {name}", program.run("decrypt", keys, (folder / name).read_bytes()) == (0, plain))
    plain = bytes(7 * i % 251 for i in range(1000))
    answer = program.run("decrypt-passphrase", (folder / "passphrase.txt").read_bytes(), (folder / "under_passphrase.age").read_bytes())
    count.check(f"{program.name}: under_passphrase.age", answer == (0, plain))


def refused(call, *words):
    """The status of a call that is refused, or 0."""
    try:
        call(*words)
    except age_c.Refused as fault:
        return fault.status
    return 0


def refusals(count, library, keys):
    """Statuses, each by its name in age_c.h."""
    text = (keys[0].text() + "\n").encode()
    file = peer.encrypt_to([keys[0].recipient()], b"a plaintext")
    under = peer.encrypt_under(b"another", b"a plaintext", 10)
    end = file.index(b"---") + 4
    for what, wanted, status in [
        ("no file", UNEXPECTED_EOF, refused(library.decrypt, text, b"")),
        ("a line that is no identity", NOT_IDENTITY, refused(library.decrypt, b"no key\n", file)),
        ("another passphrase", DECRYPTION_FAILED, refused(library.decrypt_passphrase, PASSPHRASE, under)),
        ("a MAC of another", INVALID_MAC, refused(library.decrypt, text, file[:end] + peer.encode(bytes(32)).encode() + file[end + 43 :])),
        ("a file for another", NO_MATCHING_KEYS, refused(library.decrypt, (keys[1].text() + "\n").encode(), file)),
        ("no identity", NO_MATCHING_KEYS, refused(library.decrypt, b"# none\n", file)),
        ("a text that is no text", NOT_TEXT, refused(library.encrypt, b"\xff\n", b"")),
        ("a line that is no recipient", NOT_RECIPIENT, refused(library.encrypt, b"age1\n", b"")),
        ("no recipient", NO_RECIPIENT, refused(library.encrypt, b"# none\n", b"")),
        ("no passphrase", NO_PASSPHRASE, refused(library.encrypt_passphrase, b"\n", b"")),
    ]:
        count.check(f"{what}: {status} in place of {wanted}", status == wanted)


def texts(count, library):
    """What statuses say: in the words of the Rust crate where it has the refusal, and of no status."""
    for name, wanted in [
        ("OK", "success"),
        ("OUT_OF_MEMORY", "out of memory"),
        ("TRUNCATED", "age file is truncated"),
        ("BAD_CHUNK", "decryption error"),
        ("LAST_CHUNK_EMPTY", "last chunk is empty"),
        ("ARMOR_SHORT_LINE", "invalid armor (short line in middle of encoding)"),
        ("NO_MATCHING_KEYS", "no matching keys"),
        ("PASSPHRASE_NEEDED", "the text is encrypted with a passphrase"),
    ]:
        count.check(f"the text of AGE_{name}", library.error_text(int(STATUSES[name])) == wanted)
    told = {int(number): library.error_text(int(number)) for number in STATUSES.values()}
    count.check("each status has a text", "unknown status" not in told.values())
    count.check("other numbers have none", {library.error_text(it) for it in (5, 66, 2**32 - 1)} == {"unknown status"})
    room, written = age_c.ctypes.create_string_buffer(b"\xaa" * 8, 8), age_c.ctypes.c_size_t(77)
    status = library.calls.age_error_text(0, room, 6, age_c.ctypes.byref(written))
    count.check("a room that is too short for a text", (status, written.value, room.raw) == (TOO_SHORT, 7, b"\xaa" * 8))


def rooms(count, library, keys):
    """What a call leaves in a room that is too short, long enough, and of a file that is refused; and too few random bytes."""
    ctypes = age_c.ctypes
    text, plain = (keys[0].text() + "\n").encode(), b"a plaintext"
    file = peer.encrypt_to([keys[0].recipient()], plain)

    def called(given, length):
        room, written = ctypes.create_string_buffer(b"\xaa" * 32, 32), ctypes.c_size_t(77)
        status = library.calls.age_decrypt(*age_c.passed(text, given), room, length, ctypes.byref(written))
        return status, written.value, room.raw

    count.check("a room that is too short", called(file, 10) == (TOO_SHORT, 11, b"\xaa" * 32))
    count.check("a room of none", called(file, 0) == (TOO_SHORT, 11, b"\xaa" * 32))
    count.check("a room that fits", called(file, 11) == (0, 11, plain + b"\xaa" * 21))
    count.check("a longer room", called(file, 30) == (0, 11, plain + b"\xaa" * 21))
    status, written, room = called(file[:-1], 30)
    count.check("a room after a refusal", (status, written, room) == (BAD_CHUNK, 0, b"\xaa" * 32))
    for random_bytes, wanted in ((63, NO_RANDOM), (64, 0), (65, 0)):
        room, written = ctypes.create_string_buffer(400), ctypes.c_size_t(0)
        words = [*age_c.passed(keys[0].recipient().encode(), bytes(random_bytes)), False, *age_c.passed(plain)]
        status = library.calls.age_encrypt(*words, room, 400, ctypes.byref(written))
        count.check(f"{random_bytes} random bytes", status == wanted)


def made_keys(count, library, keys):
    """Keys by given random bytes, and the recipients of identities, as peer.py writes them."""
    key = keys[0]
    lines = f"# public key: {key.recipient()}\n{key.text()}\n".encode()
    for given, wanted in ((key.secret, lines), (key.secret + b"more", lines), (key.secret[:31], NO_RANDOM), (b"", NO_RANDOM)):
        try:
            answer = library.given(library.calls.age_keygen, age_c.passed(given), 152)
        except age_c.Refused as fault:
            answer = fault.status
        count.check(f"a key by {len(given)} random bytes", answer == wanted)
    made = library.keygen()
    count.check("another key each time", made != library.keygen())
    count.check("a key is 152 bytes", len(made) == 152)
    file = peer.encrypt_to([made.split(b"\n")[0].removeprefix(b"# public key: ").decode()], b"a plaintext")
    count.check("a file to the recipient that a key tells", library.decrypt(made, file) == b"a plaintext")
    text = "".join(f"# a key\n{key.text()}\n\n" for key in keys).encode()
    told = library.recipient_of(text)
    count.check("the recipients of identities", told == "".join(key.recipient() + "\n" for key in keys).encode())
    count.check("a file to them", library.decrypt((keys[-1].text() + "\n").encode(), library.encrypt(told, b"a plaintext")) == b"a plaintext")
    plugin = peer.bech32("age-plugin-none-", b"").upper().encode()
    for what, wanted, given in [
        ("no identity", NO_IDENTITY, b"# none\n"),
        ("an identity of a plugin", PLUGIN, plugin + b"\n" + text),
        ("a line that is no identity", NOT_IDENTITY, text + b"no key\n"),
        ("a file under a passphrase", PASSPHRASE_NEEDED, peer.encrypt_under(b"a passphrase", text, 10)),
        ("the same in armor", PASSPHRASE_NEEDED, peer.armored(peer.encrypt_under(b"a passphrase", text, 10))),
    ]:
        status = refused(library.recipient_of, given)
        count.check(f"the recipients of {what}: {status} in place of {wanted}", status == wanted)


def lengths(count, library):
    """Lengths of plaintexts by those of payloads that peer.py sealed, and of payloads that are none."""
    for size in [*SIZES, 131_072]:
        payload = len(peer.sealed(bytes(16), [], bytes(size))) - len(peer.header(bytes(16), [])) - 16
        count.check(f"a payload of {size} bytes of plaintext", library.plain_length(payload) == size)
    # (too short, a second chunk that is empty, one that is cut in its tag)
    for payload in (0, 15, 65_552 + 16, 65_552 + 1, 65_552 + 15, 2 * 65_552 + 16):
        status = refused(library.plain_length, payload)
        count.check(f"a payload of {payload} bytes: {status}", status == BAD_ARGUMENT)


def chunks(count, library, keys):
    """Payloads of peer.py are opened chunk by chunk, and those that are sealed so are opened by peer.py; a chunk elsewhere is refused."""
    for size in [*SIZES, 131_072]:
        plain, file_key, start = os.urandom(size), os.urandom(16), os.urandom(16)
        key = peer.hkdf(start, b"payload", file_key)
        number = library.calls.age_chunk_count(size)
        pieces = [plain[i : i + peer.PIECE] for i in range(0, size, peer.PIECE)] or [b""]
        count.check(f"{size} bytes have {number} chunks", number == len(pieces))
        sealed = [library.seal_chunk(key, i, i == len(pieces) - 1, piece) for i, piece in enumerate(pieces)]
        file = peer.header(file_key, [peer.x25519_stanza(file_key, keys[0].recipient())]) + start + b"".join(sealed)
        count.check(f"chunks of {size} bytes, read by peer.py", peer.decrypt(keys[0], file) == plain)
        theirs = peer.sealed(file_key, [], plain)[len(peer.header(file_key, [])) :]
        key, payload = peer.hkdf(theirs[:16], b"payload", file_key), theirs[16:]
        texts = [payload[i : i + peer.PIECE + 16] for i in range(0, len(payload), peer.PIECE + 16)]
        opened = [library.open_chunk(key, i, i == len(texts) - 1, text) for i, text in enumerate(texts)]
        count.check(f"chunks of {size} bytes of peer.py", b"".join(opened) == plain)
        for number, last in ((len(texts), True), (len(texts) - 1, False)):
            status = refused(library.open_chunk, key, number, last, texts[-1])
            count.check(f"the last chunk of {size} bytes as chunk {number}: {status}", status == BAD_CHUNK)
    key = bytes(32)
    cipher = peer.ChaCha20Poly1305(key)
    empty = cipher.encrypt(peer.nonce(1, True), b"", None)
    count.check("a last chunk that is empty", refused(library.open_chunk, key, 1, True, empty) == LAST_CHUNK_EMPTY)
    count.check("an empty piece", refused(library.seal_chunk, key, 1, True, b"") == BAD_CHUNK)
    count.check("a short piece in the middle", refused(library.seal_chunk, key, 1, False, b"short") == BAD_CHUNK)
    count.check("a key of 31 bytes", refused(library.seal_chunk, key[:31], 1, True, b"short") == BAD_ARGUMENT)


def damaged(count, library, keys, rounds):
    """Damaged files through the library and through peer.py in one process: both refuse, or both give the same bytes."""
    text = (keys[0].text() + "\n").encode()
    took = differing = 0
    for number in range(rounds):
        plain = random.randbytes(random.choice([0, 1, 40, 300, 65_536, 65_600, 131_072]))
        file = bytearray(peer.encrypt_to([keys[0].recipient()], plain))
        kind, at = number % 4, random.randrange(len(file))
        if kind == 0:
            file[at] ^= 1 << random.randrange(8)
        elif kind == 1:
            del file[at:]
        elif kind == 2:
            file += random.randbytes(random.choice([1, 16, 17, 65_552]))
        else:
            file[at:at] = random.randbytes(1)
        file = bytes(file)
        try:
            wanted = peer.decrypt(keys[0], file)
            # (it passes over the byte after the three dashes, which has to be a space)
            dashes = file.index(b"\n---") + 4
            wanted = wanted if file[dashes : dashes + 1] == b" " else None
        except (peer.Refused, ValueError, IndexError, UnicodeDecodeError):
            wanted = None
        began = time.perf_counter()
        try:
            given = library.decrypt(text, file)
        except age_c.Refused:
            given = None
        took += time.perf_counter() - began
        if given != wanted:
            differing += 1
            print(f"damaged file {number}, of kind {kind} at {at}: {'refused' if given is None else 'opened'}, and not by peer.py")
    count.check(f"{differing} damaged files of {rounds} differ", differing == 0)
    print(f"{rounds} damaged files in {took:.2f} s, {rounds / took:,.0f} a second")


def main():
    sazh, out = os.path.abspath(sys.argv[1]), os.path.abspath(sys.argv[2])
    began = time.monotonic()
    count, keys = Count(), [peer.Key() for _ in range(3)]
    library = age_c.Library(f"{out}/libage_c.so")
    Program.text_of = library.error_text
    with tempfile.TemporaryDirectory() as folder:
        other = Sazh("sazh", [sazh], folder)
        for program in programs(folder, out, f"{out}/libage_c.so"):
            both_ways(count, program, [] if "valgrind" in program.name else [other], keys)
            parts(count, program, other if program.name == "C" else None, keys)
            if "valgrind" not in program.name:
                vectors(count, program)
    refusals(count, library, keys)
    texts(count, library)
    rooms(count, library, keys)
    made_keys(count, library, keys)
    lengths(count, library)
    chunks(count, library, keys)
    headers(count, library, keys)
    damaged(count, library, keys, 2000)
    harm = subprocess.run([f"{TOP}/foreign/harm.sh", "20000"], stdin=subprocess.DEVNULL, capture_output=True, text=True, check=False)
    print(harm.stdout.splitlines()[-1] if harm.returncode == 0 else harm.stdout + harm.stderr)
    count.check("20,000 damaged files of foreign/harm.c are refused", harm.returncode == 0)
    size = os.path.getsize(f"{out}/libage_c.so")
    print(f"libage_c.so has {size:,} bytes, and libage_c.a {os.path.getsize(f'{out}/libage_c.a'):,}")
    print(f"{time.monotonic() - began:.0f} seconds")
    print(f"{count.passed} passed, {count.failed} failed")
    return 1 if count.failed else 0


if __name__ == "__main__":
    sys.exit(main())
