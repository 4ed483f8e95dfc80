#!/usr/bin/env python3
"""Runs agebench where memory, reads and writes fail or fall short, and on damaged payloads, files and armor; and so crates/rows, which
makes calls of the library in rows where memory is refused, opens protected identity files, and seeks in files on the disk.

Each run must answer the right bytes, or a beginning of them and the refusal that belongs to the fault. The right
bytes are those of a second implementation, `second.py`, written from the format's own words. Prints each run that
doesn't, and in the last line how many passed and failed.
"""
import os
import random
import subprocess
import sys
import tempfile
from concurrent.futures import ProcessPoolExecutor

import rows
import second
from second import BEGIN, END, PIECE, VERSION, armor, stanza

KEY = bytes(range(32))
TRUNCATED = "age file is truncated"
BAD_CHUNK = "decryption error"
BAD_END = "Last chunk is invalid, stream might be truncated"
AFTER_LAST = "last chunk has been processed"
LAST_EMPTY = "last chunk is empty"
NO_MEMORY = "out of memory"
DEVICE = "device fault"
BAD_HEADER = "invalid header"
BAD_MAC = "invalid header MAC"
UNKNOWN = "unknown format"
EARLY = "input ended early"
NO_KEYS = "no matching keys"
NO_RANDOM = "random bytes ran out"
ZERO_SHARED = "shared secret is zero"
FAILED = "decryption failed"
NO_KEY = "key decryption failed"
PAST_END = "cannot seek past the end"
BASE64 = "invalid base64 in armor"
BEGIN_MARKER = "invalid armor begin marker"
NOT_UTF8 = "stream did not contain valid UTF-8"
HAS_CR = "line contains CR"
NO_PADDING = "invalid armor (last line is missing padding)"
NOT_WRAPPED = "invalid armor (not wrapped at 64 characters)"
SHORT_LINE = "invalid armor (short line in middle of encoding)"
TRAILING = "invalid armor (non-whitespace characters after end marker)"
DRAW = bytes(range(100, 132))
SECRET, KEY_DRAW = bytes(range(50, 82)), bytes(range(100, 164))
RECIPIENT = second.bech32("age", second.public(SECRET))
IDENTITY = second.bech32("age-secret-key-", SECRET).upper()
PASSPHRASE, LONG_DRAW = "correct horse", bytes(range(100, 172))
SEAL, OPEN = ["seal", KEY.hex()], ["open", KEY.hex().upper()]
ENCRYPT, DECRYPT = ["encrypt", "bench", DRAW.hex()], ["decrypt", "bench"]
USAGE = ("usage: agebench seal|open KEY, encrypt TO DRAW [armor], decrypt WITH, at WITH PLACE COUNT, "
         "keygen DRAW\n")


def payload(plain):
    return second.payload(KEY, plain)


def seal(number, last, plain):
    return second.seal(KEY, number, last, plain)


class Runs:
    def __init__(self, program, shim, folder):
        self.program, self.shim = program, shim
        self.name = os.path.basename(program)
        self.mark = os.path.join(folder, "mark")
        self.input = os.path.join(folder, "input")
        self.passed = self.failed = 0

    def run(self, words, given, inject=None, at=0):
        """Status, standard output, standard error, and whether the fault came.

        Without a fault the input comes by a pipe, so that a read gives what was written into that by then. With one it is a
        file, of which each read gives all that it asks for: so a program makes as many calls each time, whatever runs beside it.
        """
        surroundings = {"PATH": os.environ.get("PATH", "")}
        if not inject:
            done = subprocess.run([self.program, *words], input=given, capture_output=True, env=surroundings, timeout=60)
            return done.returncode, done.stdout, done.stderr.decode(), False
        surroundings.update(LD_PRELOAD=self.shim, INJECT=inject, INJECT_AT=str(at), INJECT_MARK=self.mark)
        if os.path.exists(self.mark):
            os.remove(self.mark)
        with open(self.input, "wb") as file:
            file.write(given)
        with open(self.input, "rb") as file:
            done = subprocess.run([self.program, *words], stdin=file, capture_output=True, env=surroundings, timeout=60)
        return done.returncode, done.stdout, done.stderr.decode(), os.path.exists(self.mark)

    def judge(self, name, right, got):
        if right:
            self.passed += 1
        else:
            self.failed += 1
            status, out, err, _ = got
            print(f"failed: {name}: status {status}, {len(out)} bytes, {err!r}")

    def answers(self, name, words, given, want):
        got = self.run(words, given)
        self.judge(name, got[:3] == (0, want, ""), got)

    def refuses(self, name, words, given, front, text, times=1):
        got = self.run(words, given)
        self.judge(name, got[:3] == (1, front, f"{self.name}: {text}\n" * times), got)

    def injected(self, name, words, given, want, inject, text, most=1):
        """The fault at each call in turn, until none is left: `text` is the refusal, or None for no refusal.

        A request for memory that was refused may be made again for less, so that all goes well. The refusal may be told
        so many times, where a later use answers it again.
        """
        at = 1
        while True:
            got = self.run(words, given, inject, at)
            status, out, err, came = got
            if not came:
                break
            well = (status, out, err) == (0, want, "")
            lines = [f"{self.name}: {text}\n" * times for times in range(1, most + 1)]
            refused = status == 1 and want.startswith(out) and err in lines
            right = well if text is None else refused or (inject == "alloc" and well)
            self.judge(f"{name}: {inject} {at}", right, got)
            at += 1
        self.judge(f"{name}: {inject}: no call of this kind", at > 1, got)
        self.judge(f"{name}: {inject}: without it", (status, out, err) == (0, want, ""), got)

    def later(self, name, words, given, good, others):
        """Each request for memory after the first line in turn, until none is left, and how many there were: `good` are the
        lines where none is refused, and may stand where one is, as may each of `others`."""
        at = 1
        while True:
            got = self.run(words, given, "later-alloc", at)
            status, out, err, came = got
            lines = out.decode().splitlines()
            if not came:
                break
            self.judge(f"{name}: request {at} for memory", (status, err) == (0, "") and (lines == good or lines in others), got)
            at += 1
        self.judge(f"{name}: no request for memory refused", (status, lines, err) == (0, good, ""), got)
        return at - 1


def damaged(runs, open_words, plain, sealed):
    """Payloads that were cut, changed or lengthened, and what they must answer."""
    full = PIECE + 16
    for end in [0, 1, 15, 16, 17, full - 1, full, full + 1, full + 15, full + 16, full + 17, 2 * full - 1, 2 * full,
                2 * full + 1, len(sealed) - 1]:
        good = min(end // full, len(plain) // PIECE)
        text = TRUNCATED if end % full == 0 else BAD_CHUNK
        runs.refuses(f"open a payload cut after {end} bytes", open_words, sealed[:end], plain[:PIECE * good], text)
    for place in [0, full - 1, full, 2 * full - 1, 2 * full, len(sealed) - 1]:
        changed = bytearray(sealed)
        changed[place] ^= 1
        runs.refuses(f"open a payload changed at byte {place}", open_words, bytes(changed),
                     plain[:PIECE * (place // full)], BAD_CHUNK)
    runs.refuses("open a payload with a byte after its short last chunk", open_words, sealed + b"x",
                 plain[:PIECE * (len(plain) // PIECE)], BAD_CHUNK)
    one = plain[:PIECE]
    runs.answers("open a full last chunk", open_words, payload(one), one)
    runs.refuses("open a payload with a byte after its full last chunk", open_words, payload(one) + b"x", one,
                 AFTER_LAST)
    runs.refuses("open an empty last chunk after another", open_words, seal(0, False, one) + seal(1, True, b""), one,
                 LAST_EMPTY)
    runs.refuses("open 15 bytes of any kind", open_words, bytes(15), b"", BAD_CHUNK)
    runs.refuses("open a payload under another key", ["open", "ff" * 32], sealed, b"", BAD_CHUNK)
    runs.refuses("open two chunks exchanged", open_words, sealed[full:2 * full] + sealed[:full] + sealed[2 * full:],
                 b"", BAD_CHUNK)


def files(runs):
    """Whole files, changed ones, and headers of all kinds."""
    encrypt, decrypt = ["encrypt", "bench", DRAW.hex()], ["decrypt", "bench"]
    draw = random.Random(2)
    for size in [0, 1, 36, 65535, 65536, 65537, 200000]:
        plain = draw.randbytes(size)
        whole = second.encrypted(DRAW, plain)
        runs.answers(f"encrypt {size} bytes", encrypt, plain, whole)
        runs.answers(f"decrypt {size} bytes", decrypt, whole, plain)
    plain = b"This is a test message. For testing."
    whole = second.encrypted(DRAW, plain)
    start = len(whole) - 52 - 16
    runs.answers("encrypt with a byte too many", encrypt[:2] + [DRAW.hex() + "ff"], plain, whole)
    for count in [0, 15, 16, 31]:
        runs.refuses(f"encrypt with {count} random bytes", encrypt[:2] + [DRAW.hex()[:2 * count]], plain, b"", NO_RANDOM)
    for end in range(len(whole)):
        text = EARLY if end < start + 16 else TRUNCATED if end == start + 16 else BAD_CHUNK
        runs.refuses(f"decrypt a file cut after {end} bytes", decrypt, whole[:end], b"", text)
    key, name, body = DRAW[:16], DRAW[16:], stanza([b"bench"], DRAW[:16])
    other, long = stanza([b"other", b"two", b"words"], bytes(100)), stanza([b"long"], bytes(96))
    scrypt = stanza([b"scrypt", b"AAAA", b"10"], bytes(32))
    rest = name + second.payload(second.hkdf(name, b"payload", key), plain)
    for words, stanzas in [("one", [body]), ("several", [other, long, body, other]), ("two", [body, body])]:
        runs.answers(f"decrypt a file of {words} stanzas", decrypt, second.file(key, stanzas, name, plain), plain)
    for words, stanzas, text in [("no key", [other, long], NO_KEYS), ("a passphrase", [scrypt], NO_KEYS),
                                 ("a passphrase beside others", [scrypt, body], BAD_HEADER),
                                 ("a key of 15 bytes", [stanza([b"bench"], bytes(15))], BAD_HEADER),
                                 ("a key with an argument", [stanza([b"bench", b"x"], key)], BAD_HEADER),
                                 ("another key", [stanza([b"bench"], bytes(16))], BAD_MAC)]:
        runs.refuses(f"decrypt a file with {words}", decrypt, second.file(key, stanzas, name, plain), b"", text)
    old = [other, second.legacy([b"x-old"], b""), body, second.legacy([b"long"], bytes(96))]
    runs.refuses("decrypt a file of stanzas in the legacy form", decrypt, second.file(key, old, name, plain), b"", BAD_HEADER)
    new = [other, stanza([b"x-old"], b""), body, long]
    runs.answers("decrypt a file of the same stanzas", decrypt, second.file(key, new, name, plain), plain)
    good = second.header(key, [body])
    runs.refuses("a changed MAC", decrypt, good[:-2] + second.columns(bytes(32))[-1:] + b"\n" + rest, b"", BAD_MAC)
    front, last = VERSION + body, good[len(VERSION + body):]
    for words, given, text in [
            ("another version", b"age-encryption.org/v2\n", UNKNOWN), ("no version", b"age-encryption.org/\n", BAD_HEADER),
            ("CRLF", b"age-encryption.org/v1\r\n", BAD_HEADER), ("a space in the version", b"age-encryption.org/ v1\n", BAD_HEADER),
            ("other bytes", b"hello", BAD_HEADER), ("no stanzas", VERSION + b"--- " + bytes(43) + b"\n", BAD_HEADER),
            ("no line for the MAC", VERSION + b"--- \n", BAD_HEADER), ("nothing", b"", EARLY), ("no line feed", VERSION[:-1], EARLY),
            ("two spaces", VERSION + b"-> bench  x\n", BAD_HEADER), ("no tag", VERSION + b"-> \n", BAD_HEADER),
            ("61 columns", VERSION + b"-> bench\n" + b"A" * 61 + b"\n", BAD_HEADER),
            ("65 columns", VERSION + b"-> bench\n" + b"A" * 65 + b"\n", BAD_HEADER),
            ("padding", VERSION + b"-> bench\nYQ==\n", BAD_HEADER),
            ("a second spelling", VERSION + b"-> bench\nYR\n", BAD_HEADER),
            ("no end of a body of whole lines", VERSION + b"-> long\n" + b"A" * 64 + b"\n" + last + rest, BAD_HEADER),
            ("no body", VERSION + b"-> bench\n" + last + rest, BAD_HEADER),
            ("a MAC of 42 columns", front + b"--- " + b"A" * 42 + b"\n", BAD_HEADER),
            ("a MAC of 44 columns", front + b"--- " + b"A" * 44 + b"\n", BAD_HEADER),
            ("a MAC of a second spelling", front + b"--- " + b"A" * 42 + b"B\n", BAD_HEADER),
            ("a long version", b"age-encryption.org/" + b"v" * 2 ** 20, EARLY)]:
        if text != EARLY:
            given += bytes(max(36 - len(given), 0))
        runs.refuses(f"decrypt a header with {words}", decrypt, given, b"", text)
    for given in [b"hello", b"age-encryption.org/v2\n", bytes(35), BEGIN + b"\n", b"\xff" * 35]:
        runs.refuses(f"decrypt {len(given)} bytes of any kind", decrypt, given, b"", EARLY)
    many = [stanza([b"x"], b"")] * 10000 + [body]
    runs.answers("decrypt a file of 10,001 stanzas", decrypt, second.file(key, many, name, plain), plain)


def armored_files(runs):
    """Armored files, whatever their lines end with."""
    encrypt, decrypt = ["encrypt", "bench", DRAW.hex(), "armor"], ["decrypt", "bench"]
    draw = random.Random(3)
    for size in [0, 1, 36, 65535, 65536, 65537, 200000]:
        plain = draw.randbytes(size)
        whole = second.encrypted(DRAW, plain)
        text = armor(whole)
        runs.answers(f"encrypt {size} bytes in armor", encrypt, plain, text)
        mixed = b"".join(line + draw.choice([b"\n", b"\r\n"]) for line in second.armor_lines(whole))
        for words, given in [("LF", text), ("CRLF", armor(whole, b"\r\n")), ("LF and CRLF", mixed),
                             ("no last line ending", text[:-1]), ("white space after it", mixed + b" \t\r\n\f\n" * 50000),
                             ("a space after it", text + b" "), ("a CR after it", text + b"\r")]:
            runs.answers(f"decrypt {size} bytes in armor with {words}", decrypt, given, plain)
    for count in [0, 15, 16, 31]:
        runs.refuses(f"encrypt in armor with {count} random bytes", encrypt[:2] + [DRAW.hex()[:2 * count], "armor"], b"abc",
                     b"", NO_RANDOM)


def in_armor(runs, name, plain, given, text):
    """What an armored file of a plaintext answers that was damaged: the chunks before the fault, and its text.

    A part of it, before the fault or behind it, is refused with that text too, since its place is sought from the length.
    """
    carried, fault = second.carried(given)
    agrees = fault == text and second.encrypted(DRAW, plain).startswith(carried)
    runs.judge(f"{name}: the second implementation", agrees, (fault, carried, "", False))
    front = len(second.encrypted(DRAW, b"")) - 16
    good = max(len(carried) - front, 0) // (PIECE + 16)
    runs.refuses(name, ["decrypt", "bench"], given, plain[:PIECE * good], text)
    for place in [0, len(plain) - 1, len(plain) + 1]:
        runs.refuses(f"{name}: at {place} 10", ["at", "bench", str(place), "10"], given, b"", text)


def damaged_armor(runs):
    """Each fault of armor, in the header's lines, behind a whole chunk, and behind all of the payload."""
    draw = random.Random(4)
    for size in [36, 65536, 140000]:
        plain = draw.randbytes(size)
        text = armor(second.encrypted(DRAW, plain))
        lines = text.splitlines(keepends=True)
        full, last = lines[1].rstrip(), len(lines) - 2
        for words, front, fault in [("a space after the begin marker", BEGIN + b" \n", BEGIN_MARKER),
                                    ("a CR after the begin marker", BEGIN + b"\r\r\n", BEGIN_MARKER),
                                    ("no line after the begin marker", BEGIN + full + b"\n", BEGIN_MARKER)]:
            in_armor(runs, f"{size} bytes in armor: {words}", plain, front + b"".join(lines[1:]), fault)
        for place in [1, 2, last // 2, last]:
            before, after = b"".join(lines[:place]), b"".join(lines[place + 1:])
            for words, line, fault in [
                    ("a line that isn't UTF-8", full[:63] + b"\xff\n", NOT_UTF8), ("63 columns and CRLF", full[:63] + b"\r\n", NO_PADDING),
                    ("a line with a CR", b"\r" + full[1:] + b"\n", HAS_CR), ("two CRs", full + b"\r\r\n", HAS_CR),
                    ("63 columns", full[:63] + b"\n", NO_PADDING), ("65 columns", full + b"A\n", NO_PADDING),
                    ("68 columns", full + b"AAAA\n", NOT_WRAPPED), ("no column", b"\n", NOT_WRAPPED),
                    ("a second spelling", full[:60] + b"AB==\n", BASE64), ("another letter", full[:63] + b"-\n", BASE64),
                    ("padding within", full[:56] + b"AA==AAAA\n", BASE64), ("a space", full[:63] + b" \n", BASE64),
                    ("a begin marker", BEGIN + b"\n", NO_PADDING)]:
                in_armor(runs, f"{size} bytes in armor: {words} at line {place}", plain, before + line + after, fault)
            in_armor(runs, f"{size} bytes in armor cut before line {place}", plain, before, EARLY if len(before) < 36 else NOT_WRAPPED)
            in_armor(runs, f"{size} bytes in armor cut in line {place}", plain, before + b"A" * 63, NO_PADDING)
        for words, line, fault in [("a whole line", full + b"\n", SHORT_LINE), ("another short line", b"YQ==\n", NOT_WRAPPED),
                                   ("no column", b"\n", NOT_WRAPPED)]:
            cut = b"".join(lines[:2]) + lines[2][:60] + b"\n" + line + b"".join(lines[3:])
            in_armor(runs, f"{size} bytes in armor: {words} after a short line", plain, cut, fault)
        for words, after in [("a byte", b"x"), ("a byte after white space", b" \t\r\n\f" * 20000 + b"x"),
                             ("a vertical tab", b"\v"), ("another file", text), ("a byte that isn't UTF-8", b"\xff")]:
            in_armor(runs, f"{size} bytes in armor: {words} after the end marker", plain, text + after, TRAILING)
        in_armor(runs, f"{size} bytes in armor without the end marker", plain, b"".join(lines[:-1]), NOT_WRAPPED)
        in_armor(runs, f"{size} bytes in armor: a space after the end marker", plain, text[:-1] + b" \n", NOT_WRAPPED)


def parts(runs):
    """Parts of a plaintext, from a file and from its armor."""
    for size in [0, 36, 65536, 200000]:
        plain = random.Random(4).randbytes(size)
        whole = second.encrypted(DRAW, plain)
        for form, given in [("bare", whole), ("armored", armor(whole)), ("armored with CRLF", armor(whole, b"\r\n"))]:
            for place in {0, 5, 30, size // 2, max(size - 1, 0), size, 65535, 65536, size + 1, 2 ** 64 - 1}:
                for count in [0, 1, 10, 70000, 2 ** 64 - 1]:
                    name, words = f"at {place} {count} of {size} bytes, {form}", ["at", "bench", str(place), str(count)]
                    if place > size:
                        runs.refuses(name, words, given, b"", PAST_END)
                    else:
                        runs.answers(name, words, given, plain[place:place + count])
    plain = b"This is a test message. For testing."
    whole = second.encrypted(DRAW, plain)
    runs.answers("at 005 03", ["at", "bench", "005", "03"], whole, b"is ")
    runs.refuses("at of a changed payload", ["at", "bench", "5", "3"], whole[:-1] + bytes([whole[-1] ^ 1]), b"", BAD_CHUNK)


def keys(runs):
    """Keys that are made, files for them, and stanzas that are none of theirs."""
    line = IDENTITY.encode() + b"\n"
    for more in [b"", b"x", bytes(1000)]:
        runs.answers(f"keygen of {32 + len(more)} bytes", ["keygen", (SECRET + more).hex()], b"ignored", line)
    runs.answers("keygen of zeros", ["keygen", "00" * 32], b"",
                 b"AGE-SECRET-KEY-1QQQQQQQQQQQQQQQQQQQQQQQQQQQQQQQQQQQQQQQQQQQQQQQQQQQQ8H00W3\n")
    for count in [0, 1, 31]:
        runs.refuses(f"keygen of {count} bytes", ["keygen", SECRET[:count].hex()], b"", b"", NO_RANDOM)
    plain = random.Random(5).randbytes(200000)
    recipient = second.public(SECRET)
    whole = second.encrypted_to(recipient, KEY_DRAW, plain)
    other = second.bech32("age-secret-key-", bytes(32))
    for to, identity in [(RECIPIENT, IDENTITY), (RECIPIENT.upper(), IDENTITY.lower())]:
        runs.answers(f"encrypt to {to}", ["encrypt", to, KEY_DRAW.hex()], plain, whole)
        runs.answers(f"encrypt to {to} in armor", ["encrypt", to, KEY_DRAW.hex(), "armor"], plain, armor(whole))
        for given in [whole, armor(whole)]:
            runs.answers(f"decrypt with {identity}", ["decrypt", identity], given, plain)
            runs.answers(f"at with {identity}", ["at", identity, "70000", "10"], given, plain[70000:70010])
            runs.refuses("decrypt with another key", ["decrypt", other], given, b"", NO_KEYS)
            runs.refuses("decrypt with bench what is for a key", ["decrypt", "bench"], given, b"", NO_KEYS)
    runs.refuses("decrypt with a key what is for bench", ["decrypt", IDENTITY], second.encrypted(DRAW, plain), b"", NO_KEYS)
    for count in [0, 15, 16, 47, 48, 63]:
        runs.refuses(f"encrypt to a key with {count} random bytes", ["encrypt", RECIPIENT, KEY_DRAW[:count].hex()], plain, b"", NO_RANDOM)
    shared = KEY_DRAW[:16] + SECRET + KEY_DRAW[48:]
    runs.refuses("encrypt to a key with its own secret", ["encrypt", RECIPIENT, shared.hex()], plain, b"", ZERO_SHARED)
    key, name, share = KEY_DRAW[:16], KEY_DRAW[48:], second.columns(bytes(range(32)))
    own = second.x25519_stanza(key, recipient, KEY_DRAW[16:48])
    foreign = second.x25519_stanza(key, second.public(bytes(32)), KEY_DRAW[16:48])
    decrypt = ["decrypt", IDENTITY]
    for words, stanzas in [("behind others", [stanza([b"other", b"x"], b""), foreign, own]), ("before others", [own, foreign]), ("twice", [own, own])]:
        runs.answers(f"decrypt a key's stanza {words}", decrypt, second.file(key, stanzas, name, plain), plain)
    for words, stanzas, text in [("another's stanza", [foreign], NO_KEYS), ("a body that is no seal", [stanza([b"X25519", share], bytes(32))], NO_KEYS),
                                 ("no share", [stanza([b"X25519"], bytes(32)), own], BAD_HEADER),
                                 ("a second argument", [stanza([b"X25519", share, share], bytes(32)), own], BAD_HEADER),
                                 ("a share of 31 bytes", [stanza([b"X25519", second.columns(bytes(31))], bytes(32)), own], BAD_HEADER),
                                 ("a share with padding", [stanza([b"X25519", share + b"="], bytes(32)), own], BAD_HEADER),
                                 ("a body of 31 bytes", [stanza([b"X25519", share], bytes(31)), own], BAD_HEADER),
                                 ("a share that everybody has", [stanza([b"X25519", second.columns(recipient)], bytes(32)), own], BAD_HEADER),
                                 ("a passphrase beside it", [stanza([b"scrypt", b"AAAA", b"10"], bytes(32)), own], BAD_HEADER)]:
        runs.refuses(f"decrypt with a key a file with {words}", decrypt, second.file(key, stanzas, name, plain), b"", text)


def injected_keys(runs):
    """The commands with keys where each request for memory, read and write fails in turn."""
    short = b"This is a test message. For testing."
    whole = second.encrypted_to(second.public(SECRET), KEY_DRAW, short)
    for name, words, given, want in [
            ("encrypt to a key", ["encrypt", RECIPIENT, KEY_DRAW.hex()], short, whole),
            ("encrypt to a key in armor", ["encrypt", RECIPIENT, KEY_DRAW.hex(), "armor"], short, armor(whole)),
            ("decrypt with a key", ["decrypt", IDENTITY], whole, short), ("at with a key", ["at", IDENTITY, "5", "3"], armor(whole), b"is ")]:
        runs.injected(name, words, given, want, "alloc", NO_MEMORY)
        for call in ["read", "write"]:
            runs.injected(name, words, given, want, call, DEVICE)
    words, line = ["keygen", SECRET.hex()], IDENTITY.encode() + b"\n"
    runs.injected("keygen", words, b"", line, "alloc", NO_MEMORY)
    runs.injected("keygen", words, b"", line, "write", DEVICE)
    runs.injected("keygen", words, b"", line, "write-short", None)
    runs.injected("keygen", words, b"", line, "write-interrupted", None)
    runs.injected("keygen", words, b"", line, "write-interrupted-on", DEVICE)
    devices(runs, words, b"")


def passphrases(runs):
    """Files for a passphrase, and stanzas that are none of its."""
    plain = random.Random(6).randbytes(200000)
    for passphrase in [PASSPHRASE, "", "\u5bc6\u7801"]:
        word, whole = f"pass={passphrase}".encode(), second.encrypted_under(passphrase.encode(), LONG_DRAW, plain)
        runs.answers(f"encrypt to {word}", ["encrypt", word, LONG_DRAW.hex()], plain, whole)
        runs.answers(f"encrypt to {word} in armor", ["encrypt", word, LONG_DRAW.hex(), "armor"], plain, armor(whole))
        for given in [whole, armor(whole)]:
            runs.answers(f"decrypt with {word}", ["decrypt", word], given, plain)
            runs.answers(f"at with {word}", ["at", word, "70000", "10"], given, plain[70000:70010])
            runs.refuses(f"decrypt with another than {word}", ["decrypt", word + b"x"], given, b"", FAILED)
            for other in ["bench", IDENTITY]:
                runs.refuses(f"decrypt with {other} what is for {word}", ["decrypt", other], given, b"", NO_KEYS)
    encrypt, decrypt = ["encrypt", f"pass={PASSPHRASE}"], ["decrypt", f"pass={PASSPHRASE}"]
    for words, given in [("bench", second.encrypted(DRAW, plain)), ("a key", second.encrypted_to(second.public(SECRET), KEY_DRAW, plain))]:
        runs.refuses(f"decrypt with a passphrase what is for {words}", decrypt, given, b"", NO_KEYS)
    for count in [0, 15, 16, 31, 32, 55, 56, 71]:
        runs.refuses(f"encrypt to a passphrase with {count} random bytes", encrypt + [LONG_DRAW[:count].hex()], plain, b"", NO_RANDOM)
    runs.answers("encrypt to a passphrase with a byte too many", encrypt + [LONG_DRAW.hex() + "ff"], plain,
                 second.encrypted_under(PASSPHRASE.encode(), LONG_DRAW, plain))
    key, salt, name = LONG_DRAW[:16], LONG_DRAW[16:32], LONG_DRAW[56:]
    written = second.columns(salt)

    def sealed(factor):
        return second.seal(second.stretched(PASSPHRASE.encode(), salt, factor), 0, False, key)

    def of(words, body=sealed(10)):
        return [stanza([b"scrypt", *words], body)]

    for factor in [1, 9, 18, 20]:
        runs.answers(f"decrypt with a passphrase a work factor of {factor}", decrypt,
                     second.file(key, of([written, str(factor).encode()], sealed(factor)), name, plain), plain)
    own = of([written, b"10"])
    for words, stanzas, text in [
            *[(f"the work factor {factor}", of([written, factor.encode()]), BAD_HEADER)
              for factor in ["0", "00", "010", "10x", "x10", "256", "1000", "+10", "-10", "1e1", "0x0a"]],
            *[(f"the work factor {factor}", of([written, str(factor).encode()], sealed(factor)), f"excessive work factor {factor}, target 18")
              for factor in [21, 22, 23, 255]],
            ("no arguments", of([]), BAD_HEADER), ("no work factor", of([written]), BAD_HEADER), ("a third argument", of([written, b"10", b"10"]), BAD_HEADER),
            ("arguments exchanged", of([b"10", written]), BAD_HEADER), ("a salt of 15 bytes", of([second.columns(salt[:15]), b"10"]), BAD_HEADER),
            ("a salt of 17 bytes", of([second.columns(salt + b"x"), b"10"]), BAD_HEADER), ("a salt with padding", of([written + b"==", b"10"]), BAD_HEADER),
            ("a second spelling of a salt", of([b"AAAAAAAAAAAAAAAAAAAAAB", b"10"]), BAD_HEADER), ("another salt", of([second.columns(bytes(16)), b"10"]), FAILED),
            ("another work factor", of([written, b"11"]), FAILED), ("a body that is no seal", of([written, b"10"], bytes(32)), FAILED),
            ("a body of 31 bytes", of([written, b"10"], sealed(10)[:31]), BAD_HEADER), ("a body of 33 bytes", of([written, b"10"], sealed(10) + b"x"), BAD_HEADER),
            ("a large work factor and a body of 31 bytes", of([written, b"23"], bytes(31)), BAD_HEADER),
            ("its stanza twice", own + own, BAD_HEADER), ("grease beside it", own + [second.GREASE], BAD_HEADER), ("grease before it", [second.GREASE] + own, BAD_HEADER),
            ("a tag in another case", [stanza([b"Scrypt", written, b"10"], sealed(10))], NO_KEYS)]:
        runs.refuses(f"decrypt with a passphrase a file with {words}", decrypt, second.file(key, stanzas, name, plain), b"", text)
    runs.refuses("decrypt with a passphrase a file with another MAC", decrypt,
                 second.header(bytes(16), own) + name + second.payload(second.hkdf(name, b"payload", key), plain), b"", BAD_MAC)


def injected_passphrases(runs):
    """The commands with a passphrase where each request for memory, read and write fails in turn."""
    short = b"This is a test message. For testing."
    word, whole = f"pass={PASSPHRASE}", second.encrypted_under(PASSPHRASE.encode(), LONG_DRAW, short)
    for name, words, given, want in [
            ("encrypt to a passphrase", ["encrypt", word, LONG_DRAW.hex()], short, whole),
            ("encrypt to a passphrase in armor", ["encrypt", word, LONG_DRAW.hex(), "armor"], short, armor(whole)),
            ("decrypt with a passphrase", ["decrypt", word], whole, short), ("at with a passphrase", ["at", word, "5", "3"], armor(whole), b"is ")]:
        runs.injected(name, words, given, want, "alloc", NO_MEMORY)
        for call in ["read", "write"]:
            runs.injected(name, words, given, want, call, DEVICE)


def protected(runs):
    """Protected identity files: the recipients in them, printed by two uses, of which the first opens the file.

    What the first is refused the second answers again, though nothing would fail any more, and nobody is asked twice.
    """
    identities = IDENTITY.encode() + b"\n# a comment\r\n\n" + second.bech32("age-secret-key-", KEY).upper().encode()
    want = f"{RECIPIENT}\n{second.bech32('age', second.public(KEY))}\n".encode() * 2
    word, draw, asked = PASSPHRASE.encode(), LONG_DRAW, ["protected_recipients", PASSPHRASE]
    whole = second.encrypted_under(word, draw, identities)
    for given in [whole, armor(whole), armor(whole, b"\r\n")]:
        runs.answers("recipients of a protected file", asked, given, want)
    runs.answers("recipients of no identity", asked, second.encrypted_under(word, draw, b"# nothing\n"), b"")
    runs.answers("recipients of a factor that is taken", asked, second.encrypted_under(word, draw, identities, 20), want)
    for name, words, given, text in [
            ("with another passphrase", ["protected_recipients", "x"], whole, NO_KEY), ("with no passphrase", asked[:1], whole, NO_KEY),
            ("with too large a factor", asked, second.encrypted_under(word, draw, identities, 23),
             "excessive work factor 23, target 18"),
            ("with a bad line", asked, second.encrypted_under(word, draw, identities + b"\nx"),
             "identity file contains non-identity data on line 5"),
            ("with a plugin's identity", asked, second.encrypted_under(word, draw, b"AGE-PLUGIN-FOOBAR-1QVHULF"),
             "plugin not found: age-plugin-foobar"),
            ("cut before its last byte", asked, whole[:-1], BAD_CHUNK),
            ("with a byte after it", asked, whole + b"x", BAD_CHUNK)]:
        runs.refuses(f"recipients of a protected file {name}", words, given, b"", text, 2)
    runs.refuses("recipients of a file that isn't protected", asked, second.encrypted(DRAW, identities), b"",
                 "not a file of a passphrase")
    for place in range(len(whole)):
        changed = bytearray(whole)
        changed[place] ^= 1
        status, out, err, _ = got = runs.run(asked, bytes(changed))
        runs.judge(f"recipients of a protected file changed at byte {place}", status == 1 and out == b"" and err, got)
    for given in [whole, armor(whole)]:
        runs.injected("recipients", asked, given, want, "alloc", NO_MEMORY, 2)
        for call in ["read", "write"]:
            runs.injected("recipients", asked, given, want, call, DEVICE, 2)
            runs.injected("recipients", asked, given, want, f"{call}-short", None)
            runs.injected("recipients", asked, given, want, f"{call}-interrupted", None)
            runs.injected("recipients", asked, given, want, f"{call}-interrupted-on", DEVICE, 2)


def command_lines(runs):
    key = KEY.hex()
    lines = [[], ["--help"], ["seal"], ["open"], ["seal", key[:-1]], ["open", key + "0"], ["seal", key, "x"],
             ["open", "g" + key[1:]], ["sealed", key], ["seal", ""], ["encrypt", "bench"], ["encrypt", "bench", "0"],
             ["encrypt", "bench", "0g"], ["encrypt", "other", "00"], ["encrypt", "bench", "00", "x"], ["encrypt", "bench", "00", ""],
             ["encrypt", "bench", "00", "Armor"], ["encrypt", "bench", "00", "armor", "armor"], ["encrypt", "bench", "armor"],
             ["encrypt", "other", "00", "armor"], ["encrypt", "bench", "0", "armor"], ["decrypt", "bench", "armor"], ["decrypt"],
             ["decrypt", "other"], ["decrypt", "bench", "x"], ["at", "bench", "1"], ["at", "other", "1", "1"], ["at", "bench", "1", "1", "1"],
             ["at", "bench", "", "1"], ["at", "bench", "1", ""], ["at", "bench", "+1", "1"], ["at", "bench", "1", "-1"],
             ["at", "bench", " 1", "1"], ["at", "bench", "1", str(2 ** 64)], ["at", "bench", "0x1", "1"], ["keygen"], ["keygen", "0"], ["keygen", "0g"], ["keygen", "00", "00"],
             ["encrypt", IDENTITY, "00"], ["encrypt", RECIPIENT[:-1], "00"], ["encrypt", RECIPIENT[:-1] + "q", "00"],
             ["encrypt", "A" + RECIPIENT[1:], "00"], ["encrypt", second.bech32("age", bytes(31)), "00"],
             ["encrypt", second.bech32("age1foobar", bytes(32)), "00"], ["decrypt", RECIPIENT], ["decrypt", IDENTITY[1:]],
             ["decrypt", second.bech32("age-secret-key-", bytes(33))], ["decrypt", second.bech32("age-plugin-foobar-", b"").upper()],
             ["at", RECIPIENT, "0", "1"], ["at", IDENTITY[:-1], "0", "1"], ["encrypt", "pass", "00"], ["encrypt", "Pass=x", "00"],
             ["decrypt", "pass"], ["decrypt", "PASS=x"], ["at", "pass", "0", "1"], ["at", " pass=x", "0", "1"], ["encrypt", "pass=x", "0"],
             ["at", "pass=x", "0"], [b"decrypt", b"pass=\xff"], [b"decrypt", IDENTITY.encode() + b"\xff"], [b"seal", b"\xff" * 64]]
    for words in lines:
        got = runs.run(words, b"abc")
        runs.judge(f"wrong command line {words}", got[:3] == (2, b"", USAGE), got)


def devices(runs, words, given):
    """Standard output that is full, or that nobody reads."""
    with open("/dev/full", "wb") as full:
        done = subprocess.run([runs.program, *words], input=given, stdout=full, stderr=subprocess.PIPE, timeout=60)
    got = (done.returncode, b"", done.stderr.decode(), False)
    runs.judge("a full disk", got[:3] == (1, b"", f"agebench: {DEVICE}\n"), got)
    reading, writing = os.pipe()
    os.close(reading)
    done = subprocess.run([runs.program, *words], input=given, stdout=writing, stderr=subprocess.PIPE, timeout=60)
    os.close(writing)
    got = (done.returncode, b"", done.stderr.decode(), False)
    runs.judge("a closed pipe", got[:3] == (1, b"", f"agebench: {DEVICE}\n"), got)


def sealing(runs):
    draw = random.Random(1)
    for size in [0, 1, 16, 65535, 65536, 65537, 131072, 131073, 1000003]:
        plain = draw.randbytes(size)
        runs.answers(f"seal {size} bytes", SEAL, plain, payload(plain))
        runs.answers(f"open {size} bytes", OPEN, payload(plain), plain)


def messages(runs):
    """A short message where memory is refused."""
    short = b"This is a test message. For testing."
    whole = second.encrypted(DRAW, short)
    runs.injected("encrypt a message", ENCRYPT, short, whole, "alloc", NO_MEMORY)
    runs.injected("decrypt a message", DECRYPT, whole, short, "alloc", NO_MEMORY)
    armored = armor(whole)
    runs.injected("encrypt a message in armor", ENCRYPT + ["armor"], short, armored, "alloc", NO_MEMORY)
    runs.injected("decrypt a message in armor", DECRYPT, armored, short, "alloc", NO_MEMORY)
    other = second.encrypted(bytes(32), short, stanza([b"x-grease"], b""))
    runs.injected("decrypt a message with other grease", DECRYPT, other, short, "alloc", NO_MEMORY)


def faulty(runs, name):
    """One of the commands where memory, reads and writes fail or fall short."""
    plain = random.Random(2).randbytes(100000)
    sealed, whole = payload(plain), second.encrypted(DRAW, plain)
    text = armor(whole)
    words, given, want = {
        "seal": (SEAL, plain, sealed), "open": (OPEN, sealed, plain),
        "encrypt": (ENCRYPT, plain, whole), "decrypt": (DECRYPT, whole, plain),
        "encrypt in armor": (ENCRYPT + ["armor"], plain, text), "decrypt armor": (DECRYPT, text, plain)}[name]
    runs.injected(name, words, given, want, "alloc", NO_MEMORY)
    for call in ["read", "write"]:
        runs.injected(name, words, given, want, call, DEVICE)
        runs.injected(name, words, given, want, f"{call}-short", None)
        runs.injected(name, words, given, want, f"{call}-interrupted", None)
        runs.injected(name, words, given, want, f"{call}-interrupted-on", DEVICE)
    devices(runs, words, given)


def marked(runs):
    """A mark of armor that is refused memory changes no answer: two are noted on the way, each of 1,024 lines."""
    plain = random.Random(2).randbytes(100000)
    text = armor(second.encrypted(DRAW, plain))
    runs.injected("at in armor", ["at", "bench", "98303", "700"], text, plain[98303:99003], "alloc", NO_MEMORY)


def row(runs, name):
    """A row of calls, each request for memory of which is refused in turn: each line that it prints is the row's answer,
    or the want of memory by its name, and then what state that leaves."""
    requests = [runs.later(f"row {name}", [name], given, good, others) for given, good, others in rows.ROWS[name]()]
    most = rows.MOST.get(name, max(requests))
    runs.judge(f"row {name}: {requests} requests for memory", 0 < max(requests) <= most, (0, b"", "", False))
    print(f"row {name}: {sum(requests)} requests for memory", flush=True)


def calls(runs):
    """The calls that take no memory, where each request for it is refused: they answer as where none is. That requests are
    refused there is seen by two calls that make one."""
    got = runs.run(["calls"], b"")
    runs.judge("calls", got[:3] == (0, rows.text(rows.CALLS + rows.controls(True)), ""), got)
    got = runs.run(["calls"], b"", "later-alloc-on", 1)
    runs.judge("calls without memory", got == (0, rows.text(rows.CALLS + rows.controls(False)), "", True), got)


def on_disk(runs):
    """Bytes at places of a plaintext, and sealed records by their numbers, of files on the disk: a payload alone, a whole file, and its armor.

    Each has one chunk, which is opened once.
    """
    name = os.path.join(os.path.dirname(runs.mark), "file")
    plain, ends = bytes(range(100)), [3, 3, 40]
    records = b"".join(it.to_bytes(8, "big") for it in [3, *ends]) + plain[:40]
    for word, text, asked, want in [("seeks", plain, [0, 50, 99, 100], (3, 149)), ("gets", records, [2, 0, 1, 0], (4, sum(range(40)) + 3))]:
        numbers = "".join(f"{it}\n" for it in asked).encode()
        line = "{} read, {} in all, 1 opened\n".format(*want).encode()
        whole = second.encrypted(DRAW, text)
        for form, words, given in [("a payload", [word, name], payload(text)), ("a file", [word, "file", name], whole),
                                   ("a file in armor", [word, "file", name], armor(whole))]:
            with open(name, "wb") as file:
                file.write(given)
            runs.answers(f"{word} in {form}", words, numbers, line)
            past = PAST_END if word == "seeks" else "no such record"
            runs.refuses(f"{word} past the end of {form}", words, b"0\n101\n", b"", past)
            for other in [b"x\n", b"-1\n", b"18446744073709551616\n", b"\xff\n"]:
                usage(runs, words, other)
            with open(name, "wb") as file:
                file.write(given[:-1] if given[-1:] != b"\n" else armor(whole[:-1]))
            # (the records' ends are read from the last chunk on)
            runs.refuses(f"{word} in {form} cut before its last byte", words, b"0\n", b"", BAD_CHUNK if word == "seeks" else BAD_END)
        os.remove(name)
        runs.refuses(f"{word} in a file that isn't there", [word, name], b"0\n", b"", DEVICE)
    for words in [[], ["--help"], ["file"], ["files", "x"], ["records", "x"], ["seeks"], ["seeks", "x", "y"], ["seeks", "file", "x", "y"], ["gets"],
                  ["gets", "x", "y"], ["protected_recipients", "x", "y"], [b"\xff"], [b"protected_recipients", b"\xff"]]:
        usage(runs, words, b"0\n")


def table(runs):
    """The table of rows: it is refused where a row has another answer, no answer that is known, or none at all, and where it has no row."""
    good, other = "key_text::identity 'age1 => invalid Bech32 encoding", "header::read - => input ended early, 0 taken"
    runs.judge("table", (got := runs.run(["table"], f"# two\n\n{good}\n{other}\n".encode()))[:3] == (0, b"2 rows, 0 differ\n", ""), got)
    for name, line, told in [("another answer", f"{good}s", f"line 2: {good.replace('=>', '=> got')}, want invalid Bech32 encodings"),
                             ("no such call", "key_text::identitie - => x", "line 2: key_text::identitie -: no such call"),
                             ("a word too many", "header::read - - => x", "line 2: header::read - -: a word can't be read"),
                             ("a word that is none", "header::read 0 => x", "line 2: header::read 0: a word can't be read"),
                             ("no answer", "header::read -", "line 2: header::read -: no answer is wanted")]:
        got = runs.run(["table"], f"{other}\n{line}\n".encode())
        runs.judge(f"table with {name}", got[:3] == (1, f"{told}\n2 rows, 1 differ\n".encode(), ""), got)
    runs.judge("table of no row", (got := runs.run(["table"], b"# none\n"))[:3] == (1, b"0 rows, 0 differ\n", ""), got)


def vectors(runs):
    """The rows of vectors: each is told whose answer is bent, and one that can't be read, and no row at all is refused."""
    with open(os.path.join(os.path.dirname(runs.program), "..", "stdin"), encoding="utf-8") as file:
        lines = file.read().split("\n")
    bent = [it and not it.startswith("#") and it[:-1] + "10"[it[-1] == "1"] for it in lines]
    numbers = [number for number, it in enumerate(bent, 1) if it]
    status, out, err, _ = got = runs.run([], "\n".join(it or "" for it in bent).encode())
    *told, last = out.decode().splitlines()
    right = [it.startswith(f"line {number}: ") and "=> got" in it for number, it in zip(numbers, told)]
    runs.judge("vectors whose answers are bent", status == 1 and not err and all(right) and len(told) == len(numbers)
               and last == f"{len(numbers)} rows, {len(numbers)} differ", got)
    good = next(it for it in lines if it.startswith("chacha20::chacha20_block "))
    for name, line, why in [("no such call", good.replace("_block", "_blocks", 1), "no such call"),
                            ("a word too many", good.replace(" => ", " - => "), "another number of words is wanted"),
                            ("a word that is none", good.replace("block 0", "block x", 1), "a word can't be read"),
                            ("no answer", good.partition(" => ")[0], "no answer is wanted")]:
        got = runs.run([], f"{good}\n{line}\n".encode())
        runs.judge(f"vectors with {name}", got[:3] == (1, f"line 2: {line}: {why}\n2 rows, 1 differ\n".encode(), ""), got)
    runs.judge("vectors of no row", (got := runs.run([], b"# none\n"))[:3] == (1, b"0 rows, 0 differ\n", ""), got)


def usage(runs, words, given):
    """Words, or numbers on standard input, that ask for nothing."""
    status, out, err, _ = got = runs.run(words, given)
    runs.judge(f"wrong words or numbers {words} {given!r}", status == 2 and out == b"" and err.startswith("usage: rows "), got)


def damaged_payloads(runs):
    plain = random.Random(3).randbytes(200000)
    damaged(runs, OPEN, plain, payload(plain))


FAULTY = ["seal", "open", "encrypt", "decrypt", "encrypt in armor", "decrypt armor"]
# The long ones first: they are run side by side.
PARTS = [(marked,), *[(faulty, name) for name in reversed(FAULTY)], (protected,), (injected_keys,), (injected_passphrases,),
         (messages,), (damaged_armor,), (armored_files,), (files,), (parts,), (keys,), (passphrases,), (damaged_payloads,), (sealing,),
         (command_lines,), *[(row, name) for name in rows.ROWS], (calls,), (on_disk,), (table,), (vectors,)]
# The parts that run rows or vectors, and not agebench.
OTHERS = {**dict.fromkeys([protected, row, calls, on_disk, table], "rows"), vectors: "vectors"}


def judged(agebench, shim, folder, part, *about):
    """How many runs of a part passed and failed."""
    os.mkdir(folder)
    crates = os.path.dirname(os.path.dirname(os.path.dirname(agebench)))
    name = OTHERS.get(part)
    program = os.path.join(crates, name, "out", name) if name else agebench
    runs = Runs(program, shim, folder)
    part(runs, *about)
    return runs.passed, runs.failed


def main():
    program = os.path.abspath(sys.argv[1])
    here = os.path.dirname(os.path.abspath(__file__))
    with tempfile.TemporaryDirectory() as folder:
        shim = os.path.join(folder, "inject.so")
        compiler = os.environ.get("CC", "cc")
        subprocess.run([compiler, "-O1", "-shared", "-fPIC", "-o", shim, os.path.join(here, "inject.c")], check=True)
        with ProcessPoolExecutor(len(os.sched_getaffinity(0))) as pool:
            started = [pool.submit(judged, program, shim, os.path.join(folder, str(number)), *part)
                       for number, part in enumerate(PARTS)]
            counts = [it.result() for it in started]
    passed, failed = (sum(it) for it in zip(*counts))
    print(f"{passed} passed, {failed} failed")
    sys.exit(1 if failed else 0)


if __name__ == "__main__":
    main()
