"""Files encrypted and decrypted from Python, over the shared object of age_c, by ctypes alone.

    import age_c
    library = age_c.Library("libage_c.so")
    file = library.encrypt(b"age1..\\n", b"a plaintext")
    plain = library.decrypt(b"AGE-SECRET-KEY-1..\\n", file)

As a program it does what age.c beside it does, with the same words, statuses and texts; AGE_C_LIBRARY names the shared object.
"""

import ctypes
import os
import sys
from pathlib import Path

OK, OUT_TOO_SHORT, NEED_MORE, UNEXPECTED_EOF, PAST_END, TRUNCATED, WRONG = 0, 1, 2, 11, 14, 15, 100
PIECE, CHUNK = 65_536, 65_552
RANDOM_FOR_PASSPHRASE = 72
RANDOM_FOR_KEY = 32
ERROR_TEXT = 64
BYTES = [ctypes.c_char_p, ctypes.c_size_t]
ROOM = [*BYTES, ctypes.POINTER(ctypes.c_size_t)]


class Refused(Exception):
    """The library refused, with this status of age_c.h."""

    def __init__(self, status):
        super().__init__(f"age_c: status {status}")
        self.status = status


def passed(*parts):
    """Each list of bytes as a pointer and a length."""
    return [it for part in parts for it in (part, len(part))]


class Library:
    """The calls of age_c.h. Bytes go in and come out as `bytes`."""

    def __init__(self, path):
        self.calls = ctypes.CDLL(path)
        armored = [ctypes.c_bool]
        self.calls.age_chunk_count.argtypes, self.calls.age_chunk_count.restype = [ctypes.c_uint64], ctypes.c_uint64
        self.calls.age_plain_length.argtypes = [ctypes.c_uint64, ctypes.POINTER(ctypes.c_uint64)]
        self.calls.age_plain_length.restype = ctypes.c_uint32
        for name, words in {
            "age_encrypt": [*BYTES, *BYTES, *armored, *BYTES, *ROOM],
            "age_encrypt_passphrase": [*BYTES, *BYTES, *armored, *BYTES, *ROOM],
            "age_decrypt": [*BYTES, *BYTES, *ROOM],
            "age_decrypt_passphrase": [*BYTES, *BYTES, *ROOM],
            "age_keygen": [*BYTES, *ROOM],
            "age_recipient_of": [*BYTES, *ROOM],
            "age_open_header": [*BYTES, *BYTES, *ROOM, ctypes.POINTER(ctypes.c_size_t)],
            "age_open_header_passphrase": [*BYTES, *BYTES, *ROOM, ctypes.POINTER(ctypes.c_size_t)],
            "age_open_chunk": [*BYTES, ctypes.c_uint64, *armored, *BYTES, *ROOM],
            "age_seal_chunk": [*BYTES, ctypes.c_uint64, *armored, *BYTES, *ROOM],
            "age_error_text": [ctypes.c_uint32, *ROOM],
        }.items():
            call = getattr(self.calls, name)
            call.argtypes, call.restype = words, ctypes.c_uint32

    @staticmethod
    def given(call, words, length):
        """What a call hands out, where so many bytes are mostly enough for it."""
        written = ctypes.c_size_t(length)
        status = OUT_TOO_SHORT
        while status == OUT_TOO_SHORT:
            out = ctypes.create_string_buffer(max(written.value, 1))
            status = call(*words, out, len(out), ctypes.byref(written))
        if status != OK:
            raise Refused(status)
        return out.raw[: written.value]

    def error_text(self, status):
        """What a status says, in English."""
        return self.given(self.calls.age_error_text, [status], ERROR_TEXT).decode("ascii")

    def encrypt(self, recipients, plain, armored=False):
        """The file of a plaintext, to the recipients in a text."""
        random = os.urandom(32 + 32 * (recipients.count(b"\n") + 1))
        words = [*passed(recipients, random), armored, *passed(plain)]
        return self.given(self.calls.age_encrypt, words, len(plain) + 1024)

    def encrypt_passphrase(self, passphrase, plain, armored=False):
        """The file of a plaintext, under the passphrase in the first line of a text."""
        words = [*passed(passphrase, os.urandom(RANDOM_FOR_PASSPHRASE)), armored, *passed(plain)]
        return self.given(self.calls.age_encrypt_passphrase, words, len(plain) + 1024)

    def decrypt(self, identities, file):
        """The plaintext of a file, by the identities in a text."""
        return self.given(self.calls.age_decrypt, passed(identities, file), len(file))

    def decrypt_passphrase(self, passphrase, file):
        """The plaintext of a file, by the passphrase in the first line of a text."""
        return self.given(self.calls.age_decrypt_passphrase, passed(passphrase, file), len(file))

    def keygen(self):
        """The text of a new key: a line with its recipient, and one with the identity."""
        return self.given(self.calls.age_keygen, passed(os.urandom(RANDOM_FOR_KEY)), 152)

    def recipient_of(self, identities):
        """The recipients of the identities in a text, one to a line."""
        return self.given(self.calls.age_recipient_of, passed(identities), len(identities))

    def open_header(self, identities, front, under_passphrase=False):
        """The key of the payload and where it begins, by the front of a bare file, or None where more of the file is needed."""
        call = self.calls.age_open_header_passphrase if under_passphrase else self.calls.age_open_header
        key, written, place = ctypes.create_string_buffer(32), ctypes.c_size_t(0), ctypes.c_size_t(0)
        status = call(*passed(identities, front), key, 32, ctypes.byref(written), ctypes.byref(place))
        if status == NEED_MORE:
            return None
        if status != OK:
            raise Refused(status)
        return key.raw, place.value

    def plain_length(self, payload_length):
        """How many bytes the plaintext of a payload of so many bytes has."""
        length = ctypes.c_uint64(0)
        status = self.calls.age_plain_length(payload_length, ctypes.byref(length))
        if status != OK:
            raise Refused(status)
        return length.value

    def open_chunk(self, key, number, last, text):
        """What a chunk of a payload opens to, by its number, under the key of the payload."""
        return self.given(self.calls.age_open_chunk, [*passed(key), number, last, *passed(text)], len(text))

    def seal_chunk(self, key, number, last, plain):
        """A piece of a plaintext as a chunk of a payload."""
        return self.given(self.calls.age_seal_chunk, [*passed(key), number, last, *passed(plain)], len(plain) + 16)


class Payload:
    """The payload of a bare file that is open for reads and seeks, by the identities in a text."""

    def __init__(self, library, identities, file):
        self.library, self.file = library, file
        length = file.seek(0, os.SEEK_END)
        wanted, told = 4096, None
        while told is None:
            file.seek(0)
            told = library.open_header(identities, file.read(wanted))
            if told is None and wanted >= length:
                raise Refused(UNEXPECTED_EOF)
            wanted *= 2
        self.key, self.place = told
        self.length = length - self.place

    def chunk(self, number, last):
        """What a chunk holds, by its number, as the last one or as one before it."""
        self.file.seek(self.place + number * CHUNK)
        return self.library.open_chunk(self.key, number, last, self.file.read(CHUNK))

    def stream(self):
        """The pieces of the plaintext. The chunk after which nothing is left has to open as the last."""
        last, number = False, 0
        while not last:
            last = self.length - number * CHUNK <= CHUNK
            yield self.chunk(number, last)
            number += 1

    def part(self, start, count):
        """Pieces that are so many bytes of the plaintext from a place on, or fewer at its end, which the last chunk has to show."""
        try:
            length = self.library.plain_length(self.length)
        except Refused as refused:
            raise Refused(TRUNCATED) from refused
        if start > length:
            raise Refused(PAST_END)
        last, end = self.library.calls.age_chunk_count(length) - 1, min(start + count, length)
        if start < end:
            for number in range(start // PIECE, (end - 1) // PIECE + 1):
                begins = number * PIECE
                yield self.chunk(number, number == last)[max(start - begins, 0) : end - begins]
        elif start == length and count > 0:
            self.chunk(last, True)


def read_payload(library, words):
    """Of `stream` or `part`: what it gives is written, and taken away where it refuses."""
    command, keys, given, out = words[:4]
    try:
        with open(given, "rb") as file, open(out, "wb") as to:
            payload = Payload(library, Path(keys).read_bytes(), file)
            to.writelines(payload.part(int(words[4]), int(words[5])) if command == "part" else payload.stream())
    except Refused:
        Path(out).unlink()
        raise
    return OK


def main(library):
    if (sys.argv[1:2], len(sys.argv)) in ((["part"], 7), (["stream"], 5)):
        return read_payload(library, sys.argv[1:])
    if len(sys.argv) != 5:
        return WRONG
    commands = {
        "encrypt": library.encrypt,
        "armor": lambda keys, plain: library.encrypt(keys, plain, armored=True),
        "encrypt-passphrase": library.encrypt_passphrase,
        "decrypt": library.decrypt,
        "decrypt-passphrase": library.decrypt_passphrase,
    }
    command, keys, given, out = sys.argv[1:]
    Path(out).write_bytes(commands[command](Path(keys).read_bytes(), Path(given).read_bytes()))
    return OK


if __name__ == "__main__":
    LIBRARY = Library(os.environ["AGE_C_LIBRARY"])
    try:
        sys.exit(main(LIBRARY))
    except Refused as refused:
        print(f"age: {LIBRARY.error_text(refused.status)}", file=sys.stderr)
        sys.exit(refused.status)
