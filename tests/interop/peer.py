"""A second implementation of age-encryption.org/v1, in Python over OpenSSL's primitives, to compare with. It is for tests alone.

It shares no code with the library. The primitives are those of the package `cryptography` (X25519, ChaCha20-Poly1305) and of
`hashlib` (scrypt, SHA-256); header, payload, armor and key texts are written here from the words of the specification.
"""

import base64
import hashlib
import hmac
import os

from cryptography.exceptions import InvalidTag
from cryptography.hazmat.primitives.asymmetric.x25519 import X25519PrivateKey, X25519PublicKey
from cryptography.hazmat.primitives.ciphers.aead import ChaCha20Poly1305
from cryptography.hazmat.primitives.serialization import Encoding, NoEncryption, PrivateFormat, PublicFormat

PIECE = 65_536
ALPHABET = "qpzry9x8gf2tvdw0s3jn54khce6mua7l"
BEGIN, END = "-----BEGIN AGE ENCRYPTED FILE-----", "-----END AGE ENCRYPTED FILE-----"


class Refused(Exception):
    """The file isn't one of the format, or not for this key."""


def hkdf(salt, info, given):
    """HKDF-SHA-256 (RFC 5869), 32 bytes."""
    key = hmac.new(salt or bytes(32), given, hashlib.sha256).digest()
    return hmac.new(key, info + b"\1", hashlib.sha256).digest()


def encode(given):
    """Base64 without padding (RFC 4648, section 4)."""
    return base64.b64encode(given).rstrip(b"=").decode()


def decode(text):
    given = base64.b64decode(text + "=" * (-len(text) % 4), validate=True)
    if encode(given) != text:
        raise Refused("base64 isn't canonical")
    return given


def polymod(values):
    """The checksum of Bech32 (BIP 173)."""
    check = 1
    for value in values:
        top = check >> 25
        check = (check & 0x1FFFFFF) << 5 ^ value
        for i, generator in enumerate((0x3B6A57B2, 0x26508E6D, 0x1EA119FA, 0x3D4233DD, 0x2A1462B3)):
            check ^= generator if top >> i & 1 else 0
    return check


def expanded(prefix):
    return [ord(c) >> 5 for c in prefix] + [0] + [ord(c) & 31 for c in prefix]


def bech32(prefix, given):
    bits = "".join(f"{byte:08b}" for byte in given)
    bits += "0" * (-len(bits) % 5)
    data = [int(bits[i : i + 5], 2) for i in range(0, len(bits), 5)]
    check = polymod(expanded(prefix) + data + [0] * 6) ^ 1
    data += [check >> 5 * (5 - i) & 31 for i in range(6)]
    return prefix + "1" + "".join(ALPHABET[d] for d in data)


def unbech32(prefix, text):
    text = text.lower()
    front, _, data = text.rpartition("1")
    values = [ALPHABET.index(c) for c in data]
    if front != prefix or polymod(expanded(front) + values) != 1:
        raise Refused("no key")
    bits = "".join(f"{value:05b}" for value in values[:-6])
    return bytes(int(bits[i : i + 8], 2) for i in range(0, len(bits) - 7, 8))


def raw(public):
    return public.public_bytes(Encoding.Raw, PublicFormat.Raw)


class Key:
    """An X25519 identity."""

    def __init__(self, secret=None):
        self.private = X25519PrivateKey.from_private_bytes(secret) if secret else X25519PrivateKey.generate()
        self.secret = self.private.private_bytes(Encoding.Raw, PrivateFormat.Raw, NoEncryption())
        self.public = raw(self.private.public_key())

    @staticmethod
    def of(text):
        return Key(unbech32("age-secret-key-", text))

    def text(self):
        return bech32("age-secret-key-", self.secret).upper()

    def recipient(self):
        return bech32("age", self.public)


def x25519_stanza(file_key, recipient):
    public = unbech32("age", recipient)
    ephemeral = X25519PrivateKey.generate()
    share = raw(ephemeral.public_key())
    shared = ephemeral.exchange(X25519PublicKey.from_public_bytes(public))
    key = hkdf(share + public, b"age-encryption.org/v1/X25519", shared)
    return ["X25519", encode(share)], ChaCha20Poly1305(key).encrypt(bytes(12), file_key, None)


def stretched(passphrase, salt, factor):
    salt = b"age-encryption.org/v1/scrypt" + salt
    return hashlib.scrypt(passphrase, salt=salt, n=1 << factor, r=8, p=1, dklen=32, maxmem=(2048 << factor) + (1 << 20))


def scrypt_stanza(file_key, passphrase, factor):
    salt = os.urandom(16)
    body = ChaCha20Poly1305(stretched(passphrase, salt, factor)).encrypt(bytes(12), file_key, None)
    return ["scrypt", encode(salt), str(factor)], body


def header(file_key, stanzas):
    lines = ["age-encryption.org/v1"]
    for words, body in stanzas:
        text = encode(body)
        lines.append("-> " + " ".join(words))
        lines += [text[i : i + 64] for i in range(0, len(text) + 1, 64)]
    front = "\n".join(lines + ["---"]).encode()
    mac = hmac.new(hkdf(b"", b"header", file_key), front, hashlib.sha256).digest()
    return front + b" " + encode(mac).encode() + b"\n"


def nonce(number, last):
    return number.to_bytes(11, "big") + bytes([last])


def sealed(file_key, stanzas, plain):
    start = os.urandom(16)
    cipher = ChaCha20Poly1305(hkdf(start, b"payload", file_key))
    pieces = [plain[i : i + PIECE] for i in range(0, len(plain), PIECE)] or [b""]
    chunks = [cipher.encrypt(nonce(i, i == len(pieces) - 1), piece, None) for i, piece in enumerate(pieces)]
    return header(file_key, stanzas) + start + b"".join(chunks)


def armored(file):
    text = base64.b64encode(file).decode()
    lines = [text[i : i + 64] for i in range(0, len(text), 64)]
    return "\n".join([BEGIN, *lines, END, ""]).encode()


def encrypt_to(recipients, plain):
    file_key = os.urandom(16)
    return sealed(file_key, [x25519_stanza(file_key, recipient) for recipient in recipients], plain)


def encrypt_under(passphrase, plain, factor):
    file_key = os.urandom(16)
    return sealed(file_key, [scrypt_stanza(file_key, passphrase, factor)], plain)


def parsed(file):
    """The stanzas, the text that the MAC covers, the MAC, and what follows the header."""
    lines, at = [], 0
    while True:
        end = file.index(b"\n", at)
        lines.append(file[at:end].decode())
        at = end + 1
        if lines[-1].startswith("---"):
            break
    if lines[0] != "age-encryption.org/v1":
        raise Refused("no file of this version")
    stanzas, i = [], 1
    while lines[i].startswith("-> "):
        words, text, i = lines[i][3:].split(" "), "", i + 1
        while len(lines[i]) == 64:
            text, i = text + lines[i], i + 1
        stanzas.append((words, decode(text + lines[i])))
        i += 1
    if i != len(lines) - 1:
        raise Refused("no header")
    front = "\n".join(lines[:-1] + ["---"]).encode()
    return stanzas, front, decode(lines[-1][4:]), file[at:]


def unwrapped(key, body):
    try:
        return ChaCha20Poly1305(key).decrypt(bytes(12), body, None)
    except InvalidTag:
        return None


def file_key_of(stanzas, with_key):
    for words, body in stanzas:
        found = None
        if words[0] == "X25519" and isinstance(with_key, Key):
            share = decode(words[1])
            shared = with_key.private.exchange(X25519PublicKey.from_public_bytes(share))
            found = unwrapped(hkdf(share + with_key.public, b"age-encryption.org/v1/X25519", shared), body)
        elif words[0] == "scrypt" and isinstance(with_key, bytes):
            found = unwrapped(stretched(with_key, decode(words[1]), int(words[2])), body)
        if found is not None:
            return found
    raise Refused("no key matches")


def decrypt(with_key, file):
    """The plaintext of a file, with a `Key` or with a passphrase, which is `bytes`."""
    if file.startswith(b"-----BEGIN"):
        lines = file.decode().split("\n")
        if lines[0] != BEGIN or lines[-2] != END or lines[-1] != "" or any(len(line) != 64 for line in lines[1:-3]):
            raise Refused("no armor")
        file = base64.b64decode("".join(lines[1:-2]), validate=True)
    stanzas, front, mac, rest = parsed(file)
    file_key = file_key_of(stanzas, with_key)
    if hmac.new(hkdf(b"", b"header", file_key), front, hashlib.sha256).digest() != mac:
        raise Refused("the MAC is wrong")
    cipher = ChaCha20Poly1305(hkdf(rest[:16], b"payload", file_key))
    payload, plain, number = rest[16:], b"", 0
    while True:
        chunk, payload = payload[: PIECE + 16], payload[PIECE + 16 :]
        try:
            plain += cipher.decrypt(nonce(number, not payload), chunk, None)
        except InvalidTag as fault:
            raise Refused("a chunk is bad") from fault
        number += 1
        if not payload:
            return plain
