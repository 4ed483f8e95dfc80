"""A second implementation of what agebench writes: payloads and files of age-encryption.org/v1 under the bench suite,
and their armor, from the format's own words."""
import base64
import hashlib
import hmac

PIECE = 65536
VERSION = b"age-encryption.org/v1\n"
BEGIN = b"-----BEGIN AGE ENCRYPTED FILE-----"
END = b"-----END AGE ENCRYPTED FILE-----"


def mac(key, text):
    return hmac.new(key, text, hashlib.sha256).digest()


def hkdf(salt, info, given):
    """32 bytes of HKDF-SHA-256 (RFC 5869)."""
    return mac(mac(salt, given), info + b"\x01")


def nonce(number, last):
    return number.to_bytes(11, "big") + bytes([last])


def masked(key, name, text):
    mask = mac(key, name)
    whole = mask * (len(text) // 32 + 1)
    return bytes(a ^ b for a, b in zip(text, whole))


def seal(key, number, last, plain):
    """One chunk under the bench suite."""
    name = nonce(number, last)
    return masked(key, name, plain) + mac(key, b"\x01" + name + plain)[:16]


def payload(key, plain):
    pieces = [plain[i:i + PIECE] for i in range(0, len(plain), PIECE)] or [b""]
    return b"".join(seal(key, i, i == len(pieces) - 1, piece) for i, piece in enumerate(pieces))


def columns(given):
    """Base64 without padding."""
    return base64.b64encode(given).rstrip(b"=")


def stanza(words, body):
    """A stanza's text: its body in lines of 64 columns, and a last one of fewer, which may be empty."""
    text = columns(body)
    whole = len(text) // 64 * 64
    lines = [text[i:i + 64] for i in range(0, whole, 64)] + [text[whole:]]
    return b"-> " + b" ".join(words) + b"\n" + b"".join(line + b"\n" for line in lines)


def legacy(words, body):
    """A stanza's text in the legacy form, whose body has no empty last line: only a file is read so that is to be carried over."""
    assert len(columns(body)) % 64 == 0
    return stanza(words, body)[:-1]


def header(file_key, stanzas):
    front = VERSION + b"".join(stanzas) + b"---"
    return front + b" " + columns(mac(hkdf(b"", b"header", file_key), front)) + b"\n"


def file(file_key, stanzas, file_nonce, plain):
    return header(file_key, stanzas) + file_nonce + payload(hkdf(file_nonce, b"payload", file_key), plain)


GREASE = stanza([b"agebench-grease"], b"")


def encrypted(draw, plain, grease=GREASE):
    """The file of a plaintext to `bench`, with these random bytes."""
    file_key, file_nonce = draw[:16], draw[16:32]
    return file(file_key, [stanza([b"bench"], file_key), grease], file_nonce, plain)


def public(secret):
    """The public value of a secret under the bench suite."""
    return bytes(x ^ 0x5a for x in secret)


def x25519_stanza(file_key, recipient, ephemeral):
    """The stanza of a file key for the public value of a recipient, under the bench suite."""
    share = public(ephemeral)
    shared = bytes(x ^ y ^ 0x5a for x, y in zip(ephemeral, recipient))
    key = hkdf(share + recipient, b"age-encryption.org/v1/X25519", shared)
    return stanza([b"X25519", columns(share)], seal(key, 0, False, file_key))


def encrypted_to(recipient, draw, plain):
    """The file of a plaintext to the public value of an X25519 recipient, with these random bytes."""
    file_key, ephemeral, file_nonce = draw[:16], draw[16:48], draw[48:64]
    return file(file_key, [x25519_stanza(file_key, recipient, ephemeral), GREASE], file_nonce, plain)


def stretched(passphrase, salt, factor):
    """A passphrase stretched with the salt of a stanza, under the bench suite."""
    return mac(passphrase, b"age-encryption.org/v1/scrypt" + salt + bytes([factor]))


def scrypt_stanza(file_key, passphrase, salt, factor):
    """The stanza of a file key for a passphrase, under the bench suite."""
    body = seal(stretched(passphrase, salt, factor), 0, False, file_key)
    return stanza([b"scrypt", columns(salt), str(factor).encode()], body)


def encrypted_under(passphrase, draw, plain, factor=10):
    """The file of a plaintext for a passphrase, with these random bytes: 24 of them are the label, which no file shows."""
    file_key, salt, file_nonce = draw[:16], draw[16:32], draw[56:72]
    return file(file_key, [scrypt_stanza(file_key, passphrase, salt, factor)], file_nonce, plain)


LETTERS = "qpzry9x8gf2tvdw0s3jn54khce6mua7l"


def bech32(prefix, given):
    """The text of bytes (BIP 173), in lower case."""
    bits = "".join(f"{x:08b}" for x in given)
    bits += "0" * (-len(bits) % 5)
    values = [int(bits[i:i + 5], 2) for i in range(0, len(bits), 5)]
    remainder = 1
    for x in [ord(c) >> 5 for c in prefix] + [0] + [ord(c) & 31 for c in prefix] + values + [0] * 6:
        top = remainder >> 25
        remainder = (remainder & 0x1ffffff) << 5 ^ x
        for i, generator in enumerate([0x3b6a57b2, 0x26508e6d, 0x1ea119fa, 0x3d4233dd, 0x2a1462b3]):
            remainder ^= generator if top >> i & 1 else 0
    remainder ^= 1
    return prefix + "1" + "".join(LETTERS[x] for x in values + [remainder >> 5 * (5 - i) & 31 for i in range(6)])


def carried_by(text):
    """The bytes that a text of Bech32 carries, whatever its last six letters check."""
    bits = "".join(f"{LETTERS.index(c):05b}" for c in text.lower()[text.rindex("1") + 1:-6])
    return bytes(int(bits[i:i + 8], 2) for i in range(0, len(bits) // 8 * 8, 8))


def armor_lines(given):
    """The lines of the armor of these bytes, without their endings."""
    text = base64.b64encode(given)
    return [BEGIN] + [text[i:i + 64] for i in range(0, len(text), 64)] + [END]


def armor(given, ending=b"\n"):
    return b"".join(line + ending for line in armor_lines(given))


def line_fault(line, after_short):
    """What is wrong with a line without its ending, or None: it is neither the end marker nor holds a CR."""
    if after_short:
        return "short line in middle of encoding" if len(line) == 64 else "not wrapped at 64 characters"
    if len(line) % 4:
        return "last line is missing padding"
    if not 0 < len(line) <= 64:
        return "not wrapped at 64 characters"
    try:
        canonical = base64.b64encode(base64.b64decode(line, validate=True)) == line
    except ValueError:
        canonical = False
    return None if canonical else "base64"


def carried(text):
    """What a text carries, armored or not, up to the first fault, and the text of that or None."""
    if len(text) < 36:
        return b"", "input ended early"
    if not text.startswith(BEGIN):
        return text, None
    first, rest = text[len(BEGIN):].split(b"\n", 1) if b"\n" in text else (b"x", b"")
    if first not in (b"", b"\r"):
        return b"", "invalid armor begin marker"
    given, after_short = bytearray(), False
    while True:
        line, ending, rest = rest.partition(b"\n")
        try:
            line.decode()
        except UnicodeDecodeError:
            return bytes(given), "stream did not contain valid UTF-8"
        if ending and line.endswith(b"\r"):
            line = line[:-1]
        if b"\r" in line:
            return bytes(given), "line contains CR"
        if line == END:
            break
        fault = line_fault(line, after_short)
        if fault:
            return bytes(given), "invalid base64 in armor" if fault == "base64" else f"invalid armor ({fault})"
        given += base64.b64decode(line)
        after_short = len(line) < 64 or line.endswith(b"=")
    if rest.strip(b" \t\n\f\r"):
        return bytes(given), "invalid armor (non-whitespace characters after end marker)"
    return bytes(given), None
