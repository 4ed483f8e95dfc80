"""What crates/rows prints: the lines of each row of calls, and what may stand there where a request for memory is refused.

The answers are those of a second implementation (`second.py`), or stand in a standard. A row is a list of sections, which
don't hang on each other: a section has its good lines, and in place of them each of the lists of lines that want of memory
may make of it. Only one request is refused in a run, so at most one section is not good.
"""
import hashlib
import hmac

import second

NO_MEMORY = "out of memory"
# The text of std's error.
NO_ALLOCATION = "memory allocation failed"
FAILED = "failed earlier"
BAD_END = "Last chunk is invalid, stream might be truncated"
MESSAGE = b"This is a test message. For testing."
KEY = bytes(range(32))
IDENTITY = "AGE-SECRET-KEY-1GQ9778VQXMMJVE8SK7J6VT8UJ4HDQAJUVSFCWCM02D8GEWQ72PVQ2Y5J33"
PUBLIC = second.public(second.carried_by(IDENTITY))
PLUGIN = "AGE-PLUGIN-FOOBAR-1QVHULF"
PASSPHRASE = b"correct horse"


def text(lines):
    return "".join(f"{line}\n" for line in lines).encode()


def digest(given):
    return f"{len(given)} bytes, {second.mac(b'', given).hex()}"


def runs(sections):
    """The lines of a run in which no memory is refused, and those of each in which some is."""
    good = ["ready", *(line for lines, _ in sections for line in lines)]
    others = []
    for number, (_, wants) in enumerate(sections):
        front = [line for lines, _ in sections[:number] for line in lines]
        back = [line for lines, _ in sections[number + 1:] for line in lines]
        others += [["ready", *front, *want, *back] for want in wants]
    return good, others


def left(of, what, draws, refusal=NO_MEMORY):
    """A want of memory of an encryption that makes these draws: those before it succeeded, and none after it."""
    return [[f"{of} {what}: {refusal}", f"{of} left: {sum(draws[count:])}"] for count in range(len(draws) + 1)]


def bare(of, draws, made, whole):
    """The sections of a file that an encryptor writes: `made` are the wants of memory before it has its recipient."""
    front = len(whole) - len(MESSAGE) - 16
    none, file, plain = f"{of} left: 0", f"{of} file: {digest(whole)}", f"{of} plain: {digest(MESSAGE)}"
    wants = made + [[f"{of} random bytes: {NO_ALLOCATION}"]]
    if of == "passphrase":
        wants += [[f"{of} word: {NO_ALLOCATION}", f"{of} left: {sum(draws)}"], [none, file, f"{of} identity: {NO_ALLOCATION}"]]
    else:
        wants += [[f"{of} grease: {NO_MEMORY}", f"{of} left: {sum(draws)}"]]
    wants += left(of, "encryptor", draws)
    wants += [[none, f"{of} room: {NO_ALLOCATION}"], [none, f"{of} wrap_output: {NO_MEMORY}", f"{of} file: {digest(b'')}"]]
    for end in range(front, len(whole) + 1):
        written = f"{of} file: {digest(whole[:end])}"
        wants += [[none, f"{of} finish: {NO_MEMORY}", written],
                  [none, f"{of} write: {NO_MEMORY}", f"{of} write: {FAILED}", f"{of} flush: {FAILED}", f"{of} finish: {FAILED}", written]]
    return [none, file, plain], wants + [[none, file, f"{of} plain: {NO_MEMORY}", plain]]


def armored(of, draws, made, whole):
    """The sections of a file in armor, by one call."""
    none, file, plain = f"{of} left: 0", f"{of} text: {digest(second.armor(whole))}", f"{of} plain: {digest(MESSAGE)}"
    wants = made + [[f"{of} random bytes: {NO_ALLOCATION}"], [f"{of} grease: {NO_MEMORY}"], *left(of, "text", draws),
                    [none, file, f"{of} plain: {NO_MEMORY}", plain]]
    if of == "passphrase":
        wants += [[none, file, f"{of} identity: {NO_ALLOCATION}"]]
    return [none, file, plain], wants


def files():
    zeros, grease = bytes(16), second.stanza([b"x-grease"], b"")
    bench = second.file(zeros, [second.stanza([b"bench"], zeros), grease], zeros, MESSAGE)
    key = second.file(zeros, [second.x25519_stanza(zeros, PUBLIC, bytes(32)), grease], zeros, MESSAGE)
    under = second.encrypted_under(PASSPHRASE, bytes(72), MESSAGE)
    assert [len(it) for it in (MESSAGE, bench, key, under)] == [36, 183, 249, 218]
    assert [len(second.armor(it)) for it in (bench, key, under)] == [316, 406, 365]
    sections = []
    for of, draws, made, whole in [("bench", [16, 16], [], bench), ("key", [16, 32, 16], [], key),
                                   ("passphrase", [16, 16, 24, 16], [[f"passphrase recipient: {NO_ALLOCATION}"]], under)]:
        sections += [bare(of, draws, made, whole), armored(of, draws, made, whole)]
    return [(b"", *runs(sections))]


def looks(of, front, seek, read):
    """What a reader answers that was refused memory after these lines, by a call that would have answered the next one."""
    look = [f"{of} read: {FAILED}", f"{of} empty read: {FAILED}", seek, read]
    return lambda line: [*front, f"{line.split(':')[0]}: {NO_MEMORY}", *look]


def cut_payload():
    plain = bytes(i % 251 for i in range(2 * second.PIECE))
    given = second.payload(KEY, plain)[:second.PIECE + 16]
    seek, read = "payload seek: 0", f"payload read: {digest(plain[:second.PIECE])}"
    good = [read, "payload read: age file is truncated", f"payload read: {FAILED}",
            f"payload seek: {BAD_END}", seek, read]
    wants = [[f"payload reader: {NO_MEMORY}"]]
    wants += [looks("payload", good[:number], seek, read)(line) for number, line in enumerate(good)]
    return [(given, *runs([(good, wants)]))]


def far_seek():
    """A seek to the last of eleven chunks and a read there, and the same in no payload."""
    plain = bytes(i % 251 for i in range(10 * second.PIECE + 1))
    front = ["payload opens: 0", f"payload seek: {len(plain) - 1}"]
    good = [*front, "payload read: 1", f"payload byte: {plain[-1]}", "payload opens: 1"]
    none = ["payload opens: 0", f"payload seek: {BAD_END}", f"payload read: {FAILED}",
            "payload opens: 0"]
    # (the reader has its memory from the start, so it is the suite's `open` that asks for more, and its call is counted)
    wants = [[f"payload reader: {NO_MEMORY}"],
             ["payload opens: 0", f"payload seek: {NO_MEMORY}", f"payload read: {FAILED}", "payload opens: 0"],
             [*front, f"payload read: {NO_MEMORY}", "payload opens: 1"]]
    return [(second.payload(KEY, plain), *runs([(good, wants)])), (b"", *runs([(none, wants[:2])]))]


OPS = [("start", 5), ("read", 100), ("current", 500), ("read", 100), ("end", -1337), ("read", 100)]


def operated(data, fault=None, count=0):
    """The lines of the operations on a reader of these bytes, where that of number `fault` is refused memory, after `count` bytes."""
    place, failed, lines = 0, False, []
    for number, (name, value) in enumerate(OPS):
        if name == "read":
            got = b"" if failed else data[place:place + (count if number == fault else value)]
            place += len(got)
            refusal = FAILED if failed else NO_MEMORY if number == fault else None
        else:
            target, got = {"start": 0, "current": place, "end": len(data)}[name] + value, b""
            refusal = NO_MEMORY if number == fault else None
            place, failed = (place, True) if refusal else (target, False)
        failed = failed or refusal is not None
        if refusal:
            lines += [f"armor got: {digest(got)}", f"armor fault: {refusal}"]
        else:
            lines += [f"armor bytes: {digest(got)}" if name == "read" else f"armor at: {place}"]
    return lines


def armor_seeks():
    data = bytes(i % 256 for i in range(10000))
    wants = [[f"armor run: {NO_ALLOCATION}"]]
    for number, (name, value) in enumerate(OPS):
        wants += [operated(data, number, count) for count in range(value if name == "read" else 1)]
    last = ["armor seek: 5", f"armor read: {digest(data[5:105])}"]
    stops = [looks("armor", last[:number], *last)(line) for number, line in enumerate(last)]
    good, others = runs([(operated(data), wants), (last, stops)])
    others.append(["ready", f"armor reader: {NO_MEMORY}"])
    lines = second.armor(data)
    assert len(lines) == 13613
    return [(given, good, others) for given in [lines, second.armor(data, b"\r\n") + b"   "]]


def key_texts():
    recipient = "age1t7rxyev2z3rw82stdlrrepyc39nvn86l5078zqkf5uasdy86jp6svpy7pa"
    printed, decoded = [f"recipient text: {recipient}"], ["text prefix: A", f"text bytes: {digest(b'')}"]
    return [(b"", *runs([(printed, [[f"recipient text: {NO_ALLOCATION}", *printed]]),
                         (["raised read: invalid Bech32 encoding"], []),
                         (decoded, [[f"text prefix: {NO_MEMORY}", *decoded]])]))]


def protected_file():
    whole = (second.VERSION + b"-> scrypt skb8GKz/cKOk8piHM4FF1Q 10\n" + b"A" * 43 + b"\n--- " + b"A" * 43 + b"\n" + bytes(32))
    stanza = ["stanza tag: scrypt", "stanza argument: skb8GKz/cKOk8piHM4FF1Q", "stanza argument: 10", "stanza body: 32"]
    work = "protected work: excessive work factor 10, target 5"
    no_work = f"protected work: {NO_MEMORY}"
    good = [*stanza, work, work]
    wants = [[f"protected reader: {NO_MEMORY}"], [*stanza, f"protected identity: {NO_ALLOCATION}"],
             [*stanza, no_work, work], [*stanza, work, no_work]]
    # A reader that was refused memory itself has failed; one that wasn't goes on.
    wants += [[f"protected header: {NO_MEMORY}", f"protected failed: {failed}", "protected seek: 0", *good] for failed in ["true", "false"]]
    used = [used_file("key decryption failed", 1), [[f"protected reader: {NO_MEMORY}"], [f"protected file: {NO_MEMORY}"]]]
    # What the first use is refused the later ones answer again, and nobody is asked once more.
    used[1] += [used_file(NO_MEMORY, asked) for asked in [0, 1]]
    return [(second.armor(whole), *runs([(good, wants), used]))]


def used_file(answer, asked):
    names = ["recipients", "recipients", "unwrapped"]
    return [line for name in names for line in [f"protected {name}: {answer}", f"protected asked: {asked}"]]


def identity_text(given):
    """The sections of a file of identities, whose lines are `IDENTITY`, that of a plugin, empty or comments."""
    keys, plugin = given.count(IDENTITY.encode()), PLUGIN.encode() in given
    written = text([second.bech32("age", PUBLIC)] * keys)
    again = f"file written: {digest(written)}"
    answer = "identity file contains a plugin identity: foobar" if plugin else "done"
    once = [f"file recipients: {answer}", again]
    good = once * 2 if plugin else once
    wants = [["file recipients: failed to write output", f"file written: {digest(written[:end])}", *once] for end in range(len(written) + 1)]
    if plugin:
        wants += [[*once, *want[:2]] for want in wants]
    texts = [f"identity text: {IDENTITY}"] * keys
    identities = ["file identities: plugin not found: age-plugin-foobar"] if plugin else [f"file identities: {keys}", *texts]
    stops = [[f"file identities: {NO_MEMORY}"]]
    if not plugin:
        stops += [[identities[0], *texts[:number], f"identity text: {NO_ALLOCATION}", *texts[number:]] for number in range(keys)]
    good, others = runs([(good, wants), (identities, stops)])
    return given, good, [*others, ["ready", f"file read: {NO_MEMORY}"]]


def identity_file():
    key, comment = IDENTITY.encode(), b"# Foo bar baz"
    texts = [key, key + b"\n", key + b"\n" + key, comment + b"\n" + key, key + b"\n" + comment, b"\n\n" + key]
    bad = ["ready", "file read: identity file contains non-identity data on line 1"]
    return [*(identity_text(it) for it in texts), *(identity_text(it.replace(b"\n", b"\r\n")) for it in texts),
            (b"AGE-", bad, [["ready", f"file read: {NO_MEMORY}"]]), identity_text(key + b"\n" + PLUGIN.encode())]


def beginnings(parts):
    """The digests of the first of these parts, of two, and so on, from none on."""
    whole, size = hmac.new(b"", b"", hashlib.sha256), 0
    for part in [b"", *parts]:
        whole.update(part)
        size += len(part)
        yield f"{size} bytes, {whole.hexdigest()}"


def written(of, parts):
    """The section of a writer of these parts, of which a refusal leaves the first: it has failed for good."""
    *others, whole = beginnings(parts)
    wants = [[f"{of} writer: {NO_MEMORY}", f"{of} written: {others[0]}"]]
    for other in [*others, whole]:
        wants += [[f"{of} finish: {NO_MEMORY}", f"{of} written: {other}"],
                  [f"{of} write: {NO_MEMORY}", f"{of} write: {FAILED}", f"{of} flush: {FAILED}", f"{of} finish: {FAILED}", f"{of} written: {other}"]]
    return [f"{of} written: {whole}"], wants


def long_writes():
    plain = bytes(i % 251 for i in range(2 * second.PIECE))
    sealed, chunk = second.payload(KEY, plain), second.PIECE + 16
    lines = [line + b"\n" for line in second.armor_lines(plain)]
    return [(plain, *runs([written("payload", [sealed[:chunk], sealed[chunk:]]), written("armor", lines)]))]


# Three records, and their text: their number, the end of each, and their bytes.
RECORDS = [b"first", b"", bytes(i % 251 for i in range(second.PIECE + 4464))]
RECORDS_TEXT = bytes.fromhex("0000000000000003 0000000000000005 0000000000000005 0000000000011175") + b"".join(RECORDS)


def write_records():
    sealed, chunk = second.payload(KEY, RECORDS_TEXT), second.PIECE + 16
    return [(RECORDS[2], *runs([written("records", [sealed[:chunk], sealed[chunk:]])]))]


def records():
    good = ["records len: 3", *(f"records get: {digest(RECORDS[number])}" for number in [2, 1, 0]),
            "records get: no such record", f"records get: {digest(RECORDS[0])}"]
    # Memory is asked for to open the records, and for each that is there; asked for once more, it is given.
    wants = [[f"records {name}: {NO_MEMORY}"] for name in ["reader", "open"]]
    wants += [[*good[:number], f"records get: {NO_MEMORY}", *good[number:]] for number in [1, 2, 3, 5]]
    return [(second.payload(KEY, RECORDS_TEXT), *runs([(good, wants)]))]


def prepared(of, draws, answer, more=0):
    """The sections of an encryption whose draws that succeed are these, and which leaves so many random bytes more."""
    tail = [*draws, more]
    wants = [[f"{of} random bytes: {NO_ALLOCATION}"], [f"{of} grease: {NO_MEMORY}", f"{of} left: {sum(tail)}"]]
    wants += [[first, f"{of} left: {sum(tail[count:])}"] for count in range(len(tail))
              for first in [f"{of} encryptor: {NO_MEMORY}"]]
    return [f"{of} encryptor: {answer}", f"{of} left: {more}"], wants


def recipients():
    mixed = prepared("mixed", [16, 32, 16, 24], "a passphrase can't be used with other recipients", 16)
    mixed[1].append([f"mixed passphrase: {NO_ALLOCATION}"])
    zero = (["zero wrapped: shared secret is zero", "zero left: 0"],
            [[f"secret random bytes: {NO_ALLOCATION}"], [f"zero random bytes: {NO_ALLOCATION}"],
             *([f"zero wrapped: {NO_MEMORY}", f"zero left: {count}"] for count in [32, 0])])
    return [(b"", *runs([prepared("none", [16], "no recipients"), mixed, prepared("short", [16, 32], "random bytes ran out", 15),
                         prepared("enough", [16, 32, 16], "done"), zero]))]


ROWS = {"files": files, "cut_payload": cut_payload, "armor_seeks": armor_seeks, "far_seek": far_seek, "key_texts": key_texts,
        "protected_file": protected_file, "identity_file": identity_file, "recipients": recipients, "long_writes": long_writes,
        "records": records, "write_records": write_records}

# A reader that opened the chunks before its place, whatever it counts, would ask for memory more often.
MOST = {"far_seek": 9}

# RFC 4231, test case 1, and RFC 5869, test case 1.
HMAC = "b0344c61d8db38535ca8afceaf0bf12b881dc200c9833da726e9376c2e32cff7"
HKDF = "3cb25f25faacd57a90434f64d0362f2a2d2d0a90cf1a5a4c5db02d56ecc4c5bf"
HEADER = second.header(bytes(16), [second.stanza([b"bench"], bytes(16)), second.stanza([b"x-grease"], b"")])
SAME = ["recipient eq: true", "recipient hash: true"]
CALLS = [
    "ready", f"mac hmac: {HMAC}", f"mac hkdf: {HKDF}", f"mac finalize: {HMAC}", "mac verify: true", "mac verify: false",
    "bytes read: 4", f"bytes room: {b'abcd'.hex()}", f"bytes fill_buf: {b'ef'.hex()}", f"bytes fill_buf: {b'f'.hex()}",
    "bytes seek: cannot seek past the end", "bytes seek: 1", "bytes seek: cannot seek before the start", "bytes seek: 4",
    "bytes read: 2", f"bytes room: {b'ef'.hex()}0000",
    "draw left: 48", f"draw take: {'07' * 32}", "draw left: 16", "draw take: none", "draw left: 16",
    "stanza tag: x-grease", "stanza argument: argument", f"stanza body: {b'body'.hex()}", "grease tag: x-grease",
    "stanza tag: grease", "stanza argument: argument", f"stanza body: {b'body'.hex()}", "grease new: none", "stanza new: none",
    "header tag: bench", "header tag: x-grease",
    f"header mac: {second.mac(second.hkdf(b'', b'header', bytes(16)), HEADER[:-45]).hex()}",
    f"file key secret: {'00' * 16}", "header verify_mac: true", f"file key secret: {'01' * 16}", "header verify_mac: false", "header stanzas: 2",
    "writer flush: done", "reader opens: 0", "reader opens: 1", "file with_callbacks: done",
    "callbacks confirm: false", "callbacks public: false", "callbacks passphrase: false",
    "decryptor is_scrypt: false", "encrypted new: false", "decryptor is_scrypt: true", "encrypted new: true",
    "scrypt recipient: done", "scrypt identity: done",
    *SAME, *SAME, "recipient eq: false", "recipient hash: false", "identity generate: false",
    "recipient from_str: incorrect HRP", "recipient from_str: invalid Bech32 encoding",
    "identity from_str: incorrect HRP", "identity from_str: invalid Bech32 encoding"]


def controls(has_memory):
    """Two calls that take memory."""
    first, second_one = ("done", "done") if has_memory else (NO_ALLOCATION, NO_MEMORY)
    return [f"control with_capacity: {first}", f"control payload: {second_one}"]
