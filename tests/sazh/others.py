"""`sazh rekey`, which encrypts a file's content to others in one pass, and `sazh verify`, which tells its length and its digest."""

import hashlib

from told import CHUNK, NONCE, TAG, armor, header_end


def rekeys(runs, recipient):
    plain, file = runs.path("plain").read_bytes(), runs.path("file").read_bytes()
    key = runs.run(["keygen"]).stdout
    runs.path("new_key").write_bytes(key)
    new = key.splitlines()[0].removeprefix(b"# public key: ").decode()
    runs.path("team").write_text(f"# both\n{new}\n{recipient}\n", "ascii")
    with_key, to_new = ["rekey", "-i", "key"], ["-r", new]
    for form, given in (("bare", file), ("in armor", armor(file))):
        runs.path("given").write_bytes(given)
        runs.path("rekeyed").unlink(missing_ok=True)
        runs.gives(f"rekey to a file, {form}", [*with_key, *to_new, "-o", "rekeyed", "given"], b"")
        runs.gives(f"it opens, {form}", ["decrypt", "-i", "new_key", "rekeyed"], plain)
        says = b"sazh: rekeyed: none of the keys in key opens it"
        runs.refuses(f"and not for who had it, {form}", ["decrypt", "-i", "key", "rekeyed"], says=says)
        done = runs.run([*with_key, "-R", "team", "--armor"], given)
        good = done.returncode == 0 and done.stdout.startswith(b"-----BEGIN AGE ENCRYPTED FILE-----\n")
        runs.ends(f"rekey in a pipe, {form}: status {done.returncode}, {done.stderr!r}", good)
        for who in ("key", "new_key"):
            runs.gives(f"it opens with {who}, {form}", ["decrypt", "-i", who], plain, done.stdout)
    end = header_end(file) + NONCE
    for what, given in (
        ("cut", file[:-1]), ("cut behind a chunk", file[: end + CHUNK + TAG]), ("longer", file + b"x"),
        ("changed", file[: end + CHUNK + TAG + 7] + bytes([file[end + CHUNK + TAG + 7] ^ 1]) + file[end + CHUNK + TAG + 8 :]),
    ):
        runs.path("given").write_bytes(given)
        runs.refuses(f"rekey of a file that is {what}", [*with_key, *to_new, "-o", "never", "given"], says=b"sazh: given: damaged: ")
        runs.ends("no file", not runs.path("never").exists())
        done = runs.run([*with_key, *to_new], given)
        again = runs.run(["decrypt", "-i", "new_key"], done.stdout)
        good = done.returncode == 1 and again.returncode == 1 and plain.startswith(again.stdout)
        runs.ends(f"what was written of it by then is no file, {what}: {done.stderr!r}, {again.stderr!r}", good)
        runs.refuses(f"verify of a file that is {what}", ["verify", "-i", "key", "given"], says=b"sazh: given: damaged: ")
    runs.refuses("rekey to nobody", [*with_key, "file"], status=2, says=b"Usage: ")
    runs.refuses("rekey with nobody's key", ["rekey", "-i", "new_key", *to_new, "file"], says=b"sazh: file: none of the keys in new_key opens it")
    runs.refuses("rekey to a bad word", [*with_key, "-r", "age1x", "-o", "never", "file"], says=b"sazh: -r: ")
    runs.refuses("rekey of nothing", [*with_key, *to_new], says=b"sazh: standard input: it is empty")


def verifies(runs):
    file = runs.path("file").read_bytes()
    for size in (0, 1, CHUNK - 1, CHUNK, CHUNK + 1, 200_001):
        content = bytes(i % 251 for i in range(size))
        encrypted = runs.run(["encrypt", "-R", "recipients"], content).stdout
        told = f"length {size}\nsha256 {hashlib.sha256(content).hexdigest()}\n".encode()
        for form, given in (("bare", encrypted), ("in armor", armor(encrypted))):
            runs.gives(f"verify of {size} bytes, {form}", ["verify", "-i", "key"], told, given)
    runs.refuses("verify with nobody's key", ["verify", "-i", "new_key", "file"], says=b"sazh: file: none of the keys in new_key opens it")
    runs.refuses("verify of nothing", ["verify", "-i", "key"], says=b"sazh: standard input: it is empty")
    runs.refuses("verify without identities", ["verify", "file"], status=2, says=b"Usage: ")
    runs.ends("the file stays", runs.path("file").read_bytes() == file)
