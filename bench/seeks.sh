#!/usr/bin/env bash
# What a seek and a read of one byte cost, of a file of so many MiB on the disk (the argument, else 64): seconds, and how many chunks were opened for a read.
#
# Three forms side by side: a payload alone, by `StreamReader`; and what a user has, a whole file bare and in armor, by `open_text`. Of each the
# first seek, with all that comes before it, and later ones: at random, in a random walk over 4 chunks, and back and forth between two chunks. In armor the
# first seek reads all lines. The least of three runs; the later ones less a run with one place.
# Then `sazh part`, which reads 10 bytes at the end of such files, with how many bytes the process read (proc(5), /proc/PID/io).
# Then 1,000 random ones of 100,000 sealed records of 100 bytes, in the same three forms, beside reading all of such a file by `agebench`.
set -euo pipefail
size=${1:-64}
top=$(cd "$(dirname "$0")/.." && pwd)
key=000102030405060708090a0b0c0d0e0f101112131415161718191a1b1c1d1e1f
"$top/agebench" seal "$key" </dev/null >/dev/null
"$top/sazh" --version >/dev/null
SAZH_WAITS=$$ python3 "$top/build.py" rows key_texts </dev/null >/dev/null
folder=$(mktemp -d -p "${TMPDIR:-/tmp}")
trap 'rm -rf "$folder"' EXIT
python3 - "$folder" "$top" "$key" "$size" <<'PYTHON'
import os, random, subprocess, sys, time
folder, top, key, size = sys.argv[1:]
probe, agebench, sazh = (os.path.join(top, "crates", it, "out", it) for it in ("rows", "agebench", "sazh"))
name = lambda it: os.path.join(folder, it)
length, piece, chance = int(size) << 20, 65536, random.Random(1)
plain = os.urandom(length)


def write(file, words, given=plain):
    with open(name(file), "wb") as out:
        subprocess.run(words, input=given, stdout=out, check=True)


write("payload", [agebench, "seal", key])
write("bare", [agebench, "encrypt", "bench", "00" * 32])
write("armored", [agebench, "encrypt", "bench", "00" * 32, "armor"])


def walk(count):
    """A random walk over the chunks 3 to 6, a chunk at most a step."""
    at, places = 0, []
    for _ in range(count):
        at = min(3, max(0, at + chance.choice([-1, 0, 1])))
        places.append((3 + at) * piece + chance.randrange(piece))
    return places


def run(words, places):
    """The seconds that a run takes, and how many chunks it opens. It reads the right bytes."""
    start = time.perf_counter()
    done = subprocess.run([probe, "seeks", *words], input="".join(f"{it}\n" for it in places).encode(), capture_output=True, check=True)
    took = time.perf_counter() - start
    told = done.stdout.decode().split()
    want = [str(len(places)), "read,", str(sum(plain[it] for it in places)), "in", "all,"]
    if told[:5] != want:
        sys.exit(f"{words}: {told}, not {want}")
    return took, int(told[5])


print(f"{size} MiB, least of three runs:")
count = 10000
for form, words in [("payload", [name("payload")]), ("bare", ["file", name("bare")]), ("armored", ["file", name("armored")])]:
    none = min(run(words, [])[0] for _ in range(3))
    first = min(run(words, [length // 2])[0] for _ in range(3))
    print(f"{form:<8} the first seek        {(first - none) * 1e6:9.1f} microseconds, and {none * 1e6:.1f} for the process and what is read before it")
    for pattern, places in [("at random", [chance.randrange(length) for _ in range(count)]), ("a walk over 4 chunks", walk(count)),
                            ("back and forth", [0, piece] * (count // 2))]:
        took, opens = min(run(words, places) for _ in range(3))
        print(f"{form:<8} {pattern:<21} {(took - first) / count * 1e6:9.1f} microseconds a read, {opens / count:.3f} chunks opened a read")


def part(file):
    """The seconds that `sazh part` takes for 10 bytes at the end, and how many bytes it reads."""
    start = time.perf_counter()
    with subprocess.Popen([sazh, "part", "-i", name("key"), str(length - 10), "10", name(file)], stdout=subprocess.PIPE) as process:
        shown = process.stdout.read()
        os.waitid(os.P_PID, process.pid, os.WEXITED | os.WNOWAIT)
        took = time.perf_counter() - start
        with open(f"/proc/{process.pid}/io", encoding="ascii") as told:
            read = int(dict(line.split(": ") for line in told.read().splitlines())["rchar"])
    if shown != plain[-10:]:
        sys.exit(f"{file}: {shown}")
    return took, read


subprocess.run([sazh, "keygen", "-q", "-o", name("key")], check=True)
with open(name("key"), encoding="ascii") as file:
    recipient = file.readline().split()[-1]
write("sazh_bare", [sazh, "encrypt", "-r", recipient])
write("sazh_armored", [sazh, "encrypt", "-r", recipient, "-a"])
for form in ("bare", "armored"):
    took, read = min(part(f"sazh_{form}") for _ in range(5))
    print(f"{form:<8} sazh part, at the end {took * 1e6:9.1f} microseconds, {read} bytes read")


# Sealed records: their number, the end of each, and their bytes.
count, size, gets = 100_000, 100, 1000
record = lambda number: data[number * size : (number + 1) * size]
data = os.urandom(count * size)
text = b"".join(it.to_bytes(8, "big") for it in [count, *range(size, (count + 1) * size, size)]) + data
asked = [chance.randrange(count) for _ in range(gets)]
key_words = ["bench", "00" * 32]
forms = [("payload", [], [agebench, "seal", key], [agebench, "open", key]), ("bare", ["file"], [agebench, "encrypt", *key_words], [agebench, "decrypt", "bench"]),
         ("armored", ["file"], [agebench, "encrypt", *key_words, "armor"], [agebench, "decrypt", "bench"])]


def get(words, numbers):
    """The seconds that getting these records takes, and how many chunks it opens. It gets the right bytes."""
    start = time.perf_counter()
    done = subprocess.run([probe, "gets", *words], input="".join(f"{it}\n" for it in numbers).encode(), capture_output=True, check=True)
    took = time.perf_counter() - start
    told = done.stdout.decode().split()
    want = [str(len(numbers)), "read,", str(sum(sum(record(it)) for it in numbers)), "in", "all,"]
    if told[:5] != want:
        sys.exit(f"{words}: {told}, not {want}")
    return took, int(told[5])


def whole(words, file):
    """The seconds that reading a whole file takes."""
    start = time.perf_counter()
    with open(name(file), "rb") as given:
        shown = subprocess.run(words, stdin=given, stdout=subprocess.PIPE, check=True).stdout
    if shown != text:
        sys.exit(f"{words}: {len(shown)} bytes, not {len(text)}")
    return time.perf_counter() - start


print(f"{count:,} records of {size} bytes, {gets:,} of them at random, least of three runs:")
for form, words, write_words, read_words in forms:
    write("records", write_words, text)
    first, first_opens = min(get([*words, name("records")], []) for _ in range(3))
    took, opens = min(get([*words, name("records")], asked) for _ in range(3))
    all_of_it = min(whole(read_words, "records") for _ in range(3))
    print(f"{form:<8} a record             {(took - first) / gets * 1e6:9.1f} microseconds, {(opens - first_opens) / gets:.3f} chunks opened a record;"
          f" {first * 1e3:.1f} ms and {first_opens} chunks to open the records, {all_of_it * 1e3:.1f} ms to read the whole file")
PYTHON
