#!/usr/bin/env bash
# The speed of `sazh`, in memory, beside the program `age` (where it is on the path) and `openssl speed`: 256 MiB encrypted and decrypted, bare and in armor,
# scrypt with the work factor 18, and X25519 by a file for 1,000 recipients, which takes two multiplications each.
#
# Times are processor time, of the system's part too, each the least of TURNS turns (9, if it isn't set) in which all take theirs one after the other; what the same
# command takes for an empty file is taken off. Ratios are speeds: above 1 `sazh` is the faster. `age` is run with one processor (GOMAXPROCS=1) and as it is, and
# its better time counts.
set -euo pipefail
top=$(cd "$(dirname "$0")/.." && pwd)
"$top/sazh" --version >/dev/null
folder=$(mktemp -d -p "${TMPDIR:-/dev/shm}")
trap 'rm -rf "$folder"' EXIT
python3 - "$folder" "$top/crates/sazh/out/sazh" "${TURNS:-9}" <<'PYTHON'
import hashlib, os, re, resource, shutil, subprocess, sys
folder, sazh, turns = sys.argv[1], sys.argv[2], int(sys.argv[3])
MIB = 256
name = lambda it: os.path.join(folder, it)


def run(words, target=os.devnull, **more):
    with open(target, "wb") as sink:
        subprocess.run(words, stdin=subprocess.DEVNULL, stdout=sink, check=True, env={**os.environ, **more})


def cost(words, **more):
    """The processor seconds of a run."""
    before = resource.getrusage(resource.RUSAGE_CHILDREN)
    run(words, **more)
    after = resource.getrusage(resource.RUSAGE_CHILDREN)
    return after.ru_utime + after.ru_stime - before.ru_utime - before.ru_stime


with open(name("plain"), "wb") as file:
    file.write(os.urandom(MIB << 20))
with open(name("empty"), "wb"), open(name("passphrase"), "w") as file:
    file.write("correct horse battery staple\n")
run([sazh, "keygen", "-q", "-o", name("key")])
with open(name("key")) as file:
    recipient = file.readline().removeprefix("# public key: ").strip()
with open(name("many"), "w") as file:
    file.write(f"{recipient}\n" * 1000)
for form, flags in (("bare", []), ("armored", ["-a"])):
    for what in ("plain", "empty"):
        run([sazh, "encrypt", *flags, "-r", recipient, "-o", name(f"{what}.{form}"), name(what)])

jobs = {}
programs = [("sazh", sazh, ["encrypt"], ["decrypt"], {})]
age = shutil.which("age")
if age:
    programs += [("age, one processor", age, [], ["-d"], {"GOMAXPROCS": "1"}), ("age", age, [], ["-d"], {})]
for who, program, encrypt, decrypt, more in programs:
    for form, flags in (("bare", []), ("armored", ["-a"])):
        for what in ("plain", "empty"):
            jobs[who, "encrypt", form, what] = [program, *encrypt, *flags, "-r", recipient, name(what)], more
            jobs[who, "decrypt", form, what] = [program, *decrypt, "-i", name("key"), name(f"{what}.{form}")], more
jobs["sazh", "scrypt", "", ""] = [sazh, "encrypt", "-p", name("passphrase"), name("empty")], {}
jobs["sazh", "x25519", "", ""] = [sazh, "encrypt", "-R", name("many"), name("empty")], {}
least = {}
for _ in range(turns):
    for job, (words, more) in jobs.items():
        least[job] = min(cost(words, **more), least.get(job, float("inf")))


def speed(words):
    """What `openssl speed` says, the best of as many turns: bytes or operations a second of processor time."""
    best = 0.0
    for _ in range(min(turns, 5)):
        done = subprocess.run(["openssl", "speed", "-mr", "-seconds", "1", *words], capture_output=True, text=True, check=True)
        best = max(best, float(re.findall(r"^\+F\d?:[^:]*:[^:]*:([0-9.]+)", done.stdout, re.M)[-1]))
    return best


def seconds(who, what, form):
    return least[who, what, form, "plain"] - least[who, what, form, "empty"]


print(f"processor time, the least of {turns} turns; {MIB} MiB in memory; {os.cpu_count()} processors")
for what in ("encrypt", "decrypt"):
    for form in ("bare", "armored"):
        own = seconds("sazh", what, form)
        line = f"{what} {form}: sazh {MIB / own:.0f} MiB/s"
        others = [seconds(who, what, form) for who, *_ in programs[1:]]
        if others:
            line += f", age {MIB / min(others):.0f} MiB/s: ratio {min(others) / own:.2f}"
        print(line)
if shutil.which("openssl"):
    words = ["-bytes", "65536", "-evp", "chacha20-poly1305"]
    for what, flags in (("encrypt", []), ("decrypt", ["-decrypt"])):
        cipher = speed([*flags, *words]) / (1 << 20)
        print(f"OpenSSL's cipher alone, {what}: {cipher:.0f} MiB/s: ratio {MIB / seconds('sazh', what, 'bare') / cipher:.2f}")
    empty = least["sazh", "encrypt", "bare", "empty"]
    one, other = (least["sazh", "x25519", "", ""] - empty) / 2000, 1 / speed(["ecdhx25519"])
    print(f"X25519: sazh {one * 1e6:.0f} microseconds, OpenSSL {other * 1e6:.0f}: ratio {other / one:.2f}")
    before = resource.getrusage(resource.RUSAGE_SELF)
    hashlib.scrypt(b"p", salt=b"s", n=1 << 18, r=8, p=1, dklen=32, maxmem=1 << 29)
    after = resource.getrusage(resource.RUSAGE_SELF)
    other = after.ru_utime + after.ru_stime - before.ru_utime - before.ru_stime
    own = least["sazh", "scrypt", "", ""] - empty
    print(f"scrypt of factor 18: sazh {own:.2f} s, OpenSSL {other:.2f} s: ratio {other / own:.2f}")
else:
    print("no program openssl")


def peak(words):
    """The most memory that a run takes, in MiB. (`time` begins it, since what a process began with counts as its own.)"""
    with open(os.devnull, "wb") as sink:
        done = subprocess.run(["time", "-f", "%M", *words], stdin=subprocess.DEVNULL, stdout=sink, stderr=subprocess.PIPE, text=True, check=True)
    return int(done.stderr.split()[-1]) / 1024


if shutil.which("time"):
    for what in ("encrypt", "decrypt"):
        print(f"peak memory to {what}: " + ", ".join(f"{form} {peak(jobs['sazh', what, form, 'plain'][0]):.1f} MiB" for form in ("bare", "armored")))
else:
    print("no program time")
PYTHON
