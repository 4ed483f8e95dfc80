#!/usr/bin/env bash
# Processor seconds, of the program and of the system for it, of the C example over age_c beside `sazh`, on the same plaintext and file:
# encrypt, decrypt, the example's `stream`, and 1,000 parts of 4,096 bytes. Each is the least of five runs, which take turns. foreign.sh [MIB [SAZH]]: 64 MiB where
# none are named. It needs foreign/out (`foreign/build.sh`).
set -euo pipefail
top=$(cd "$(dirname "$0")/.." && pwd)
size=${1:-64} sazh=${2:-$top/crates/sazh/out/sazh}
[ -x "$sazh" ] || "$top/sazh" --version > /dev/null
folder=$(mktemp -d -p "${TMPDIR:-/dev/shm}")
trap 'rm -rf "$folder"' EXIT
cc -O2 -I"$top/include" "$top/examples/foreign/age.c" "$top/foreign/out/libage_c.a" -o "$folder/age-c"
"$sazh" keygen -o "$folder/key" 2> /dev/null
sed -n 's/.*public key: //p' "$folder/key" > "$folder/recipients"
head -c "$((size * 1048576))" /dev/urandom > "$folder/plain"
"$folder/age-c" encrypt "$folder/recipients" "$folder/plain" "$folder/file"
python3 - "$folder" "$sazh" "$size" <<'PYTHON'
import os, random, subprocess, sys
folder, sazh, size = sys.argv[1], sys.argv[2], int(sys.argv[3])
at = lambda name: f"{folder}/{name}"
places = [random.Random(7).randrange(size * 2**20 - 4096) for _ in range(1000)]
jobs = {
    "encrypt": ([[at("age-c"), "encrypt", at("recipients"), at("plain"), at("out")]],
                [[sazh, "encrypt", "-R", at("recipients"), "-f", "-o", at("out"), at("plain")]]),
    "decrypt": ([[at("age-c"), "decrypt", at("key"), at("file"), at("out")]],
                [[sazh, "decrypt", "-i", at("key"), "-f", "-o", at("out"), at("file")]]),
    "stream": ([[at("age-c"), "stream", at("key"), at("file"), at("out")]],
               [[sazh, "decrypt", "-i", at("key"), "-f", "-o", at("out"), at("file")]]),
    "1,000 parts": ([[at("age-c"), "part", at("key"), at("file"), at("out"), str(place), "4096"] for place in places],
                    [[sazh, "part", "-i", at("key"), str(place), "4096", at("file")] for place in places]),
}


def run(calls):
    took = 0.0
    for words in calls:
        with open(os.devnull, "wb") as sink:
            process = subprocess.Popen(words, stdin=subprocess.DEVNULL, stdout=sink)
            _, status, used = os.wait4(process.pid, 0)
            process.returncode = status
        if status != 0:
            sys.exit(f"{words} failed")
        took += used.ru_utime + used.ru_stime
    return took


print(f"{size} MiB, processor seconds, least of five runs:")
for name, both in jobs.items():
    best = [min(run(both[which]) for _ in range(5)) for which in range(2)]
    library, program = best
    print(f"{name:<12} library {library:7.3f} s   sazh {program:7.3f} s   {library / program:5.2f}")
PYTHON
