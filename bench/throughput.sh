#!/usr/bin/env bash
# Seconds and peak memory of `agebench seal`, `open`, `encrypt` and `decrypt`, with and without armor, beside `sha256sum` of
# the same bytes: the bench suite has to hash each byte once, so that is the measure. What armor adds stands beside half the
# time of `base64` of the same bytes. Each time is the least of five runs. The argument is the size in MiB. Peak memory is
# measured by /usr/bin/time, where it is there.
set -euo pipefail
size=${1:-256}
top=$(cd "$(dirname "$0")/.." && pwd)
key=$(printf '00%.0s' {1..32})
draw=$key
"$top/agebench" seal "$key" </dev/null >/dev/null
program=$top/crates/agebench/out/agebench
folder=$(mktemp -d -p "${TMPDIR:-/dev/shm}")
trap 'rm -rf "$folder"' EXIT
head -c "$((size * 1048576))" /dev/urandom >"$folder/plain"
"$program" seal "$key" <"$folder/plain" >"$folder/sealed"
"$program" open "$key" <"$folder/sealed" | cmp - "$folder/plain"
"$program" encrypt bench "$draw" <"$folder/plain" >"$folder/file"
"$program" decrypt bench <"$folder/file" | cmp - "$folder/plain"
"$program" encrypt bench "$draw" armor <"$folder/plain" >"$folder/armored"
"$program" decrypt bench <"$folder/armored" | cmp - "$folder/plain"
base64 -w 64 <"$folder/file" >"$folder/base64"
sed '1d;$d' "$folder/armored" | cmp - "$folder/base64"

# The least seconds of five runs of each, which take turns so that all meet the same machine, and the peak KiB of one more.
python3 - "$folder" "$program" "$key" "$draw" "$size" <<'PYTHON'
import os, subprocess, sys, time
folder, program, key, draw, size = sys.argv[1:]
jobs = {"sha256sum": (["sha256sum"], "plain"), "seal": ([program, "seal", key], "plain"),
        "encrypt": ([program, "encrypt", "bench", draw], "plain"), "open": ([program, "open", key], "sealed"),
        "decrypt": ([program, "decrypt", "bench"], "file"),
        "encrypt armor": ([program, "encrypt", "bench", draw, "armor"], "plain"),
        "decrypt armor": ([program, "decrypt", "bench"], "armored"),
        "base64 -w 64": (["base64", "-w", "64"], "file"), "base64 -d -i": (["base64", "-d", "-i"], "base64")}


def run(words, given):
    with open(os.path.join(folder, given), "rb") as source, open(os.devnull, "wb") as sink:
        start = time.perf_counter()
        done = subprocess.run(words, stdin=source, stdout=sink, stderr=subprocess.PIPE)
        took = time.perf_counter() - start
    if done.returncode != 0:
        sys.exit(f"{words} failed")
    return took, done.stderr


best = {}
for _ in range(5):
    for name, (words, given) in jobs.items():
        best[name] = min(run(words, given)[0], best.get(name, float("inf")))
print(f"{size} MiB, least of five runs:")
for name, (words, given) in jobs.items():
    peak = ""
    if os.access("/usr/bin/time", os.X_OK):
        peak = f"  peak {int(run(['/usr/bin/time', '-f', '%M', *words], given)[1]) / 1024:6.2f} MiB"
    print(f"{name:<14} {best[name]:7.3f} s  {best[name] / best['sha256sum']:5.2f} of sha256sum{peak}")
for command, other in [("encrypt", "base64 -w 64"), ("decrypt", "base64 -d -i")]:
    added = best[f"{command} armor"] - best[command]
    print(f"armor adds {added:7.3f} s to {command}; half of {other} is {best[other] / 2:7.3f} s")
PYTHON
