#!/usr/bin/env bash
# Damages small files and asks age_decrypt of each, in as many processes as there are processors: harm.sh [ROUNDS [SEED]], a million rounds in all
# where none are named. Each damaged file has to be refused (harm.c says why). It needs foreign/out (`foreign/build.sh`).
# The last line is 'N damaged files refused in S seconds, N a minute' or 'FAILED'.
set -euo pipefail
top=$(cd "$(dirname "$0")/.." && pwd)
rounds=${1:-1000000} seed=${2:-$RANDOM}
work=$(mktemp -d)
trap 'rm -rf "$work"' EXIT
cc -Wall -Wextra -Werror -O2 -I"$top/include" "$top/foreign/harm.c" "$top/foreign/out/libage_c.a" -o "$work/harm"
python3 - "$top" "$work" <<'PYTHON'
import os, sys
from pathlib import Path
top, work = sys.argv[1:]
sys.path[:0] = [f"{top}/tests/interop"]
sys.dont_write_bytecode = True
import peer
keys = [peer.Key() for _ in range(3)]
Path(f"{work}/keys").write_text(keys[1].text() + "\n")
for number, (recipients, size) in enumerate([(keys[1:2], 0), (keys[1:2], 40), (keys, 300), (keys[:2], 1000)]):
    Path(f"{work}/file{number}").write_bytes(peer.encrypt_to([key.recipient() for key in recipients], os.urandom(size)))
PYTHON
processes=$(nproc)
each=$((rounds / processes + 1))
began=$(date +%s.%N)
running=()
for ((number = 0; number < processes; number++)); do
    "$work/harm" "$work/keys" "$work/file$((number % 4))" "$each" "$((seed * 1000 + number))" > "$work/said$number" &
    running+=($!)
done
good=yes
for process in "${running[@]}"; do wait "$process" || good=no; done
cat "$work"/said*
[ "$good" = yes ] || { echo "FAILED, with the seed $seed"; exit 1; }
python3 - "$began" "$each" "$processes" "$seed" <<'PYTHON'
import sys, time
began, each, processes, seed = float(sys.argv[1]), *map(int, sys.argv[2:])
took = time.time() - began
print(f"seed {seed}: {each * processes:,} damaged files refused in {took:.1f} seconds, {each * processes / took * 60:,.0f} a minute")
PYTHON
