#!/usr/bin/env bash
# Proves and builds age_c, and puts into foreign/out what callers link: libage_c.a, with what it takes of the C library in it, and libage_c.so.
# Both are compiled for the level of the processors here, or for the one that SAZH_CPU names (x86-64-v2 or x86-64-v3).
set -euo pipefail
top=$(cd "$(dirname "$0")/.." && pwd)
SAZH_WAITS=$$ python3 "$top/build.py" age_c < /dev/null
"$top/foreign/link.sh" "$top/crates/age_c/out/libage_c.a" "$top/foreign/out"
