#!/usr/bin/env bash
# The library for C: builds the examples of examples/foreign in C, Rust and Python over it, and compares what they do with `peer.py` of tests/interop and
# with `sazh`, both ways, on the vectors and on damaged files. run.sh [SAZH] [LIBRARY]: the program and the static library that were built; without
# them they are built here. The C example runs under valgrind, the Rust one is built by rustc alone, each where that is.
# The last line is 'N passed, M failed'.
set -euo pipefail
top=$(cd "$(dirname "$0")/.." && pwd)
sazh=${1:-$top/crates/sazh/out/sazh}
[ -x "$sazh" ] || "$top/sazh" --version > /dev/null
if [ $# -ge 2 ]; then "$top/foreign/link.sh" "$2" "$top/foreign/out"; else "$top/foreign/build.sh"; fi
exec python3 "$top/foreign/run.py" "$sazh" "$top/foreign/out"
