#!/usr/bin/env bash
# Files that `sazh` writes are read by another implementation of age-encryption.org/v1, and the other way round: 200 each way, bare and
# in armor, to one and to several recipients and under passphrases, of 0 to 200,000 bytes. The other implementation is the program
# `age` or `rage` on the path, or where there is none `peer.py` (Python, with the package `cryptography`). No part of the gate.
# The last line is 'N passed, M failed'.
set -euo pipefail
cd "$(dirname "$0")/../.."
[ -x crates/sazh/out/sazh ] || ./sazh --version > /dev/null
exec python3 tests/interop/run.py crates/sazh/out/sazh
