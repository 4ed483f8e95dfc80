#!/usr/bin/env bash
# Tries the edits that the gate leaves out: edits/run.sh [CRATE..], --stale, --check or --apply; edits/run.py says more.
exec python3 "$(dirname "$0")/run.py" "$@"
