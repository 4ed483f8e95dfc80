#!/usr/bin/env bash
# The whole gate: whether each edit can be applied, the public names are told, TRUSTED.md quotes what the sources say and the generated proofs are what
# their script makes, every proof from nothing, the edits that must be refused, the tests and the programs' stored runs, and then `sazh` on real files,
# as each level of processors has it compiled, `agebench` on damaged input, with failing memory, reads and writes, and `age_c` from other languages.
# The lines of the long parts begin with the minutes and seconds since the start; the last line counts all of them.
# With --all it also tries every edit that stands in edits/, whatever edits/TRIED says of it.
set -uo pipefail
cd "$(dirname "$0")"
case $* in '' | --all) ;; *) echo 'usage: ./test.sh [--all]' >&2; exit 2 ;; esac
log=$(mktemp -d)
trap 'rm -rf "$log"' EXIT
status=0

stamped() {
    while IFS= read -r line; do
        printf '%3d:%02d %s\n' $((SECONDS / 60)) $((SECONDS % 60)) "$line"
    done
}

# Before the long part: `rt ci` passes over a line of an edit that it doesn't know, and would try less than the edit says.
edits/run.sh --apply || exit 1
# Whether the edits that the gate leaves out were tried on what stands here, and whether what says so can be believed.
edits/run.sh --check || exit 1
python3 tests/edits/run.py || exit 1
# Whether the table of public names is complete, and the page of the definitions that a reader trusts is what the sources say.
scripts/names.py || exit 1
scripts/trusted.py --check || exit 1
# Whether each definition that a `use` names is there and something names each lemma, whether lines are no longer than they shall be, each page that a
# link names is there, and what DEFINITIONS says of where each definition stands.
scripts/uses.py || exit 1
scripts/columns.py || exit 1
scripts/links.py || exit 1
scripts/definitions.py || exit 1
# Whether the pictures are those of crates.txt and of README's table of speed.
scripts/pictures.py --check || exit 1
# Whether the certificates of the curve are what their script makes.
if ! crates/curve25519/generate/certificates.py --check; then
    echo "0 passed, 1 failed"
    exit 1
fi
if ! diff <(sed -n '/^```rust$/,/^```$/p' README.md | sed '1d;$d') <(grep -v '^//[!/]' crates/age_examples/src/there_and_back.rt); then
    echo "README's example isn't that of age_examples"
    echo "0 passed, 1 failed"
    exit 1
fi

# Whether `build.py` says what it is at, and how it ends, over a `rt` that proves nothing.
python3 tests/build/run.py || exit 1

# (`rt ci` puts back what it found here, also the libraries of an `rt ci` before: these go)
for it in crates/*/out/rlib; do
    [ -e "$it/stamp" ] || rm -rf "$it"
done
rt ci 2>&1 | tee "$log/gate" | stamped || status=1
gate=$(grep -E '^[0-9]+ passed, [0-9]+ failed$' "$log/gate" | tail -n 1)
[ -n "$gate" ] || { gate='0 passed, 1 failed'; status=1; }

# What a script says of a program or library that the gate built just now: its last line, with each line stamped.
runs() {
    local name=$1 program=$2
    shift 2
    if [ -f "$program" ]; then
        "$@" "$program" 2>&1 | tee "$log/$name" | stamped || status=1
    fi
    counted=$(grep -E '^[0-9]+ passed, [0-9]+ failed$' "$log/$name" 2>/dev/null | tail -n 1)
    [ -n "$counted" ] || { counted='0 passed, 1 failed'; status=1; }
}

# The edits that the gate leaves out.
edits='0 passed, 0 failed'
if [ "$*" = --all ]; then
    edits/run.sh 2>&1 | tee "$log/edits" | stamped || status=1
    edits=$(grep -E '^[0-9]+ passed, [0-9]+ failed$' "$log/edits" | tail -n 1)
    [ -n "$edits" ] || { edits='0 passed, 1 failed'; status=1; }
fi

echo "sazh on real files:"
runs files crates/sazh/out/sazh python3 tests/sazh/run.py
files=$counted
# `rt ci` compiles programs for x86-64-v2, and `./sazh` for the level of the processors here.
level=$(python3 build.py --level) || { level=x86-64-v2; status=1; }
better_passed=0 better_failed=0
if [ "$level" != x86-64-v2 ]; then
    echo "sazh on real files, compiled for $level:"
    # (an older note of what was built says nothing of the program that stands there now)
    rm -f crates/sazh/out/built_from
    if python3 build.py --after-gate sazh --version < /dev/null 2>&1 | stamped; then
        runs better crates/sazh/out/sazh python3 tests/sazh/run.py
    else
        counted='0 passed, 1 failed'
    fi
    better=$counted
    read -r better_passed _ better_failed _ <<<"$better"
fi
echo "README's first line, which runs sazh unproved:"
runs first crates/sazh/out/sazh python3 tests/sazh/first.py
first=$counted
echo "agebench with failing memory, reads and writes, and on damaged payloads:"
runs faults crates/agebench/out/agebench python3 tests/faults/run.py
faults=$counted

# The library for C, where there is what its examples are built with. It is built for the level of the processors here.
foreign='0 passed, 0 failed'
if command -v cc > /dev/null && command -v python3 > /dev/null; then
    echo "age_c from C, Rust and Python:"
    if python3 build.py --after-gate age_c < /dev/null 2>&1 | stamped; then
        runs foreign crates/age_c/out/libage_c.a foreign/run.sh crates/sazh/out/sazh
    else
        counted='0 passed, 1 failed'
    fi
    foreign=$counted
fi

read -r gate_passed _ gate_failed _ <<<"$gate"
read -r edits_passed _ edits_failed _ <<<"$edits"
read -r files_passed _ files_failed _ <<<"$files"
read -r first_passed _ first_failed _ <<<"$first"
read -r faults_passed _ faults_failed _ <<<"$faults"
read -r foreign_passed _ foreign_failed _ <<<"$foreign"
failed=$((gate_failed + edits_failed + files_failed + better_failed + first_failed + faults_failed + foreign_failed))
[ "$failed" -eq 0 ] || status=1
[ "$status" -eq 0 ] || [ "$failed" -gt 0 ] || failed=1
echo "gate: $gate"
[ "$*" != --all ] || echo "edits: $edits"
echo "files: $files"
[ "$level" = x86-64-v2 ] || echo "files at $level: $better"
echo "README: $first"
echo "faults: $faults"
echo "foreign: $foreign"
echo "$((SECONDS / 60)) minutes on $(nproc) processors"
passed=$((gate_passed + edits_passed + files_passed + better_passed + first_passed + faults_passed + foreign_passed))
echo "$passed passed, $failed failed"
exit "$status"
