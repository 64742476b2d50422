#!/usr/bin/env bash
# bench/run.sh [OLD_STAMPCTL [OLD_BENCH]]: proves and builds what is measured where that is not done yet, runs all measurements,
# and prints the tables of docs/BENCH.md. With the stampctl of another commit, and its bench, the old ones are measured by turns with
# the new. STAMPCTL and BENCH, where both are set, name programs that stand already, and then neither is proved or built. ONLY is
# one table of sizes, counts and times. Without gcc no allocation is counted, and without rustc there is no plain program. A program
# that is named and is not there ends all with the words that say so.
set -euo pipefail
OLD=()
for program in "$@"; do OLD+=("$(realpath "$program")"); done
if [ -n "${STAMPCTL:-}" ] && [ -n "${BENCH:-}" ]; then
    STAMPCTL=$(realpath "$STAMPCTL")
    BENCH=$(realpath "$BENCH")
    cd "$(dirname "$0")/.."
else
    cd "$(dirname "$0")/.."
    if ! command -v rt > /dev/null; then
        echo "run.sh: there is no rt here to build stampctl and bench; name programs that stand already as STAMPCTL and BENCH" >&2
        exit 1
    fi
    (cd crates/bench && rt run > /dev/null)
    (cd crates/stampctl && rt run < stdin > /dev/null)
    STAMPCTL=crates/stampctl/out/stampctl
    BENCH=crates/bench/out/bench
fi
MADE=$(mktemp -d)
trap 'rm -r "$MADE"' EXIT
WORDS=("$BENCH" "$STAMPCTL")
[ ${#OLD[@]} -lt 1 ] || WORDS+=(--old-stampctl "${OLD[0]}")
[ ${#OLD[@]} -lt 2 ] || WORDS+=(--old-bench "${OLD[1]}")
[ -z "${ONLY:-}" ] || WORDS+=(--only "$ONLY")
if command -v gcc > /dev/null; then
    gcc -O2 -shared -fPIC -o "$MADE/allocations.so" bench/allocations.c
    export ALLOCATIONS="$MADE/allocations.so"
fi
if command -v rustc > /dev/null; then
    rustc -O -C codegen-units=1 --edition 2021 -o "$MADE/plain" bench/plain/plain.rs
    WORDS+=(--plain "$MADE/plain")
fi
python3 -B bench/measure.py "${WORDS[@]}"
