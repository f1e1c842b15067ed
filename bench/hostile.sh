#!/usr/bin/env bash
# Measures `cityseq check`, `info` and `filter --lod 2` on adversarial lines, and `check --tree` on
# adversarial trees, of 125 KB, 1 MB and 8 MB. It shows the slowest of the three, compared with a
# usual line of the same length. It also shows how its time grows if the length doubles. A run of
# more than SECONDS is ended.
#
#   bench/hostile.sh [SECONDS [WORD]]      (20 seconds if left out; with a WORD only shapes whose names have it)
#
# It builds the program by `rt run`. Needs rt, python3 and cc. It is no part of CI.
set -euo pipefail
cd "$(dirname "$0")"
(cd ../crates/cityseq && rt run -- filter < ../../examples/sample.city.jsonl > /dev/null)
meeting=$(mktemp)
trap 'rm -f "$meeting"' EXIT
cc -O2 -o "$meeting" hostile/meeting.c
python3 hostile/shapes.py ../crates/cityseq/out/cityseq "$meeting" "${1:-20}" "${2:-}"
