#!/usr/bin/env bash
# Measures `cityseq filter` by each part of a query beside the filter that keeps every feature, in one run: the best of ten
# times each, on lines of 5 to 125 KB. Of the two boxes one keeps all features and one a tenth.
#
#   bench/queries/run.sh [MEGABYTES]      (100 if left out)
#
# It builds the program by `rt run`. Needs rt and python3. It is no part of CI.
set -euo pipefail
cd "$(dirname "$0")/.."
megabytes=${1:-100}
mkdir -p out
(cd ../crates/cityseq && rt run -- filter < ../../examples/sample.city.jsonl > /dev/null)

input=out/spread.jsonl
[ -s "$input" ] && [ "$(stat -c %s "$input")" -ge $((megabytes * 1000000)) ] ||
  python3 make_stream.py spread "$megabytes" > "$input"
PROGRAM=../crates/cityseq/out/cityseq python3 queries/by_parts.py "$input"
