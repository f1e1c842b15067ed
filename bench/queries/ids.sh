#!/usr/bin/env bash
# Measures the filter by 10, by 10,000 and by 100,000 ids, in one run, without the time to read or to add them: the best of
# nine times each, the three in turn, on lines of 300 bytes and of 5 to 125 KB.
#
#   bench/queries/ids.sh [MEGABYTES]      (12 if left out)
#
# It copies the crates beside a small program (program/main.rattle) in bench/out, with what is proved of them, and builds it
# with rt (seconds where they are proved, and as long as their proofs where they are not). Needs rt and python3. It is no
# part of CI.
set -euo pipefail
cd "$(dirname "$0")/.."
megabytes=${1:-12}
work=out/ids
trap 'rm -f "$work/crates.txt"' EXIT # below the top it stops CI
mkdir -p "$work/crates/ids_times/src"
(cd ../crates/cj_stream && rt lib > /dev/null 2>&1)
for crate in cj_budget cj_decimal cj_spans cj_geometry cj_feature cj_stream; do
  rm -rf "$work/crates/$crate"
  mkdir -p "$work/crates/$crate/out"
  for part in src specs proofs; do
    [ ! -d "../crates/$crate/$part" ] || cp -r "../crates/$crate/$part" "$work/crates/$crate/"
  done
  cp -r "../crates/$crate/out/rlib" "$work/crates/$crate/out/"
done
cp queries/program/main.rattle "$work/crates/ids_times/src/main.rt"
grep -E '^(cj_budget|cj_decimal|cj_spans|cj_geometry|cj_feature|cj_stream):' ../crates.txt > "$work/crates.txt"
echo "ids_times: cj_stream" >> "$work/crates.txt"
(cd "$work/crates/ids_times" && rt run < /dev/null > ../../log 2>&1) || { cat "$work/log"; exit 1; }

echo "shape        ids     kept   microseconds   of the time by the first   microseconds to add them"
for shape in named usual; do
  input=out/ids/$shape.jsonl
  [ -s "$input" ] && [ "$(stat -c %s "$input")" -ge $((megabytes * 1000000)) ] ||
    python3 make_stream.py "$shape" "$megabytes" > "$input"
  "$work/crates/ids_times/out/ids_times" < "$input" | awk -v shape="$shape" '
    NR == 1 { first = $2 }
    { printf "%-6s %9d %8d %14d %26.2f %26d\n", shape, $1, $3, $2, $2 / first, $4 }'
done
