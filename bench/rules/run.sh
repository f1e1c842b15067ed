#!/usr/bin/env bash
# Measures the scan of lines, and the scan with a check of each line as a feature, in one run: the best of three
# times each. The shape `linked` is one feature of 10,000 city objects that are one parent and its children.
#
#   bench/rules/run.sh [MEGABYTES]      (12 if left out)
#
# It copies the crates beside a small program (program/main.rattle) in bench/out, proves and builds both
# with rt (some minutes the first time). Needs rt and python3. It is no part of CI.
set -euo pipefail
cd "$(dirname "$0")/.."
megabytes=${1:-12}
work=out/rules
trap 'rm -f "$work/crates.txt"' EXIT # below the top it stops CI
mkdir -p "$work/crates/rules_times/src"
for crate in cj_budget cj_decimal cj_spans cj_geometry cj_feature; do
  rm -rf "$work/crates/$crate"
  cp -r "../crates/$crate" "$work/crates/$crate"
done
cp rules/program/main.rattle "$work/crates/rules_times/src/main.rt"
grep -E '^(cj_budget|cj_decimal|cj_spans|cj_geometry|cj_feature):' ../crates.txt > "$work/crates.txt"
echo "rules_times: cj_budget cj_feature cj_spans" >> "$work/crates.txt"
(cd "$work/crates/rules_times" && rt run < /dev/null > ../../log 2>&1) || { cat "$work/log"; exit 1; }

echo "shape   scan MB/s   with all rules MB/s   time of it to the scan"
for shape in usual tiny huge text linked; do
  size=$megabytes
  [ "$shape" = linked ] && size=0
  input="$work/$shape.jsonl"
  [ -s "$input" ] && [ "$(stat -c %s "$input")" -ge $((size * 1000000)) ] ||
    python3 make_stream.py "$shape" "$size" > "$input"
  for _ in 1 2 3; do
    "$work/crates/rules_times/out/rules_times" < "$input"
  done | awk -v shape="$shape" -v bytes="$(stat -c %s "$input")" '
    !($1 in best) || $2 < best[$1] { best[$1] = $2 }
    { lines[$1] = $4 }
    END {
      if (lines["scan"] != lines["scan-and-rules"]) { print shape ": not every line is a feature"; exit 1 }
      scan = best["scan"]; all = best["scan-and-rules"]
      printf "%-6s %10.0f %21.1f %24.2f\n", shape, bytes * 3 / scan, bytes * 3 / all, all / scan
    }'
done
