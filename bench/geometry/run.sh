#!/usr/bin/env bash
# Measures the scan of lines, and the scan with a check of every geometry, in one run: the best of five
# times each.
#
#   bench/geometry/run.sh [MEGABYTES]      (12 if left out)
#
# It copies the crates beside a small program (program/main.rattle) in bench/out, proves and builds both
# with rt (some minutes the first time). Needs rt and python3. It is no part of CI.
set -euo pipefail
cd "$(dirname "$0")/.."
megabytes=${1:-12}
work=out/geometry
trap 'rm -f "$work/crates.txt"' EXIT # below the top it stops CI
mkdir -p "$work/crates/geometry_times/src"
for crate in cj_budget cj_decimal cj_spans cj_geometry; do
  rm -rf "$work/crates/$crate"
  cp -r "../crates/$crate" "$work/crates/$crate"
done
cp geometry/program/main.rattle "$work/crates/geometry_times/src/main.rt"
cat > "$work/crates.txt" <<'CRATES'
cj_budget: thiserror
cj_decimal: thiserror
cj_spans: cj_budget simdutf8 thiserror
cj_geometry: cj_budget cj_decimal cj_spans
geometry_times: cj_budget cj_geometry cj_spans
CRATES
(cd "$work/crates/geometry_times" && rt run < /dev/null > ../../log 2>&1) || { cat "$work/log"; exit 1; }

echo "shape   scan MB/s   with every geometry MB/s   time of it to the scan"
for shape in usual huge; do
  input="$work/$shape.jsonl"
  [ -s "$input" ] && [ "$(stat -c %s "$input")" -ge $((megabytes * 1000000)) ] ||
    python3 make_stream.py "$shape" "$megabytes" > "$input"
  for _ in 1 2 3 4 5; do
    "$work/crates/geometry_times/out/geometry_times" < "$input"
  done | awk -v shape="$shape" -v bytes="$(stat -c %s "$input")" '
    !($1 in best) || $2 < best[$1] { best[$1] = $2 }
    { lines[$1] = $4 }
    END {
      if (lines["scan"] != lines["scan-and-geometry"]) { print shape ": not every geometry is good"; exit 1 }
      scan = best["scan"]; all = best["scan-and-geometry"]
      printf "%-6s %10.0f %26.0f %24.2f\n", shape, bytes * 5 / scan, bytes * 5 / all, all / scan
    }'
done
