#!/usr/bin/env bash
# Measures the scan of lines beside serde_json, in one run: the best of five times each.
#
#   bench/scan/run.sh [MEGABYTES]      (24 if left out)
#
# Needs rt, python3 and cargo, with Debian's packages librust-serde-json-dev and librust-serde-dev.
set -euo pipefail
cd "$(dirname "$0")/.."
megabytes=${1:-24}
work=out/scan
trap 'rm -f "$work/crates.txt"' EXIT # below the top it stops CI
mkdir -p "$work/crates/scan_times/src"

cat > out/cargo.toml <<'CONFIG'
[source.crates-io]
replace-with = "debian"
[source.debian]
directory = "/usr/share/cargo/registry"
CONFIG
cargo build --quiet --release --offline --config out/cargo.toml --manifest-path scan/peer/Cargo.toml --target-dir out/peer

for crate in cj_budget cj_spans; do
  rm -rf "$work/crates/$crate"
  cp -r "../crates/$crate" "$work/crates/$crate"
done
cp scan/program/main.rattle "$work/crates/scan_times/src/main.rt"
printf 'cj_budget: thiserror\ncj_spans: cj_budget simdutf8 thiserror\nscan_times: cj_budget cj_spans\n' > "$work/crates.txt"
(cd "$work/crates/scan_times" && rt run < /dev/null > ../../log 2>&1) || { cat "$work/log"; exit 1; }

echo "shape   scan MB/s   serde_json MB/s, time of scan to it   and a copy MB/s, time of scan to it"
for shape in usual tiny huge text; do
  input="$work/$shape.jsonl"
  [ -s "$input" ] && [ "$(stat -c %s "$input")" -ge $((megabytes * 1000000)) ] ||
    python3 make_stream.py "$shape" "$megabytes" > "$input"
  for _ in 1 2 3 4 5; do
    "$work/crates/scan_times/out/scan_times" < "$input"
    out/peer/release/scan_peer 10 < "$input"
  done | awk -v shape="$shape" '
    $2 > best[$1] { best[$1] = $2 }
    !($1 in lines) { lines[$1] = $4 }
    lines[$1] != $4 || lines[$1] != lines["scan"] { bad = 1 }
    END {
      if (bad) { print shape ": the programs do not accept the same lines"; exit 1 }
      read = best["serde_json"]; copied = best["serde_json-and-copy"]; scan = best["scan"]
      printf "%-6s %10d %17d %20.2f %17d %20.2f\n", shape, scan, read, read / scan, copied, copied / scan
    }'
done
