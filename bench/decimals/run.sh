#!/usr/bin/env bash
# Reads the same numbers with cj_decimal and with Rust's own parsing, in one run: the least of five times each.
# Needs rt, rustc and python3.
set -eu
here=$(cd "$(dirname "$0")" && pwd)
work=$(mktemp -d)
trap 'rm -rf "$work"' EXIT

least() {
    for _ in 1 2 3 4 5; do "$1" < "$work/numbers"; done |
        awk '!($1 in least) { order[++n] = $1; least[$1] = $2 } $2 < least[$1] { least[$1] = $2 }
             END { for (i = 1; i <= n; i++) print "  " order[i] " " least[order[i]] " ns" }'
}

mkdir -p "$work/crates/decimal_times/src"
cp -r "$here/../../crates/cj_decimal" "$work/crates/cj_decimal"
rm -rf "$work/crates/cj_decimal/out"
cp "$here/program/main.rattle" "$work/crates/decimal_times/src/main.rt"
printf 'cj_decimal: thiserror\ndecimal_times: cj_decimal\n' > "$work/crates.txt"
rustc --edition 2024 -C opt-level=3 -C target-cpu=x86-64-v2 -o "$work/twin" "$here/twin/main.rs"
(cd "$work/crates/cj_decimal" && rt lib > "$work/log" 2>&1) || { cat "$work/log"; exit 1; }
(cd "$work/crates/decimal_times" && rt run < /dev/null > "$work/log" 2>&1) || { cat "$work/log"; exit 1; }
for kind in integers fractions long; do
    python3 "$here/numbers.py" "$kind" > "$work/numbers"
    echo "$kind"
    least "$work/crates/decimal_times/out/decimal_times"
    least "$work/twin"
done
