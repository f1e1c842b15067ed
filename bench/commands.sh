#!/usr/bin/env bash
# Measures `cityseq check`, `filter` and `info` in one run, compared with cat, wc -l, two Rust twins
# and a peer in C++. It also measures how long they take on a stream of one feature. The twin reads
# each line with serde_json and throws the value away, and does the same without reading JSON. The
# typed twin judges typed values of serde's derive. The peer judges values of simdjson.
#
#   bench/commands.sh [MEGABYTES]      (300 if left out)
#
# It builds the program by `rt run`. It builds the twins by cargo, and the peer by g++, if the
# packages of Debian that they need are installed:
#
# - The twins: librust-memchr-dev, librust-simdutf8-dev, librust-serde-json-dev and
#   librust-serde-derive-dev.
# - The peer: libsimdjson-dev.
#
# It builds the first twin twice: once as it is, and once for x86-64-v2 alone, as Rattle builds
# programs. The peer uses the widest vectors that the machine has. Figures are the best of five
# runs.
set -euo pipefail
cd "$(dirname "$0")"
megabytes=${1:-300}
mkdir -p out

echo "building" >&2
(cd ../crates/cityseq && rt run -- filter < ../../examples/sample.city.jsonl > /dev/null)
program=../crates/cityseq/out/cityseq
cat > out/cargo.toml <<'CONFIG'
[source.crates-io]
replace-with = "debian"
[source.debian]
directory = "/usr/share/cargo/registry"
CONFIG
# whether Debian's packages have these crates
have() {
  local crate
  for crate; do
    ls -d "/usr/share/cargo/registry/$crate"-[0-9]* > /dev/null 2>&1 || return 1
  done
}
# build PROJECT FOLDER [FLAG..]
build() {
  cargo build --quiet --release --offline --config out/cargo.toml --manifest-path "$1/Cargo.toml" --target-dir "${@:2}" 1>&2
}
twin= narrow= typed=
# once with the widest vectors that the machine has, once with those that Rattle builds programs for
if have memchr simdutf8 serde_json && build filter_twin out/twin &&
  RUSTFLAGS="-C target-cpu=x86-64-v2" build filter_twin out/narrow --no-default-features; then
  twin=out/twin/release/filter_twin
  narrow=out/narrow/release/filter_twin
else
  echo "the Rust twin is left out: its packages are missing, or it does not build" >&2
fi
if have simdutf8 serde_json serde_derive && build typed_twin out/typed; then
  typed=out/typed/release/typed_twin
else
  echo "the typed twin is left out: its packages are missing, or it does not build" >&2
fi
peer=
if g++ -O3 -std=c++17 -o out/simdjson_peer simdjson_peer/peer.cpp -lsimdjson 2> /dev/null; then
  peer=out/simdjson_peer
else
  echo "the peer in C++ is left out: libsimdjson-dev is missing, or it does not build" >&2
fi

for shape in usual tiny huge text; do
  [ -s "out/$shape.jsonl" ] && [ "$(stat -c %s "out/$shape.jsonl")" -ge $((megabytes * 1000000)) ] ||
    python3 make_stream.py "$shape" "$megabytes" > "out/$shape.jsonl"
done
head -n 2 ../examples/sample.city.jsonl > out/one.jsonl
PROGRAM=$program python3 compare.py "$twin" "$narrow" "$typed" "$peer" out/one.jsonl out/usual.jsonl out/tiny.jsonl out/huge.jsonl out/text.jsonl
