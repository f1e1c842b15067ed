#!/usr/bin/env bash
# Measures the library for C: a call on one small feature, and `cityseq_info` and `cityseq_features` compared with
# `cityseq_check` on streams of four shapes. It needs c/out/libcityseq.a, which c/build.sh makes.
#
#   bench/library.sh [MEGABYTES]      (30 if left out)
set -euo pipefail
cd "$(dirname "$0")"
megabytes=${1:-30}
mkdir -p out
"${CC:-cc}" -std=c11 -Wall -Wextra -O2 -D_GNU_SOURCE library.c ../c/out/libcityseq.a -o out/library
for shape in usual tiny huge text; do
  stream=out/library-$shape-$megabytes.jsonl
  [ -s "$stream" ] || python3 make_stream.py "$shape" "$megabytes" > "$stream"
done
out/library
out/library out/library-{usual,tiny,huge,text}-"$megabytes".jsonl
