#!/usr/bin/env bash
# Runs the program, which CI has built, with another of its allocations refused in each run:
# the first, the second, and so on. A run must end as out of memory, status 5, with a prefix of the
# output written. It may also end as if nothing was refused, if a list asked for more memory than it
# needs and goes on with less. It needs a C compiler, for the lines that refuse.
#     tests/faults/refused_growth.sh [PROGRAM]
set -euo pipefail
cd "$(dirname "$0")/../.."
program=$(realpath "${1:-crates/cityseq/out/cityseq}")
samples=$PWD/crates/cityseq
scratch=$(mktemp -d)
trap 'rm -rf "$scratch"' EXIT
cc -O1 -shared -fPIC -o "$scratch/refused_growth.so" tests/faults/refused_growth.c -ldl

# fails N TEXT: prints what is wrong if the Nth allocation is refused
fails() {
  echo "allocation $1: $2"
  cat "$scratch/err"
  exit 1
}

# run_on INPUT WORD..: runs the program over the file INPUT. Keeps what it writes and prints, and
# its status.
run_on() {
  local input=$1
  shift
  status=0
  LD_PRELOAD="$scratch/refused_growth.so" "$program" "$@" < "$input" > "$scratch/out" 2> "$scratch/err" || status=$?
}

# refuse_each INPUT WANTED STATUS WORD..: runs a command over the file INPUT, with each of its
# allocations refused, one after another. Its whole output is in the file WANTED, and its status is
# STATUS.
refuse_each() {
  local input=$1 wanted=$2 usual=$3 refused=0 n count
  shift 3
  COUNTED="$scratch/count" run_on "$input" "$@"
  [ "$status" = "$usual" ] && cmp "$scratch/out" "$wanted" || fails 0 "status $status, or another output"
  count=$(cat "$scratch/count")
  for n in $(seq "$count"); do
    REFUSED=$n run_on "$input" "$@"
    case $status in
      "$usual") cmp "$scratch/out" "$wanted" || fails "$n" "not the whole output" ;;
      5)
        [ "$(cat "$scratch/err")" = "out of memory" ] || fails "$n" "no word of memory"
        cmp -n "$(stat -c %s "$scratch/out")" "$scratch/out" "$wanted" || fails "$n" "no prefix of the output"
        refused=$((refused + 1))
        ;;
      *) fails "$n" "status $status" ;;
    esac
  done
  [ "$refused" -gt 0 ] || fails "$count" "none was refused"
  echo "$*: $count allocations: $refused ended the run, $((count - refused)) did not, each as it must be"
}

# A box far from all features keeps only the header of a stream. An empty stream has no output and
# status 1.
head -n 1 "$samples/stdin" > "$scratch/header"
: > "$scratch/nothing"
features=$(($(wc -l < "$samples/stdout") - 1)) # all lines but the header and blank ones
echo "valid lines=$(wc -l < "$samples/stdin") features=$features" > "$scratch/checked"
refuse_each "$samples/stdin" "$scratch/checked" 0 check
refuse_each "$samples/stdin" "$samples/stdout" 0 filter
refuse_each "$scratch/nothing" "$scratch/nothing" 1 filter --id b --bbox 1,2,3,4
refuse_each "$samples/stdin" "$scratch/header" 0 filter --id b --bbox 1,2,3,4
refuse_each "$samples/stdin" "$scratch/header" 0 filter --type Bridge,Tunnel --lod 1,7
