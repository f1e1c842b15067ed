#!/usr/bin/env bash
# Runs a small program over the crates (refused_calls/main.rattle), with another of its allocations
# refused in each run. The program makes each kind of call that may be refused memory. After a
# refusal it checks that all is as it was, and makes the call again. The last line is
# 'N passed, M failed'. It counts the kinds in each run, and whether each kind was refused in at
# least one run.
#
#     tests/faults/refused_calls.sh
#
# Run `rt all check` first. The script proves and builds the program in a folder of its own, over
# what the crates' checks kept in out/. That takes two minutes, and 1.5 GB of the folder for
# temporary files. The runs take seconds. It needs a C compiler, for the lines that refuse. It is no
# part of CI.
set -uo pipefail
cd "$(dirname "$0")/../.." || exit

scratch=$(mktemp -d)
trap 'rm -rf "$scratch"' EXIT
passed=0 failed=0

# build FOLDER COMMAND..: runs rt in this folder, and shows what it printed if it fails
build() {
  (cd "$1" && rt "${@:2}" < /dev/null) > "$scratch/built" 2>&1 && return
  tail -n 40 "$scratch/built"
  echo "0 passed, 1 failed"
  exit 1
}

build crates/cj_stream lib
. tests/faults/beside_crates.sh
put_beside refused_calls cj_budget cj_spans cj_stream
for crate in $libraries; do
  mkdir "$scratch/crates/$crate/out"
  cp -a "crates/$crate/out/rlib" "$scratch/crates/$crate/out/"
done
folder=$scratch/crates/refused_calls
build "$folder" run
cc -O1 -shared -fPIC -o "$scratch/refused_growth.so" tests/faults/refused_growth.c -ldl || exit
kinds=$(grep -c ': [a-z]*, [0-9]* refused$' "$scratch/built")

# runs [VARIABLE]: runs the program with this in its environment, and adds what it prints to all that was printed
runs() {
  env LD_PRELOAD="$scratch/refused_growth.so" "$@" "$folder/out/refused_calls" > "$scratch/printed" 2>&1
  cat "$scratch/printed" >> "$scratch/all"
}

# counts NUMBER WANTED TEXT: counts NUMBER of WANTED as passed, and prints the text if they differ
counts() {
  passed=$((passed + $1))
  [ "$1" = "$2" ] && return
  failed=$((failed + $2 - $1))
  echo "$3"
}

runs COUNTED="$scratch/count"
for number in $(seq "$(cat "$scratch/count")"); do
  runs REFUSED="$number"
  counts "$(grep -cE ': right, [01] refused$' "$scratch/printed")" "$kinds" "allocation $number: $(grep -v ': right, ' "$scratch/printed")"
done
refused=$(grep ': right, 1 refused$' "$scratch/all" | sort | uniq -c)
echo "$refused"
counts "$(grep -c . <<< "$refused")" "$kinds" 'a kind was never refused'

echo "$passed passed, $failed failed"
[ "$failed" = 0 ] && [ "$kinds" -gt 0 ]
