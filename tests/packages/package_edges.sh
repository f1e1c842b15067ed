#!/usr/bin/env bash
# Tries the edges of the package's command: closed descriptors, refused memory and threads, and
# signals. Others are outputs that would destroy the input, and files that change. A test case is a
# function named case_*. If it fails, it prints its name, what is wanted and what came. The last
# line is 'N passed, M failed', and the status is 0 if all passed.
#
#     tests/packages/package_edges.sh [PYTHON [CASE..]]      (python3, and all cases)
set -u
python=$(command -v "${1:-python3}") || exit
shift $(($# < 1 ? $# : 1))
cd "$(dirname "$0")/../.." || exit
export PYTHONPATH=$PWD/python
examples=$PWD/examples

scratch=$(mktemp -d) # the files of one test case
unset PYTHONDONTWRITEBYTECODE
export PYTHONPYCACHEPREFIX=$scratch-compiled
trap 'rm -rf "$scratch" "$scratch-compiled"' EXIT

header='{"type":"CityJSON","version":"2.0","transform":{"scale":[1,1,1],"translate":[0,0,0]},"CityObjects":{},"vertices":[]}'
feature='{"type":"CityJSONFeature","id":"b","CityObjects":{"b":{"type":"Building"}},"vertices":[]}'
report='line 3, byte 144: 25 vertex index out of range'

# Runs the command, on the caller's standard input and output.
cityseq() { timeout 60 "$python" -W ignore -m cityseq "$@"; }

# Prints lines.
lines() { printf '%s\n' "$@"; }

# Prints the header, and that number of features.
stream() {
  lines "$header"
  yes "$feature" | head -n "$1"
}

# Whether what came is what is wanted.
same() {
  [ "$1" = "$2" ] && return
  printf '%s: wanted %q, got %q\n' "$test_case" "$1" "$2"
  false
}

# ---- descriptors that are closed

case_reports_and_a_closed_standard_error() {
  cityseq filter --keep-going "$examples/delivery.city.jsonl" 2> /dev/null > "$scratch/wanted"
  cityseq filter --keep-going "$examples/delivery.city.jsonl" 2>&- > "$scratch/out"
  same 1 $? && same "$(cat "$scratch/wanted")" "$(cat "$scratch/out")"
}

case_help_progress_and_a_closed_standard_error() {
  same '' "$(cityseq check --progress "$examples/broken.city.jsonl" 2>&-)" &&
    same '' "$(cityseq 2>&-)" && same '' "$(cityseq check --depth x - 2>&- < /dev/null)"
}

case_no_file_gets_the_number_of_standard_error() {
  local found
  found=$("$python" -c 'import os
from cityseq.cli.output import hold_descriptors
hold_descriptors()
print(os.open("/dev/null", os.O_RDONLY) > 2)' 0>&- 2>&-)
  same True "$found"
}

# ---- threads, their stacks, and memory

# Whether a run came to its end, or said in one line that no memory was granted.
ended_well() {
  [ "$1" = 0 ] && return
  same 5 "$1" && same 'out of memory' "$(sed 's/^.*: //' "$scratch/said")"
}

case_little_memory_and_many_threads() {
  local n
  stream 50000 > "$scratch/stream"
  (ulimit -v 250000 && cityseq check --jobs 8 --part-size 100000 "$scratch/stream" > "$scratch/out" 2> "$scratch/said")
  ended_well $? || return
  for n in {1..8}; do
    (ulimit -v 300000 && timeout 60 "$python" -m cityseq check --jobs 64 --part-size 20000 "$scratch/stream" \
      > "$scratch/out" 2> "$scratch/said")
    ended_well $? || return
  done
}

case_memory_for_four_threads_is_enough_for_eight() {
  stream 50000 > "$scratch/stream"
  (ulimit -v 250000 && cityseq check --jobs 8 --part-size 100000 "$scratch/stream" > "$scratch/out" 2> "$scratch/said")
  same 0 $?
}

case_what_nobody_expected() {
  "$python" -c 'import sys
from cityseq import cli
from cityseq.cli import stream_commands
def work_of(*_, **__): raise KeyError("x")
stream_commands.work_of = work_of
sys.exit(cli.main(["check", "-"]))' > "$scratch/out" 2> "$scratch/said" < /dev/null
  same 70 $? && same 1 "$(wc -l < "$scratch/said")" && grep -q 'KeyError.*please report' "$scratch/said"
}

# Prints a header and a feature of 5,000 linked city objects.
many_objects() {
  lines "$header"
  "$python" -c 'names = [f"c{n}" for n in range(5000)]
parts = ",".join(f"\"{name}\":{{\"type\":\"BuildingPart\",\"parents\":[\"b\"]}}" for name in names)
children = ",".join(f"\"{name}\"" for name in names)
objects = f"\"b\":{{\"type\":\"Building\",\"children\":[{children}]}},{parts}"
print(f"{{\"type\":\"CityJSONFeature\",\"id\":\"b\",\"CityObjects\":{{{objects}}},\"vertices\":[]}}")'
}

case_trees_and_any_limit_of_the_stack() {
  local size jobs
  many_objects > "$scratch/stream"
  for size in unlimited 2048 512; do
    for jobs in 1 4; do
      (ulimit -s $size && cityseq check --tree --jobs $jobs "$scratch/stream" > "$scratch/out" 2> "$scratch/said")
      same "0 valid lines=2 features=1" "$? $(cat "$scratch/out")" || return
    done
  done
}

# ---- very little memory

# Has Python compile the package before a limit is set. With less than 24 MB it cannot compile it, and ends before the command begins.
compiled() { cityseq index --output "$scratch/other.gpkg" "$scratch/stream" > "$scratch/out"; }

case_memory_that_is_not_enough_to_begin() {
  local size
  stream 100 > "$scratch/stream"
  compiled
  for size in 20000 22000 24000 26000 28000 30000; do
    (ulimit -v $size && timeout 60 "$python" -m cityseq check "$scratch/stream" > "$scratch/out" 2> "$scratch/said")
    is_out_of_memory $? || return
  done
}

case_an_index_and_memory_that_is_not_enough_to_begin() {
  local size
  stream 100 > "$scratch/stream"
  compiled
  for size in 22000 24000 26000 28000 30000 32000 34000 36000; do
    (ulimit -v $size && timeout 60 "$python" -m cityseq index --output "$scratch/it.gpkg" "$scratch/stream" \
      > "$scratch/out" 2> "$scratch/said")
    is_out_of_memory $? || return
  done
}

# Whether a run came to its end, or ended because memory was refused. Below some 14 MB Python itself does not begin: then its status
# and its words are its own.
is_out_of_memory() {
  [ "$1" = 0 ] && return
  grep -q 'Fatal Python error\|error while loading shared libraries\|^Could not find platform' "$scratch/said" && return
  [ "$1" = 127 ] && return
  same "5 1" "$1 $(wc -l < "$scratch/said")" && grep -q 'out of memory$' "$scratch/said"
}

# A folder with room for a first look, and not for the rows that an index sorts.
# Indexes a stream while the folder of temporary files is full, and checks what it says.
index_without_temporary_room() {
  mkdir "$scratch/small"
  mount -t tmpfs -o size=64k tmpfs "$scratch/small" 2> "$scratch/noise" || return 0  # it takes root
  head -c 49152 /dev/zero > "$scratch/small/filler"
  TMPDIR=$scratch/small SQLITE_TMPDIR=$scratch/small cityseq index --output "$scratch/it.gpkg" "$scratch/stream" \
    > "$scratch/out" 2> "$scratch/said"
  local status=$?
  umount "$scratch/small"
  same "4 $scratch/small: write fault: $1" "$status $(cat "$scratch/said")" && ! [ -e "$scratch/it.gpkg" ]
}

# Boxes are sorted by the package.
case_a_full_folder_of_temporary_files() {
  local feature='{"type":"CityJSONFeature","id":"b","CityObjects":{"b":{"type":"Building","geometry":[{"type":"MultiPoint","lod":"1","boundaries":[0]}]}},"vertices":[[0,0,0]]}'
  stream 70000 > "$scratch/stream"
  index_without_temporary_room 'No space left on device'
}

# Ids are sorted by SQLite.
case_a_full_folder_of_the_temporary_files_of_sqlite() {
  local id
  id=$(printf 'b%.0s' {1..400})
  local feature='{"type":"CityJSONFeature","id":"'$id'","CityObjects":{"'$id'":{"type":"Building"}},"vertices":[]}'
  stream 40000 > "$scratch/stream"
  index_without_temporary_room 'no space left for temporary files'
}

# Runs a test case, and counts it.
try() {
  test_case=${1#case_}
  rm -rf "${scratch:?}"/*
  if "$1"; then passed=$((passed + 1)); else echo "$test_case: FAILED" && failed=$((failed + 1)); fi
}

passed=0 failed=0
[ $# -gt 0 ] || set -- $(compgen -A function case_)
for tried in "$@"; do try "$tried"; done
echo "$passed passed, $failed failed"
[ "$failed" = 0 ]
