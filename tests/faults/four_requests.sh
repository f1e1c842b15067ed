#!/usr/bin/env bash
# Runs over a stream of a header and a feature, with a sink that counts, at the usual limits. Such a
# run makes four requests for memory. The script refuses one of them in each run. The run must then
# end as out of memory, with no line handled and nothing put to the sink. A run makes no fifth
# request, so to refuse that changes nothing. The last line is 'N passed, M failed'.
#
#     tests/faults/four_requests.sh
#
# It copies the crates and a small program (four_requests/main.rattle) into a folder of its own, and
# proves nothing (`rt try`). Each of the six runs takes some 30 s. It is no part of CI.
set -uo pipefail
cd "$(dirname "$0")/../.." || exit

scratch=$(mktemp -d)
trap 'rm -rf "$scratch"' EXIT
passed=0 failed=0

. tests/faults/beside_crates.sh
put_beside four_requests cj_stream

# has LINE: whether the last run printed this line
has() {
  if grep -qxF "$1" "$scratch/printed"; then
    passed=$((passed + 1))
  else
    echo "request ${refused:-none} refused: no line '$1'"
    failed=$((failed + 1))
  fi
}

# run_once [N]: runs the program, with the Nth request refused
run_once() {
  refused=${1-}
  (cd "$scratch/crates/four_requests" && rt try ${refused:+--fail-alloc "$refused"} < /dev/null) > "$scratch/printed" 2>&1
  has "run=ended status=0 runners=2 proved=no"
}

# goes_well: the last run went over the whole stream
goes_well() {
  has "lines 2 kept 1 end Complete"
  has "headers 1 features 1"
  has "peaks 350 65 8"
}

# lacks_memory PEAKS: the last run ended as out of memory, with nothing put, and with these peaks
lacks_memory() {
  has "lines 0 kept 0 end Memory"
  has "headers 0 features 0"
  has "peaks $1"
  has "allocations: $refused"
}

run_once
goes_well
# `open` makes the first two requests, before a byte is read. The others come after a valid header.
for request in 1 2; do
  run_once "$request"
  lacks_memory "0 0 0"
done
for request in 3 4; do
  run_once "$request"
  lacks_memory "140 21 3"
done
run_once 5
goes_well
has "allocations: 4"

echo "$passed passed, $failed failed"
[ "$failed" = 0 ]
