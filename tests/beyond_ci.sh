#!/usr/bin/env bash
# Runs the trials that CI leaves out, over the program and the outputs of the crates' checks:
#
# - The program, with each of its allocations refused, one after another.
# - Each kind of call of the crates that may be refused memory, with its memory refused.
# - A run of an engine, with each of its four requests for memory refused.
# - The program with each vector, whole and with every cut.
# - The program, with each of its reads and writes failing.
# - The first command of README, from nothing.
# - With --edits, all edits of all crates.
#
# The last line is 'N passed, M failed'.
#
#     tests/beyond_ci.sh [--edits]
set -u
cd "$(dirname "$0")/.." || exit

passed=0 failed=0

# Runs a trial by its name: a command.
try() {
  echo "== $*"
  if "$@"; then
    passed=$((passed + 1))
  else
    failed=$((failed + 1))
  fi
}

try tests/faults/refused_growth.sh
try tests/faults/refused_calls.sh
try tests/faults/four_requests.sh
try python3 vectors/try.py cityseq crates/cityseq/out/cityseq
try python3 tests/faults/failing_calls.py
try tests/cli/first_command.sh
[ "${1-}" != --edits ] || try tests/mutation/wrong_bodies.sh
echo "$passed passed, $failed failed"
[ "$failed" = 0 ]
