#!/usr/bin/env bash
# Runs the first command that README has for a fresh machine, as it stands there. It runs in a copy
# of the tree, without anything that was proved or built. That takes 70 seconds on four cores, and
# 100 of the processor.
#
#     tests/cli/first_command.sh [PROGRAM]
#
# With PROGRAM, that program runs in place of `rt try --`, in a second. This shows that the rest of
# the command is right.
# The last line is 'N passed, M failed', and the status is 0 if none failed.
set -u
program=${1:+$(realpath -e -- "$1")} || exit
cd "$(dirname "$0")/../.." || exit
scratch=$(mktemp -d) || exit
trap 'rm -rf "$scratch"' EXIT
passed=0 failed=0

# Counts a check as passed if its status is 0, and shows what it printed otherwise.
test_case() {
  local name=$1
  shift
  if "$@" > "$scratch/printed" 2>&1; then
    passed=$((passed + 1))
  else
    failed=$((failed + 1))
    echo "$name: failed"
    tail -n 20 "$scratch/printed"
  fi
}

# Makes a command `rt` that notes its words and then runs these lines.
make_rt() {
  mkdir -p "$scratch/bin"
  printf '%s\n' '#!/usr/bin/env bash' "echo \"\$*\" > '$scratch/words'" "$@" > "$scratch/bin/rt"
  chmod +x "$scratch/bin/rt"
}

# Runs the first command that is indented below this heading of README, with that `rt`.
run_first() {
  local command
  command=$(sed -n '/^## On a fresh machine$/,/^## /s/^    //p' README.md | head -n 1)
  (cd "$tree" && PATH=$scratch/bin:$PATH bash -c "$command")
}

finds_an_equal_copy() { [ "$(run_first)" = equal ]; }
finds_another_copy() { ! run_first; }
was_run_without_a_proof() { grep -qx 'try -- filter' "$scratch/words"; }

tree=$PWD
make_rt "echo '{}'"
test_case 'a copy that differs is found' finds_another_copy
if [ -n "$program" ]; then
  make_rt 'shift 2' "exec '$program' \"\$@\""
else
  tree=$scratch/tree
  mkdir "$tree" && tar -c --exclude=out crates crates.txt examples HANDLES | tar -x -C "$tree" || exit
  make_rt "exec '$(command -v rt)' \"\$@\""
fi
test_case 'the copy is equal' finds_an_equal_copy
test_case 'it was run from its sources, without a proof' was_run_without_a_proof
echo "$passed passed, $failed failed"
[ "$failed" = 0 ]
