#!/usr/bin/env bash
# Takes a first look before CI, within three minutes on four idle cores and without a proof.
# It checks the layout of the sources, the names in documents and the version. It runs the tests of
# the crates on an interpreter. The test cases of the engine are left out, since they take longer.
#
#     tests/quick.sh
#
# The last line is 'N passed, M failed', and the status is 0 where none failed.
set -u
cd "$(dirname "$0")/.." || exit
if ! command -v rt > /dev/null; then
  echo "quick.sh: rt is missing: it comes with Rattle's toolchain" >&2
  exit 1
fi
scratch=$(mktemp -d) || exit
trap 'rm -rf "$scratch"' EXIT
passed=0 failed=0

# Counts a command as passed if its status is 0, and shows what it printed else.
test_case() {
  local name=$1
  shift
  if "$@" > "$scratch/printed" 2>&1; then
    passed=$((passed + 1))
  else
    failed=$((failed + 1))
    echo "$name: failed"
    tail -n 20 "$scratch/printed"
  fi
}

# Whether a crate is laid out as rt fmt does it, which is tried on a copy.
is_laid_out() {
  local copy=$scratch/tree/crates/$1
  mkdir -p "$copy" && cp -r "crates/$1/src" "$copy/" && cp crates.txt "$scratch/tree/" || return
  (cd "$copy" && rt fmt) && diff -r "crates/$1/src" "$copy/src"
}

# Runs the tests of a crate, and keeps what they print.
run_tests() {
  (cd "crates/$1" && RT_JOBS=1 rt try --test > "$scratch/$1.tests" 2>&1)
  echo $? > "$scratch/$1.status"
}

# Shows what the tests of a crate have printed, and whether they passed.
have_passed() {
  cat "$scratch/$1.tests"
  [ "$(cat "$scratch/$1.status")" = 0 ]
}

crates=$(sed -n 's/^\([a-z][a-z0-9_]*\).*:.*/\1/p' crates.txt)
for crate in $crates; do test_case "layout of $crate" is_laid_out "$crate"; done
test_case 'names in documents' tests/docs/promises.py
test_case 'one version' packaging/version.py
tested=
for crate in $(tac <<< "$crates"); do  # the highest crates take longest
  [[ $crate = cj_stream_* ]] || ! grep -rqF '#[test]' "crates/$crate/src" || tested+=" $crate"
done
for crate in $tested; do
  while [ "$(jobs -rp | wc -l)" -ge "$(nproc)" ]; do wait -n; done
  run_tests "$crate" &
done
wait
for crate in $tested; do test_case "tests of $crate" have_passed "$crate"; done
echo 'left out: the tests of cj_stream_tests_*, which take longer; CI has them'
echo "$passed passed, $failed failed"
[ "$failed" = 0 ]
