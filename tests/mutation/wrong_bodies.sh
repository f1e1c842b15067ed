#!/usr/bin/env bash
# Tries all wrong bodies of these crates, or of each: the edits in wrong-bodies/, on a copy of the tree.
#
#     tests/mutation/wrong_bodies.sh [CRATE..]
#     tests/mutation/wrong_bodies.sh --telling
#
# A check names each function that is not proved. So one check tries some edits, each in another
# function (wrong_bodies.py). It begins over what the crate's own checks kept in out/, and over the
# libraries there, which CI leaves too. Nothing is tried if an edit cannot be applied (edits.py). The
# last line is 'N passed, M failed': an edit passes if the check refuses it. One that does not
# compile fails. The status is 0 if none fails.
#
# With the option, it tries only those of CI. Each breaks one part of the headline: any cut of the
# input, the order of lines, the bytes, and the bounds on bytes and on tokens. They are in functions
# that call few others, so that one check takes a minute or two.
set -u
cd "$(dirname "$0")/../.." || exit

telling=(rest_of_a_long_line_is_a_line goes_on_after_a_refusal output_drops_bytes stored_past_the_limit tokens_held_not_counted)
scratch=$(mktemp -d)
trap 'rm -rf "$scratch"' EXIT
refused=0 past=0 edits=()

# The crates of the repository, in the order of their list.
crates() {
  sed -n 's/^\([a-z0-9_]\+\)[^#]*:.*/\1/p' crates.txt
}

# Copies the tree: of each crate its text and its library, and of the one that is tried all that its checks kept.
copy_tree() {
  local crate part
  for crate in $(crates); do
    mkdir -p "$scratch/crates/$crate/out"
    for part in src specs proofs out/rlib; do
      [ ! -e "crates/$crate/$part" ] || cp -a "crates/$crate/$part" "$scratch/crates/$crate/$part"
    done
  done
  cp crates.txt "$scratch"
  if [ -d "crates/$1/out/incremental" ]; then
    cp -a "crates/$1/out/incremental" "$scratch/crates/$1/out/"
  fi
}

# Tries edits of a crate, and adds the counts of the last line.
try_edits() {
  local last crate=$1
  shift
  copy_tree "$crate"
  echo "== $crate"
  PYTHONUNBUFFERED=1 python3 tests/mutation/wrong_bodies.py "$crate" "$scratch/crates/$crate" "$@" | tee "$scratch/printed"
  rm -rf "${scratch:?}/crates"
  last=$(tail -n 1 "$scratch/printed")
  if ! [[ $last =~ ^([0-9]+)' refused, '([0-9]+)' get past'$ ]]; then
    echo "$crate: its edits were not tried"
    past=$((past + $# + 1))
    return
  fi
  refused=$((refused + BASH_REMATCH[1]))
  past=$((past + BASH_REMATCH[2]))
}

# Tries all edits of a crate, unless it has none, as a crate of tests.
try_crate() {
  local edits=("$PWD/crates/$1/wrong-bodies"/*.edit)
  [ ! -e "${edits[0]}" ] || try_edits "$1" "${edits[@]}"
}

if [ "${1-}" = --telling ]; then
  for edit in "${telling[@]}"; do
    edits+=("$PWD/crates/cj_stream/wrong-bodies/$edit.edit")
  done
  try_edits cj_stream "${edits[@]}"
elif ! python3 tests/mutation/edits.py "$@"; then
  echo "nothing was tried"
  exit 1
else
  for name in "${@:-$(crates)}"; do
    for crate in $name; do
      try_crate "$crate"
    done
  done
fi
echo "$refused passed, $past failed"
[ "$past" = 0 ]
