#!/usr/bin/env bash
# Writes out/NOTICES: the terms of the crates that are compiled into the program and the library, as
# the toolchain has them.
set -eu
. "$(dirname "$0")/common.sh"
need_rt
crates=$(dirname "$(rt doc)")/rattle

# The toolchain's crates that those of this repository use.
used() {
  local name
  sed -n 's/^[^#]*: *//p' crates.txt | tr ' ' '\n' | sort -u | while read -r name; do
    [ -z "$name" ] || [ -d "crates/$name" ] || echo "$name"
  done
}

# These crates, and the crates of the toolchain that their sources use in turn.
all_used() {
  local found next
  found=$(used)
  while :; do
    next=$({ echo "$found"; for crate in $found; do brought_in "$crate"; done; } | sort -u)
    [ "$next" != "$found" ] || break
    found=$next
  done
  echo "$found"
}

# The crates with terms of their own that the sources of a crate of the toolchain use.
brought_in() {
  local name
  grep -rhoE '^ *(pub )?use [a-z_0-9]+::' "$crates/$1/src" | sed -E 's/.*use ([a-z_0-9]+)::/\1/' |
    sort -u | while read -r name; do
      [ -z "$(find "$crates/$name" -maxdepth 1 -name 'LICENSE*' 2> "$scratch/noise")" ] || echo "$name"
    done
}

mkdir -p out
{
  echo 'The program and the library contain code of these crates, as they were ported to Rattle,'
  echo 'under these terms.'
  for crate in $(all_used); do
    terms=$(find "$crates/$crate" -maxdepth 1 -name LICENSE-MIT | head -n 1)
    terms=${terms:-$crates/$crate/LICENSE}
    [ -f "$terms" ] || stop "the toolchain has no terms of $crate"
    printf '\n---- %s\n\n' "$crate"
    cat "$terms"
  done
} > "$scratch/notices"
cp "$scratch/notices" out/NOTICES
