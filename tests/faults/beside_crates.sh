# Read by scripts that need a small program with the crates. The function put_beside NAME CRATE..
# copies the engine and all crates below it into the folder $scratch. It adds the program
# tests/faults/NAME/main.rattle as a crate NAME, which uses the named crates.
libraries='cj_budget cj_decimal cj_spans cj_geometry cj_feature cj_stream'

put_beside() {
  local crate part
  for crate in $libraries; do
    mkdir -p "$scratch/crates/$crate"
    for part in src specs proofs; do
      [ ! -d "crates/$crate/$part" ] || cp -a "crates/$crate/$part" "$scratch/crates/$crate/"
    done
    grep "^$crate:" crates.txt
  done > "$scratch/crates.txt"
  mkdir -p "$scratch/crates/$1/src"
  cp "tests/faults/$1/main.rattle" "$scratch/crates/$1/src/main.rt"
  echo "$1: ${*:2}" >> "$scratch/crates.txt"
}
