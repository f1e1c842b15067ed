#!/usr/bin/env bash
# Proves and builds the example, and runs it on a stream.
#
#     examples/embed/run.sh [--try] [FILE]      (examples/sample.city.jsonl if left out)
#
# rt takes a program and its libraries from one folder, so the example and copies of the crates that it stands on, with
# what is proved of them, are put side by side in bench/out/embed. Seconds where nothing changed, a minute or two where
# the crates are proved, and as long as their proofs where they are not. With --try it is run with no proof, which takes
# a minute whatever is proved. What rt says is kept in bench/out/embed/log.
set -euo pipefail
is_try=false
[ "${1:-}" != --try ] || { is_try=true && shift; }
input=$(realpath -e -- "${1:-$(dirname "$0")/../sample.city.jsonl}")
cd "$(dirname "$0")/../.."
libraries='cj_budget cj_decimal cj_spans cj_geometry cj_feature cj_stream'
work=bench/out/embed

# Puts these parts of a crate into the workspace: those that rt has to see as they are now.
copy_parts() {
  local from=$1 to=$2 part
  shift 2
  mkdir -p "$to"
  for part in "$@"; do
    rm -rf "${to:?}/$part"
    [ ! -d "$from/$part" ] || cp -r "$from/$part" "$to/$part"
  done
}

# Puts a library there, and what is proved of it unless it is there.
copy_library() {
  local from=crates/$1 to=$work/crates/$1
  copy_parts "$from" "$to" src specs proofs
  $is_try || cmp -s "$from/out/rlib/stamp" "$to/out/rlib/stamp" || copy_parts "$from/out" "$to/out" rlib
}

# Gives the example's files the endings that rt reads. Here they have others, since CI takes files with those in a
# crate that crates.txt names alone.
rename() {
  local file
  find "$work"/crates/embed/{src,specs,proofs} -name "*$1" | while read -r file; do
    mv "$file" "${file%"$1"}$2"
  done
}

mkdir -p "$work/crates"
log=$PWD/$work/log
# below the top it stops CI, so it stays for the run alone
listed=$PWD/$work/crates.txt
trap 'rm -f "$listed"' EXIT
$is_try || (cd crates/cj_stream && rt lib > "$log" 2>&1) || { cat "$log" >&2; exit 3; }
for library in $libraries; do
  copy_library "$library"
  grep "^$library:" crates.txt
done > "$listed"
copy_parts examples/embed "$work/crates/embed" src specs proofs
rename .rattle .rt
rename .logic .antt
echo 'embed: cj_budget cj_feature cj_geometry cj_spans cj_stream' >> "$listed"
cd "$work/crates/embed"
if $is_try; then
  rt try < "$input"
else
  rt run < ../../../../../examples/sample.city.jsonl > "$log" 2>&1 || { cat "$log" >&2; exit 3; }
  out/embed < "$input"
fi
