#!/usr/bin/env bash
# Proves and builds the library for C: c/out/libcityseq.a and c/out/libcityseq.so. It copies the
# second for the Python package. It takes a minute if the crates below are proved already.
#
#     c/build.sh [--after-ci]
#
# CI leaves the libraries of the crates as it has proved them. `rt lib` would prove them all again.
# With the option, the script takes these libraries as they are, and proves only the crate of the
# exports over them. It writes nothing below crates/, because CI may still run.
set -eu
cd "$(dirname "$0")/.."
kit=$(dirname "$(rt doc)")
below="cj_budget cj_decimal cj_spans cj_geometry cj_feature cj_stream cityseq_c"

# Returns whether the libraries are those that CI left. Those of another command have a stamp.
are_of_ci() {
  local crate
  for crate in $below; do
    [ -e "crates/$crate/out/rlib/$crate.rlib/format" ] && ! [ -e "crates/$crate/out/rlib/stamp" ] || return 1
  done
}

# Proves the crate over them, and compiles it, with the options that `rt lib` gives the compiler.
build_over_them() {
  local crate words=(--crate-name cityseq_exports src/lib.rt --crate-type staticlib --links cityseq_exports= --jobs 1)
  words+=(--extern "std=$kit/rlibs/std.rlib" -L "dependency=$kit/rlibs")
  for crate in cj_stream cityseq_c; do words+=(--extern "$crate=../$crate/out/rlib/$crate.rlib"); done
  for crate in $below; do words+=(-L "dependency=../$crate/out/rlib"); done
  words+=(--antt-project "$kit/rattle/logic/antt-project.json" --logic-built "$kit/logic_built")
  (cd crates/cityseq_exports && "$kit/bin/rattle" build "${words[@]}" --toolchain "$kit/toolchain" --backend llvm -o "../../$built")
}

mkdir -p c/out
if [ "${1:-}" = --after-ci ] && are_of_ci; then
  built=c/out/libcityseq_exports.a
  build_over_them >&2
else
  built=crates/cityseq_exports/out/libcityseq_exports.a
  (cd crates/cityseq_exports && rt lib >&2)
fi
system=$kit/c/liblibc_c.a
printf 'CREATE c/out/libcityseq.a\nADDLIB %s\nADDLIB %s\nSAVE\nEND\n' "$built" "$system" | ar -M
# The name has the number of the interface, so a program never runs over an interface other than the
# one that it was built for.
interface=$(sed -n 's/^#define CITYSEQ_INTERFACE \([0-9][0-9]*\).*/\1/p' c/cityseq.h)
shared=libcityseq.so.$interface
rm -f c/out/libcityseq.so*
"${CC:-cc}" -shared -o "c/out/$shared" -Wl,-soname,"$shared" -Wl,-z,relro,-z,now,-z,defs -Wl,--version-script=c/cityseq.map \
  -Wl,--whole-archive "$built" -Wl,--no-whole-archive "$system"
ln -s "$shared" c/out/libcityseq.so
mkdir -p python/cityseq
# It is a new file, because to write over the old one would break a process that has it open.
cp --remove-destination c/out/libcityseq.so python/cityseq/libcityseq.so
