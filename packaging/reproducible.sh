#!/usr/bin/env bash
# Builds all packages twice from one commit, and compares them byte by byte. The second time differs
# in its folder, its time and its umask. With --compile the program and the library are compiled
# twice too, which needs Rattle's toolchain.
#
#     packaging/reproducible.sh [--compile]
#
# The last line is 'N passed, M failed'.
set -u
. "$(dirname "$0")/common.sh"
passed=0 failed=0

# Copies the tree with what is built: the packages are made in copies.
copy_tree() {
  mkdir -p "$1" && cp -a .git VERSION ./*.md .gitignore .gitattributes .editorconfig crates.txt \
    Makefile test debian packaging docs examples python c tests "$1/" &&
    cp -a --parents out/NOTICES crates/cityseq/out/cityseq "$1/"
}

# Makes all packages of a copy: make_packages FOLDER OUTPUT
make_packages() {
  (cd "$1" && packaging/deb.sh "$2" && packaging/wheel.sh "$2" && packaging/dist.sh "$2") \
    > "$scratch/said" 2>&1 || { tail -n 20 "$scratch/said"; stop 'the packages were not built'; }
}

# Counts two files as passed if they are the same bytes.
same() {
  if cmp "$1" "$2"; then
    passed=$((passed + 1))
  else
    failed=$((failed + 1))
  fi
}

copy_tree "$scratch/first" && (umask 022 && make_packages "$scratch/first" "$scratch/a") || exit
copy_tree "$scratch/the second one" || exit
find "$scratch/the second one" -type f ! -path '*/.git/*' -exec touch {} +
sleep 2
(umask 077 && make_packages "$scratch/the second one" "$scratch/b") || exit
for file in "$scratch"/a/*.deb "$scratch"/a/*.whl "$scratch"/a/*.tar.gz "$scratch"/a/SHA256SUMS; do
  same "$file" "$scratch/b/${file##*/}"
done

if [ "${1:-}" = --compile ]; then
  need_rt
  cp crates/cityseq/out/cityseq c/out/libcityseq.a c/out/"$shared" "$scratch/"
  rm -f crates/cityseq/out/cityseq{,.o,.stamp} crates/cityseq_exports/out/libcityseq_exports.* c/out/*
  packaging/build.sh > "$scratch/said" 2>&1 ||
    { tail -n 20 "$scratch/said"; stop 'the program and the library were not built'; }
  same "$scratch/cityseq" crates/cityseq/out/cityseq
  same "$scratch/libcityseq.a" c/out/libcityseq.a
  same "$scratch/$shared" "c/out/$shared"
fi
echo "$passed passed, $failed failed"
[ "$failed" = 0 ]
