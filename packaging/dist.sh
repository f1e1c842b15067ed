#!/usr/bin/env bash
# Writes two tarballs, and SHA256SUMS over them: the sources of the last commit, and what is built
# of them.
#
#     packaging/dist.sh [FOLDER]      (out/dist if left out)
#
# The second one unpacks anywhere. It has the program in bin/, the libraries in lib/, the headers in
# include/, and the rest in share/. By their own files, pkg-config and CMake find the library there.
set -eu
folder=$(realpath -m -- "${1:-$(dirname "$0")/../out/dist}")
. "$(dirname "$0")/common.sh"
need git git
need_built crates/cityseq/out/cityseq out/NOTICES
need_library
set_epoch
[ -e .git ] || stop 'the sources are taken from the last commit: run this in a clone'
[ -z "$(git status --porcelain)" ] || echo 'what is not committed is not in the source tarball' >&2

mkdir -p "$folder"
sources=cityseq-$version-source.tar.gz
git -c tar.umask=022 archive --format=tar --prefix="cityseq-$version/" HEAD |
  gzip -9n > "$folder/$sources"

name=cityseq-$version-linux-x86_64
documents=$scratch/$name/share/doc/cityseq
PREFIX=/$name DESTDIR=$scratch LIBDIR='' ZSHDIR='' RELOCATABLE=1 packaging/install.sh install
mkdir -p "$documents/examples"
cp README.md CHANGELOG.md SECURITY.md docs/GUIDE.md docs/RULES.md \
  docs/VERSIONS.md out/NOTICES "$documents/"
cp c/example.c examples/*.city.jsonl "$documents/examples/"
settle "$scratch/$name"
pack "$scratch" "$name" "$folder/$name.tar.gz"
(cd "$folder" && sha256sum "$sources" "$name.tar.gz" > SHA256SUMS)
for file in "$sources" "$name.tar.gz" SHA256SUMS; do echo "$folder/$file"; done
