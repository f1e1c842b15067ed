#!/usr/bin/env bash
# Builds the Debian packages over the program and the library that are built.
#
#     packaging/deb.sh [FOLDER]      (out/deb if left out)
#
# DEBFULLNAME and DEBEMAIL name the maintainer of the packages, who is the author of the last commit
# if they are not set.
set -eu
folder=$(realpath -m -- "${1:-$(dirname "$0")/../out/deb}")
. "$(dirname "$0")/common.sh"
need_built crates/cityseq/out/cityseq
need dpkg-buildpackage dpkg-dev
need dh debhelper
need dh_python3 dh-python
need_built out/NOTICES
need_library
set_epoch
/usr/bin/python3 -c 'import setuptools, wheel' 2> "$scratch/why" ||
  stop "setuptools or wheel is missing: 'apt-get install python3-setuptools python3-wheel'"
maintainer=$(commit_line 2)
[ -z "${DEBEMAIL:-}" ] || maintainer="${DEBFULLNAME:-cityseq} <$DEBEMAIL>"

# Copies what the packages are made of. Debian's tools write next to the folder of the sources and
# stop at odd names, so this is not done in place.
tree=$scratch/cityseq-$version
mkdir -p "$tree" "$folder"
cp --parents -r VERSION CHANGELOG.md README.md debian packaging docs examples/*.jsonl \
  c/*.h c/*.c c/out out/NOTICES crates/cityseq/out/cityseq python "$tree"
for header in c/*.hpp; do [ ! -f "$header" ] || cp --parents "$header" "$tree"; done
printf '%s\n%s\n' "$SOURCE_DATE_EPOCH" "$maintainer" > "$tree/packaging/commit"
find "$tree" -name __pycache__ -prune -exec rm -r {} +
packaging/debian.py "$tree" "$maintainer" "$interface"
settle "$tree"

(cd "$tree" && dpkg-buildpackage -b -us -uc) > "$scratch/said" 2>&1 ||
  { tail -n 30 "$scratch/said" >&2; stop 'the packages were not built'; }
rm -f "$folder"/*.deb "$folder"/*.changes "$folder"/*.buildinfo
cp "$scratch"/*.deb "$scratch"/*.changes "$scratch"/*.buildinfo "$folder/"
[ -z "${VERBOSE:-}" ] || cat "$scratch/said"
for package in "$folder"/*.deb; do echo "$package"; done
