#!/usr/bin/env bash
# Builds the wheel and the source distribution of the Python package, over the library that is
# built.
#
#     packaging/wheel.sh [FOLDER]      (out/wheel if left out)
#
# The wheel has the library inside. Its tag says the oldest glibc that the library runs on.
set -eu
folder=$(realpath -m -- "${1:-$(dirname "$0")/../out/wheel}")
. "$(dirname "$0")/common.sh"
need_library
need_built out/NOTICES
set_epoch

# The first Python that can build a wheel.
builder() {
  local python
  for python in /usr/bin/python3 python3; do
    "$python" -c 'import setuptools, wheel' 2> "$scratch/why" && echo "$python" && return
  done
  return 1
}

# The tag of the platform: the newest version of a symbol that the library takes from glibc.
platform() {
  local other newest
  other=$(objdump -p c/out/libcityseq.so |
    awk '$1 == "NEEDED" && $2 !~ /^lib(c|m)\.so\.6$/ { print $2 }')
  [ -z "$other" ] || stop "libcityseq.so needs ${other//$'\n'/, }, which not every system has"
  newest=$(objdump -T c/out/libcityseq.so | sed -n 's/.*GLIBC_2\.\([0-9][0-9]*\).*/\1/p' |
    sort -n | tail -n 1)
  echo "manylinux_2_${newest:-17}_x86_64"
}

python=$(builder) ||
  stop "setuptools or wheel is missing: 'apt-get install python3-setuptools python3-wheel'"
mkdir -p "$scratch/python" "$folder"
cp -r python/cityseq python/tests python/*.py python/pyproject.toml python/MANIFEST.in \
  python/README.md out/NOTICES "$scratch/python/"
rm -f "$scratch/python/cityseq/libcityseq.so"
find "$scratch/python" -name __pycache__ -prune -exec rm -r {} +
settle "$scratch/python"
tag=$(platform)
(
  cd "$scratch/python"
  CITYSEQ_LIBRARY=$OLDPWD/c/out/libcityseq.so CITYSEQ_PLATFORM=$tag "$python" - "$scratch" <<'PY'
import sys
from contextlib import redirect_stdout

from setuptools import build_meta

folder = sys.argv[1]  # the builds change the list
with redirect_stdout(sys.stderr):
    build_meta.build_wheel(folder)
    build_meta.build_sdist(folder)
PY
) > "$scratch/said" 2>&1 || { tail -n 20 "$scratch/said" >&2; stop 'the wheel was not built'; }

# setuptools packs a source distribution with the times and the user of now: it is packed once more
mkdir "$scratch/sdist"
tar -C "$scratch/sdist" -xzf "$scratch/cityseq-$version.tar.gz"
settle "$scratch/sdist"
pack "$scratch/sdist" "cityseq-$version" "$folder/cityseq-$version.tar.gz"
wheel=cityseq-$version-py3-none-$tag.whl
rm -f "$folder"/cityseq-*.whl
cp "$scratch/$wheel" "$folder/$wheel"
echo "$folder/$wheel"
echo "$folder/cityseq-$version.tar.gz"
