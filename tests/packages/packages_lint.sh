#!/usr/bin/env bash
# Looks at what packages are made of, in some seconds: versions, manual pages, completions, headers,
# 'make', and an installation into a folder with a space. It installs nothing, and says what it
# leaves out for want of a tool.
#
#     tests/packages/packages_lint.sh [PROGRAM]      (crates/cityseq/out/cityseq if left out)
#
# The library is that in c/out.
# The last line is 'N passed, M failed', and the status is 0 where none failed.
set -u
program=$(realpath -m -- "${1:-$(dirname "$0")/../../crates/cityseq/out/cityseq}")
cd "$(dirname "$0")/../.." || exit
scratch=$(mktemp -d) || exit
trap 'rm -rf "$scratch"' EXIT
version=$(cat VERSION)
passed=0 failed=0

# Counts a command as passed if its status is 0, and shows what it printed else.
test_case() {
  local name=$1
  shift
  if "$@" > "$scratch/printed" 2>&1; then
    passed=$((passed + 1))
  else
    failed=$((failed + 1))
    echo "$name: failed"
    tail -n 20 "$scratch/printed"
  fi
}

# Whether a command is there; else says that something is left out.
have() {
  command -v "$1" > "$scratch/unread" && return
  echo "left out: $2, for want of $1"
  return 1
}

# ---- one version

program_has_version() { [ "$("$program" --version)" = "cityseq $version" ]; }
package_has_version() {
  PYTHONPATH=python python3 -B -m cityseq --version | grep -qE "^cityseq(-run)? $version\$"
}

# The library answers its version where it has the call.
library_has_version() {
  python3 - c/out/libcityseq.so "$version" <<'PY'
import ctypes
import sys

library = ctypes.CDLL(sys.argv[1])
if hasattr(library, "cityseq_version"):
    text = ctypes.create_string_buffer(64)
    length = library.cityseq_version(text, ctypes.c_size_t(64))
    sys.exit(text.raw[:length].decode() != sys.argv[2])
PY
}

debian_has_version() {
  mkdir -p "$scratch/tree/debian" &&
    SOURCE_DATE_EPOCH=0 packaging/debian.py "$scratch/tree" 'Nobody <nobody@example.org>' 7 &&
    head -n 1 "$scratch/tree/debian/changelog" | grep -qF "cityseq ($version)" &&
    grep -qx 'Package: libcityseq7' "$scratch/tree/debian/control" &&
    ! grep -q '@[A-Z]*@' "$scratch/tree/debian/control"
}

# Whether a copy of the tree with another version is refused.
finds_another_version() {
  cp --parents -r README.md CHANGELOG.md c/*.h crates/*/src packaging python/cityseq/*.py \
    tests/*.sh tests/*/*.sh tests/capi/library.c "$scratch/" && echo 9.9.9 > "$scratch/VERSION" || return
  ! "$scratch/packaging/version.py" > "$scratch/said" && grep -q 'lib.rt has' "$scratch/said"
}

test_case 'all files name one version' packaging/version.py
test_case 'a version that differs is found' finds_another_version
test_case 'the program has it' program_has_version
test_case 'the package has it' package_has_version
test_case 'the library has it' library_has_version
test_case 'the Debian packages have it' debian_has_version

# ---- manual pages and completions

pages_pass_lint() {
  # what is not said on a system that lacks the pages that are referred to
  mandoc -Tlint packaging/man/* 2>&1 |
    grep -v -e 'referenced manual not found' -e 'outdated mandoc.db' > "$scratch/lint"
  [ ! -s "$scratch/lint" ] || { cat "$scratch/lint"; false; }
}

test_case 'pages and completions have the options that the help has' packaging/options.py "$program"
have mandoc 'the layout of manual pages' &&
  test_case 'manual pages pass mandoc -Tlint' pages_pass_lint

# Prints how a shell completes each line of standard input.
in_bash() {
  bash -c 'for file in packaging/completions/*.bash; do . "$file"; done
    while IFS= read -r line; do
      IFS=" " read -ra COMP_WORDS <<< "$line"
      [[ $line != *" " ]] || COMP_WORDS+=("")
      COMP_CWORD=$((${#COMP_WORDS[@]} - 1)) COMPREPLY=()
      "_${COMP_WORDS[0]//-/_}"
      printf "%s\n" "${COMPREPLY[*]}"
    done'
}
in_fish() {
  fish --no-config -c 'for file in packaging/completions/*.fish; source $file; end
    while read -l line
      set -l found (complete -C $line | string replace -r "\t.*" "")
      echo "$found"
    end'
}
in_zsh() { tests/packages/complete.zsh packaging/completions | sed 's/^.*[ ]\([^ ]\)/\1/; s/,* *$//'; }

# Whether a shell completes these lines so.
completes() {
  printf '%s\n' 'cityseq che' 'cityseq filter --ke' 'cityseq info --lin' 'cityseq help fil' \
    'cityseq filter --type Road,TINR' 'cityseq-run exp' 'cityseq-run info --lo' \
    'cityseq-run filter --output-d' 'cityseq-run filter --type Railw' 'cityseq-run check --format s' \
    'cityseq-run explain 25' > "$scratch/lines"
  printf '%s\n' check --keep-going --line-limit filter Road,TINRelief explain --lods \
    --output-dir Railway sarif 25 > "$scratch/wanted"
  "$1" < "$scratch/lines" > "$scratch/completed" && diff "$scratch/wanted" "$scratch/completed"
}

test_case 'bash completes' completes in_bash
have fish 'completion in fish' && test_case 'fish completes' completes in_fish
have zsh 'completion in zsh' && test_case 'zsh completes' completes in_zsh

# ---- headers

# Whether a program that includes a header, twice, is compiled without a warning: is_clean COMPILER
# STANDARD HEADER.
is_clean() {
  local language=c
  [[ $2 != *++* ]] || language=c++
  printf '#include "%s"\n#include "%s"\n' "$3" "$3" |
    "$1" -std="$2" -x $language -Wall -Wextra -Wpedantic -Werror -fsyntax-only -Ic -
}

for compiler in gcc clang; do
  have "$compiler" "the headers by $compiler" || continue
  for standard in c99 c11 c++11; do
    test_case "cityseq.h as $standard by $compiler" is_clean "$compiler" "$standard" cityseq.h
  done
  [ ! -f c/cityseq.hpp ] ||
    test_case "cityseq.hpp as c++17 by $compiler" is_clean "$compiler" c++17 cityseq.hpp
done

# ---- make, and installation

# Whether a command fails with this text in one line.
fails_with() {
  local text=$1
  shift
  "$@" > "$scratch/said" 2> "$scratch/wrong" && return 1
  grep -v '^make' "$scratch/wrong" > "$scratch/lines"
  cat "$scratch/lines"
  [ "$(wc -l < "$scratch/lines")" = 1 ] && grep -qF -- "$text" "$scratch/lines"
}

help_names_all_targets() {
  make > "$scratch/help" || return
  for target in build check quick install uninstall deb wheel dist bench help; do
    grep -q "^$target  *[a-z]" "$scratch/help" || { echo "no $target"; return 1; }
  done
}

# Whether the scripts of a folder are listed with a line each, and another name is refused.
lists_scripts() {
  "$1/run" > "$scratch/listed" && grep -qE '^  [a-z_/]+  +[A-Z].{20}' "$scratch/listed" &&
    ! grep -E '^  [a-z_/]+ *$' "$scratch/listed" && ! "$1/run" nothing 2> "$scratch/said" &&
    grep -qx 'no nothing' "$scratch/said"
}

# Whether scripts run by their names, each with its arguments.
runs_scripts() {
  bench/run make_stream tiny 0 -- make_stream tiny 0 > "$scratch/said" &&
    [ "$(grep -c '"type":"CityJSON",' "$scratch/said")" = 2 ]
}

installs_and_removes() {
  local folder="$scratch/a folder" flags
  local -x PKG_CONFIG_PATH="$folder/lib/pkgconfig"
  make -s install PREFIX="$folder" &&
    [ "$("$folder/bin/cityseq" --version)" = "cityseq $version" ] &&
    flags=$(pkg-config --cflags --libs "cityseq = $version") &&
    eval "${CC:-cc} c/example.c -o '$scratch/example' $flags" &&
    LD_LIBRARY_PATH="$folder/lib" "$scratch/example" examples/town.city.jsonl |
    grep -qx 'valid lines=5 features=4' &&
    make -s uninstall PREFIX="$folder" && [ -z "$(find "$folder" ! -type d)" ]
}

# A copy of the tree that has nothing built.
mkdir "$scratch/bare"
cp -r Makefile VERSION packaging debian python "$scratch/bare/"
rm -f "$scratch/bare/python/cityseq/libcityseq.so"
mkdir "$scratch/bare/c" && cp c/*.h "$scratch/bare/c/"
# all commands but some of Debian's and that of the toolchain
mkdir "$scratch/few" && ln -s /usr/bin/* "$scratch/few/" 2> "$scratch/unread"
rm -f "$scratch"/few/{dpkg-buildpackage,dh,objdump,rt}

test_case 'make alone shows its targets' help_names_all_targets
for folder in tests bench; do test_case "$folder/run lists all" lists_scripts $folder; done
test_case 'bench/run runs by name' runs_scripts
test_case 'the first command of README' tests/cli/first_command.sh "$program"
have pkg-config 'an installation' && test_case 'a folder with a space' installs_and_removes
test_case 'no rights to install' fails_with 'set PREFIX' make -s install PREFIX=/proc/cityseq
for target in install deb wheel dist; do
  test_case "no build for $target" fails_with "run 'make build'" \
    make -s -C "$scratch/bare" "$target" PREFIX="$scratch/none"
done
few=(env PATH="$scratch/few" make -s)
test_case 'no tool for deb' fails_with 'dpkg-dev' "${few[@]}" deb
test_case 'no tool for wheel' fails_with 'binutils' "${few[@]}" wheel
test_case 'no toolchain to build' fails_with 'rt is missing' "${few[@]}" -C "$scratch/bare" build
echo "$passed passed, $failed failed"
[ "$failed" = 0 ]
