#!/usr/bin/env bash
# Tests the library for C. It builds the library, and runs the example and the tests in C and C++
# over it. It also runs them under valgrind and sanitizers, if these are installed.
#
#     tests/capi/library.sh [PROGRAM [--built]]
#
# PROGRAM is the built program, crates/cityseq/out/cityseq if none is given. With the option, the
# library in c/out is taken as it is. The last line is 'N passed, M failed', and the status is 0 if
# all passed.
set -u
cd "$(dirname "$0")/../.." || exit
program=$(realpath -e -- "${1:-crates/cityseq/out/cityseq}") || exit
scratch=$(mktemp -d)
trap 'rm -rf "$scratch"' EXIT
passed=0 failed=0
compiler=${CC:-cc}
strict='-std=c11 -Wall -Wextra -Werror -O2 -D_GNU_SOURCE'

# Counts a command as passed if its status is 0. Otherwise it shows what the command printed.
test_case() {
  local name=$1
  shift
  if "$@" > "$scratch/printed" 2>&1; then
    passed=$((passed + 1))
  else
    failed=$((failed + 1))
    echo "$name: failed"
    tail -n 20 "$scratch/printed"
  fi
}

# Adds the counts of a command's last line.
count() {
  local last
  "$@" > "$scratch/printed" 2>&1
  last=$(tail -n 1 "$scratch/printed")
  if [[ $last =~ ^([0-9]+)' passed, '([0-9]+)' failed'$ ]]; then
    passed=$((passed + BASH_REMATCH[1]))
    failed=$((failed + BASH_REMATCH[2]))
    [ "${BASH_REMATCH[2]}" = 0 ] || cat "$scratch/printed"
  else
    failed=$((failed + 1))
    echo "$*: it did not say what passed"
    tail -n 20 "$scratch/printed"
  fi
}

# Whether the example prints for a stream what the program prints, with the same status.
example_agrees() {
  local wanted status
  "$scratch/example" "$1" > "$scratch/example_said"
  status=$?
  wanted=$("$program" check < "$1" 2>&1)
  [ "$(cat "$scratch/example_said")" = "$wanted" ] && { "$program" check < "$1" > "$scratch/unread" 2>&1; [ $? = "$status" ]; }
}

if [ "${2:-}" = --built ]; then
  test_case 'the library is built' test -e c/out/libcityseq.a -a -e c/out/libcityseq.so
else
  test_case 'the library is built' c/build.sh
fi
test_case 'the example is compiled' \
  "$compiler" $strict c/example.c c/out/libcityseq.a -o "$scratch/example"
test_case 'the tests are compiled' \
  "$compiler" $strict tests/capi/library.c c/out/libcityseq.a -pthread -o "$scratch/library"
test_case 'the tests are compiled over the shared library' \
  "$compiler" $strict tests/capi/library.c -Lc/out -lcityseq -Wl,-rpath,"$PWD/c/out" -pthread -o "$scratch/shared"
for language in gcc:c:c99 gcc:c:c11 g++:c++:c++11 clang:c:c99 clang:c:c11 clang++:c++:c++11; do
  IFS=: read -r by of standard <<< "$language"
  if command -v "$by" > "$scratch/unread"; then
    test_case "the header by $by as $standard" "$by" "-std=$standard" \
      -Wall -Wextra -Wpedantic -Werror -fsyntax-only -x "$of" c/cityseq.h
  else
    echo "left out: the header by $by as $standard, for want of the compiler"
  fi
done
for stream in examples/*.city.jsonl vectors/byte-order-mark.jsonl; do
  test_case "the example on $stream" example_agrees "$stream"
done
test_case 'the example on no file' eval '! "$scratch/example" "$scratch/none"'
count "$scratch/library" cases
count "$scratch/shared" cases
test_case 'the worked examples are compiled' \
  "$compiler" $strict tests/capi/library_worked.c c/out/libcityseq.a -o "$scratch/worked"
count "$scratch/worked"
test_case 'the tests of the stack are compiled' \
  "$compiler" $strict tests/capi/library_stack.c c/out/libcityseq.a -pthread -o "$scratch/stack"
count "$scratch/stack"
test_case 'the tests of the memory are compiled' \
  "$compiler" $strict -Wl,--wrap=malloc,--wrap=realloc,--wrap=free tests/capi/library_memory.c c/out/libcityseq.a -o "$scratch/memory"
count "$scratch/memory"
cpp_compiler=${CXX:-c++}
strict_cpp='-std=c++17 -Wall -Wextra -Wpedantic -Werror -O1 -g'
if ! command -v "$cpp_compiler" > "$scratch/unread"; then
  echo 'left out: streams of C++, for want of a compiler'
else
  sanitizers='-fsanitize=address,undefined -fno-sanitize-recover=all'
  echo 'int main() {}' | "$cpp_compiler" $sanitizers -x c++ - -o "$scratch/sanitized" 2> "$scratch/unread" || {
    sanitizers=
    echo 'left out: sanitizers, which the compiler does not have'
  }
  test_case 'the tests of streams are compiled' \
    "$cpp_compiler" $strict_cpp $sanitizers tests/capi/library_stream.cpp c/out/libcityseq.a -o "$scratch/stream"
  count "$scratch/stream" vectors examples
  test_case 'the tests of helpers are compiled' \
    "$cpp_compiler" $strict_cpp $sanitizers tests/capi/library_helpers.cpp c/out/libcityseq.a -o "$scratch/helpers"
  count "$scratch/helpers"
fi
if command -v valgrind > "$scratch/unread"; then
  test_case 'test cases under valgrind' \
    valgrind -q --error-exitcode=9 --leak-check=full "$scratch/library" cases
  test_case 'the example under valgrind' \
    valgrind -q --error-exitcode=9 --leak-check=full "$scratch/example" examples/town.city.jsonl
else
  echo 'left out: test cases under valgrind, which is not here'
fi
count python3 tests/capi/library.py "$scratch/library" "$program"
count python3 tests/capi/library_features.py c/out/libcityseq.so "$program"
echo "$passed passed, $failed failed"
[ "$failed" = 0 ]
