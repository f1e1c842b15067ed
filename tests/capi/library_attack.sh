#!/usr/bin/env bash
# Attacks the library for C with changed streams: next to pages that may not be touched, with memory
# that is refused, and from 64 threads. It also attacks it under valgrind, if that is installed. It
# is no part of CI.
#
#     tests/capi/library_attack.sh [SECONDS [SEED]]
#
# SECONDS is the time of all attacks, 600 if none is given. The library must be built by c/build.sh.
# The last line is 'N passed, M failed', and the status is 0 if none failed.
set -u
cd "$(dirname "$0")/../.." || exit
seconds=${1:-600} seed=${2:-$(date +%s)}
scratch=$(mktemp -d)
trap 'rm -rf "$scratch"' EXIT
passed=0 failed=0
quarter=$((seconds / 4 + 1))
streams=(vectors/*.jsonl examples/*.jsonl)

if ! [ -e c/out/libcityseq.a ]; then
  echo 'the library is not built: run c/build.sh' >&2
  exit 2
fi

# Counts an attack as passed if its status is 0, and shows its last lines.
attack() {
  local name=$1
  shift
  if "$@" > "$scratch/printed" 2>&1; then
    passed=$((passed + 1))
  else
    failed=$((failed + 1))
  fi
  echo "$name: $(tail -n 2 "$scratch/printed" | paste -sd ' ')"
}

compile() {
  "${CC:-cc}" -std=c11 -Wall -Wextra -Werror -O2 tests/capi/library_attack.c c/out/libcityseq.a -pthread \
    -Wl,--wrap=malloc,--wrap=realloc,--wrap=free -o "$1"
}

compile "$scratch/attack" || exit 2
for number in $(seq "$(nproc)"); do
  "$scratch/attack" guards "$((2 * quarter))" "$((seed + number))" "${streams[@]}" > "$scratch/guards.$number" 2>&1 &
  started[number]=$!
done
for number in "${!started[@]}"; do
  attack "guards $number" bash -c "tail --pid=${started[number]} -f /dev/null; cat '$scratch/guards.$number'
    grep -q ', 0 failed\$' '$scratch/guards.$number'"
done
attack memory "$scratch/attack" memory "$quarter" "$seed" "${streams[@]}"
attack threads "$scratch/attack" threads "$quarter" "$seed" "${streams[@]}"
if command -v valgrind > "$scratch/unread"; then
  attack 'memory under valgrind' valgrind -q --error-exitcode=9 --leak-check=full \
    "$scratch/attack" memory "$((quarter / 4 + 1))" "$seed" "${streams[@]}"
else
  echo 'left out: valgrind, which is not here'
fi
echo "$passed passed, $failed failed"
[ "$failed" = 0 ]
