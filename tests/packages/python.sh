#!/usr/bin/env bash
# Tests the Python package over the built library, python/cityseq/libcityseq.so:
#
# - Its own tests.
# - The edges of its command.
# - The test cases of the program, over its command.
# - Its types, by mypy.
# - All Python sources of the repository, by flake8.
# - Their format, by black and isort.
#
# If a package of Python is not there, the tests that need it are left out, and the script says so.
# The last line is 'N passed, M failed' over all, and the status is 0 if none failed.
#
#     tests/packages/python.sh [PYTHON]      (python3 if left out)
set -u
python=$(command -v "${1:-python3}") || exit
cd "$(dirname "$0")/../.." || exit

scratch=$(mktemp -d)
trap 'rm -rf "$scratch"' EXIT
passed=0 failed=0

# each run of the command would compile the package anew
unset PYTHONDONTWRITEBYTECODE
export PYTHONPYCACHEPREFIX=$scratch/compiled

sources='bench bench/run examples packaging packaging/cityseq-run python tests tests/run tools vectors'

own_tests() { cd python && exec "$python" -B -W ignore -m tests; }

edges() { exec tests/packages/package_edges.sh "$python"; }

program() { exec tests/cli/program.sh --package "$python"; }

types() {
  cd python || return
  if ! "$python" -c 'import mypy' 2> "$scratch/noise"; then echo 'left out: mypy is not there' && echo '0 passed, 0 failed' && return; fi
  "$python" -m mypy --strict --cache-dir "$scratch/mypy" -p cityseq > "$scratch/mistakes" && echo '1 passed, 0 failed' && return
  cat "$scratch/mistakes" && echo '0 passed, 1 failed'
}

lint() {
  if ! "$python" -c 'import flake8' 2> "$scratch/noise"; then echo 'left out: flake8 is not there' && echo '0 passed, 0 failed' && return; fi
  "$python" -m flake8 $sources && echo '1 passed, 0 failed' && return
  echo '0 passed, 1 failed'
}

format() {
  local passed=0 failed=0
  for tool in 'black --config python/pyproject.toml' 'isort --settings-file python/pyproject.toml'; do
    if ! "$python" -c "import ${tool%% *}" 2> "$scratch/noise"; then echo "left out: ${tool%% *} is not there" && continue; fi
      if "$python" -m $tool --check $sources; then passed=$((passed + 1)); else
      echo "the format differs: $python -m $tool $sources" && failed=$((failed + 1))
    fi
  done
  echo "$passed passed, $failed failed"
}

# Shows what a part printed, and adds the counts of its last line. One that does not end so counts as one failure.
count() {
  cat "$scratch/$1"
  if [[ $(tail -n 1 "$scratch/$1") =~ ^([0-9]+)' passed, '([0-9]+)' failed'$ ]]; then
    passed=$((passed + BASH_REMATCH[1])) failed=$((failed + BASH_REMATCH[2]))
  else
    echo "$1: it did not say what passed" && failed=$((failed + 1))
  fi
}

parts='own_tests edges program types lint format'
for part in $parts; do "$part" > "$scratch/$part" 2>&1 & done
wait
for part in $parts; do count "$part"; done
echo 'left out: the page of the server in a browser, which tests/packages/serve_browser.py tries'
echo "$passed passed, $failed failed"
[ "$failed" = 0 ]
