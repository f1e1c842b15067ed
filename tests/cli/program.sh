#!/usr/bin/env bash
# Test cases over the built program: what it writes, what it prints on standard error, and its
# status. Other cases try the commands that the documents show, and their names of code, links and
# lengths.
#
#     tests/cli/program.sh [PROGRAM]
#     tests/cli/program.sh --package PYTHON
#
# With no PROGRAM it builds crates/cityseq, which is quick if nothing changed since the last build.
# With --package, it tries the command of the Python package with this Python, in place of the
# program. That command reads standard input if no file is named, and then must print and return the
# same. The cases that cannot hold for it are listed below, each with its reason.
#
# A test case is a function named case_*, or a block of a document that is marked `console`. If it
# fails, it prints its name, what is wanted and what came. The last line is 'N passed, M failed',
# and the status is 0 if all passed.
set -u
cd "$(dirname "$0")/../.." || exit

limit=8388608 # The usual line limit, in bytes.
skipped=77    # The status of a case that this system cannot try.
documents='README.md docs/GUIDE.md docs/RULES.md' # Their commands are run.
files=' < FILE' # What follows the options in the usage of a command of the program.
package=false    # Whether the command of the package is tried.

# The lines of blocks that are not run with the package's command.
not_shown='^(\$ cityseq.*--help|error: |the stack is |standard input and )'

# What does not hold of the package's command, and why.
not_of_the_package='
case_the_vectors_with_a_peer_that_takes_all   it tries no command
case_a_word_too_many                          a word behind the command names a file
case_a_file_that_is_named                     so does this one
case_a_second_word_that_is_not_utf_8          so does this one, and the names of files are bytes
case_a_folder_as_standard_input               Python itself ends then, before it runs a line
case_a_folder_as_standard_input_of_check      the same
case_less_memory_than_the_limits_ask_for      it takes memory for the lines that come, and not for the limits
case_no_more_memory_than_the_limits_ask_for   Python, and the part and the output that it holds, take more than is left
case_each_allocation_refused_in_turn          it counts the allocations of the program
case_a_stack_that_is_too_small                its threads have stacks of their own
case_one_file_as_input_and_output             it has other words for that
case_one_file_as_input_and_output_of_check    the same
case_one_file_as_input_and_output_of_info     the same
case_one_file_by_two_names                    the same
case_one_file_that_is_empty                   it rejects an empty file too
case_a_gzip_file                              it unpacks what it reads
case_the_example_counts                       it is about the library
case_each_edit_can_be_applied                 it is about the crates
case_the_documents_name_what_is_there         it is about the documents
case_the_documents_link_to_what_is_there_and_are_short   so is this
'

# A header, a feature, and a feature of four vertices whose last index is the one given.
header='{"type":"CityJSON","version":"2.0","transform":{"scale":[1,1,1],"translate":[0,0,0]},"CityObjects":{},"vertices":[]}'
feature='{"type":"CityJSONFeature","id":"b","CityObjects":{"b":{"type":"Building"}},"vertices":[]}'
indexed() {
  lines '{"type":"CityJSONFeature","id":"b1","CityObjects":{"b1":{"type":"Building","geometry":[{"type":"MultiSurface","lod":"2.2","boundaries":[[[0,1,2,'"$1"']]]}]}},"vertices":[[0,0,0],[1000,0,0],[1000,1000,0],[0,1000,0]]}'
}

scratch=$(mktemp -d) # the files of one test case
tools=$(mktemp -d)   # the program, by the name that its texts have
trap 'rm -rf "$scratch" "$tools"' EXIT

# Prints the path of the program, built if it is not given; of a script that runs the package's command.
find_program() {
  if [ "${1:-}" = --package ]; then
    lines "#!$(command -v "${2:-python3}")" 'import sys' 'sys.dont_write_bytecode = False' \
      "sys.pycache_prefix = '$tools/compiled'" "sys.path.insert(0, '$PWD/python')" \
      'from cityseq.__main__ import run' 'run()' > "$tools/command"
    chmod +x "$tools/command"
    echo "$tools/command"
    return
  fi
  if [ $# -gt 0 ]; then
    realpath -e -- "$1"
    return
  fi
  (cd crates/cityseq && rt run -- filter < stdin > "$scratch/build" 2>&1) || { cat "$scratch/build" >&2; return 1; }
  realpath -e crates/cityseq/out/cityseq
}

# Runs the program with these words, on the caller's standard input and output; keeps what it says and its status.
run_onto() {
  timeout 60 "$program" "$@" 2> "$scratch/said"
  echo $? > "$scratch/status"
}

# The same, and what it writes is kept too.
run() {
  run_onto "$@" > "$scratch/written"
}

# Whether the run had this status, said this line, or nothing where it is empty, and wrote what standard input has.
answered() {
  local status said line=${2:+$2$'\n'} well=true
  cat > "$scratch/wanted"
  status=$(cat "$scratch/status")
  [ "$status" = "$1" ] || { differs "status $1" "status $status" && well=false; }
  said=$(cat "$scratch/said"; echo .)
  said=${said%.}
  [ "$said" = "$line" ] || { differs "on standard error $(printf %q "$line")" "$(printf %q "$said")" && well=false; }
  cmp -s "$scratch/written" "$scratch/wanted" ||
    { differs "$(sketch "$scratch/wanted")" "$(sketch "$scratch/written")" && well=false; }
  $well
}

differs() {
  echo "$test_case: wanted $1, got $2"
}

# Describes a file in a line.
sketch() {
  printf '%s bytes, sum %s: %q' "$(wc -c < "$1")" "$(cksum < "$1" | cut -d ' ' -f 1)" "$(head -c 80 "$1" | tr -d '\0')"
}

# Prints lines.
lines() {
  printf '%s\n' "$@"
}

# Prints a line of this many bytes: these two parts, and between them a number of as many digits as are wanting.
padded() {
  printf %s "$2"
  head -c $(($1 - ${#2} - ${#3})) /dev/zero | tr '\0' 1
  lines "$3"
}

# Prints a header of this many bytes.
long_header() {
  padded "$1" "${header%\}},\"metadata\":" '}'
}

# Prints the header, and a feature of this many bytes.
long_line() {
  lines "$header"
  padded "$1" "${feature%\}\},*},\"attributes\":" '}},"vertices":[]}'
}

# ---- what is kept

# The small streams of vectors/, each with its expected result.
case_the_vectors() {
  python3 vectors/try.py cityseq "$program" > "$scratch/written"
  tail -n 1 "$scratch/written" | grep -qx '[0-9]* passed, 0 failed' || { tail -n 20 "$scratch/written"; return 1; }
}

# The script that reports where another checker differs from them. Here that is the program itself,
# which does not differ.
case_the_vectors_with_a_peer() {
  python3 vectors/try.py peer "$program" check --line-limit 1000 > "$scratch/written"
  tail -n 1 "$scratch/written" | grep -qx '[1-9][0-9]* vectors tried, 0 told otherwise' ||
    { tail -n 20 "$scratch/written"; return 1; }
}

# And a checker that calls every stream valid. It must differ for each vector with an invalid line.
case_the_vectors_with_a_peer_that_takes_all() {
  local refused
  refused=$(cut -f 2-5 vectors/table.tsv | grep -c $'^1000\t64\t-\tline ')
  python3 vectors/try.py peer true > "$scratch/written"
  tail -n 1 "$scratch/written" | grep -qx "[1-9][0-9]* vectors tried, $refused told otherwise" ||
    { tail -n 20 "$scratch/written"; return 1; }
}

case_the_sample_is_copied() {
  run filter < examples/sample.city.jsonl
  answered 0 '' < examples/sample.city.jsonl
}

case_a_last_line_without_an_end() {
  printf '%s\n%s' "$header" "$feature" | run filter
  printf '%s\n%s' "$header" "$feature" | answered 0 ''
}

case_blank_lines_are_dropped() {
  lines "$header" '' $' \t\r' "$feature" '' | run filter
  lines "$header" "$feature" | answered 0 ''
}

case_a_line_as_long_as_the_limit() {
  long_line $limit | run filter
  long_line $limit | answered 0 ''
}

case_a_header_as_long_as_the_limit() {
  long_header $limit | run filter
  long_header $limit | answered 0 ''
}

# ---- lines that are refused

case_an_empty_input() {
  run filter < /dev/null
  answered 1 'line 1, byte 0: 1 no header line' < /dev/null
}

case_a_line_one_byte_longer_than_the_limit() {
  long_line $((limit + 1)) | run filter
  lines "$header" | answered 1 "line 2, byte $limit: 2 line too long"
}

case_a_header_one_byte_longer_than_the_limit() {
  long_header $((limit + 1)) | run filter
  answered 1 "line 1, byte $limit: 2 line too long" < /dev/null
}

case_a_character_cut_short() {
  lines "$header" "$feature" $'{"a":"\xe2\x82"}' "$feature" | run filter
  lines "$header" "$feature" | answered 1 'line 3, byte 6: 3 not UTF-8'
}

case_a_comma_before_a_brace() {
  lines "$header" "$feature" '{"type":"CityJSONFeature",}' "$feature" | run filter
  lines "$header" "$feature" | answered 1 'line 3, byte 26: 4 syntax'
}

case_a_line_of_a_form_feed() {
  lines "$header" $' \f' | run filter
  lines "$header" | answered 1 'line 2, byte 1: 4 syntax'
}

case_a_blank_first_line() {
  lines '' "$header" | run filter
  answered 1 'line 1, byte 0: 4 syntax' < /dev/null
}

# Standard input stays open behind the refused line: the program ends without waiting for more.
case_a_refused_line_is_the_end_of_an_open_input() {
  local begun=$SECONDS more
  exec {more}< <(lines "$header" '{x'; exec sleep 50)
  run check <&"$more"
  kill "$!" 2> /dev/null
  exec {more}<&-
  [ $((SECONDS - begun)) -lt 40 ] || { differs 'an end before the input has one' "$((SECONDS - begun)) seconds"; return 1; }
  answered 1 'line 2, byte 1: 4 syntax' < /dev/null
}

case_65_open_arrays() {
  lines "$header" "$feature" "$(printf '[%.0s' {1..65})" | run filter
  lines "$header" "$feature" | answered 1 'line 3, byte 64: 5 nested too deep'
}

case_no_header() {
  lines "$feature" "$header" | run filter
  answered 1 'line 1, byte 0: 10 member missing' < /dev/null
}

case_a_gzip_file() {
  gzip -c examples/town.city.jsonl | run check
  answered 1 'line 1, byte 1: 3 not UTF-8' < /dev/null
}

case_a_text_over_many_lines() {
  printf '{\n  "type": "CityJSON",\n  "version": "2.0"\n}\n' | run check
  answered 1 'line 1, byte 1: 4 syntax' < /dev/null
}

case_a_header_of_another_version() {
  lines "${header/2.0/1.1}" "$feature" | run filter
  answered 1 'line 1, byte 29: 15 wrong version' < /dev/null
}

case_a_second_header() {
  lines "$header" "$header" "$feature" | run filter
  lines "$header" | answered 1 'line 2, byte 0: 10 member missing'
}

case_a_text_that_is_no_object() {
  lines "$header" "$feature" '' '[]' "$feature" | run filter
  lines "$header" "$feature" | answered 1 'line 4, byte 0: 12 wrong kind'
}

case_an_index_past_the_vertices() {
  { lines "$header"; indexed 3; indexed 4; indexed 3; } | run filter
  { lines "$header"; indexed 3; } | answered 1 'line 3, byte 144: 25 vertex index out of range'
}

case_a_number_in_place_of_an_id() {
  lines "$header" "${feature/\"b\"/3}" | run filter
  lines "$header" | answered 1 'line 2, byte 31: 12 wrong kind'
}

case_a_child_that_is_not_there() {
  lines "$header" "${feature/\"Building\"/\"Building\",\"children\":[\"q\"]}" | run filter
  lines "$header" | answered 1 'line 2, byte 85: 21 child not found'
}

case_64_open_arrays() {
  lines "$header" "$(printf '[%.0s' {1..64})" | run filter
  lines "$header" | answered 1 'line 2, byte 64: 4 syntax'
}

# ---- what is asked for

# Prints the header and a feature of this id with a city object of this type.
one_feature() {
  local named=${feature//\"b\"/\"$1\"}
  lines "$header" "${named/Building/$2}"
}

case_a_feature_of_another_id() {
  one_feature b Building | run filter --id c,d
  lines "$header" | answered 0 ''
}

case_an_id_among_others() {
  one_feature b Building | run filter --id c,b,
  one_feature b Building | answered 0 ''
}

case_the_empty_id() {
  one_feature '' Building | run filter --id ''
  one_feature '' Building | answered 0 ''
}

case_one_option_of_two_holds() {
  one_feature b Building | run filter --id b --type Road
  lines "$header" | answered 0 ''
}

# The four vertices run from 0 to 1000 on both axes.
case_a_box_that_touches() {
  { lines "$header"; indexed 3; } | run filter --bbox 1000,1000,2000,2000
  { lines "$header"; indexed 3; } | answered 0 ''
}

case_a_box_that_begins_with_a_minus() {
  { lines "$header"; indexed 3; } | run filter --bbox=-5,-5,-1,-1
  lines "$header" | answered 0 ''
}

case_a_refused_line_that_is_not_asked_for() {
  { lines "$header"; indexed 4; } | run filter --id other
  lines "$header" | answered 1 'line 2, byte 144: 25 vertex index out of range'
}

case_a_header_that_no_box_can_use() {
  lines "${header/0,0,0/1e-19,0,0}" "$feature" | run filter --bbox 0,0,1,1
  answered 1 'line 1, byte 77: 30 transform not fixed' < /dev/null
}

case_a_limit_as_long_as_a_line() {
  lines "$header" "$feature" | run filter --line-limit ${#header}
  lines "$header" "$feature" | answered 0 ''
}

case_a_limit_shorter_than_a_line() {
  lines "$header" "$feature" | run filter --line-limit $((${#header} - 1))
  answered 1 "line 1, byte $((${#header} - 1)): 2 line too long" < /dev/null
}

case_the_greatest_limits() {
  lines "$header" "$feature" | run filter --line-limit 1073741824 --depth 1024
  lines "$header" "$feature" | answered 0 ''
}

# A limit may begin with zeros, or with a plus.
case_limits_with_zeros_and_a_plus() {
  lines "$header" "$feature" | run filter --depth 003 --line-limit=+${#header}
  lines "$header" "$feature" | answered 0 '' || return 1
  lines "$header" "$feature" | run filter --depth=+02
  answered 1 'line 1, byte 56: 5 nested too deep' < /dev/null || return 1
  lines "$header" "$feature" | run filter --line-limit 00$((${#header} - 1))
  answered 1 "line 1, byte $((${#header} - 1)): 2 line too long" < /dev/null
}

case_three_open_and_no_more() {
  lines "$header" "$feature" | run filter --depth 3
  lines "$header" "$feature" | answered 0 ''
}

case_three_open_where_two_may_be() {
  lines "$header" "$feature" | run filter --depth 2
  answered 1 'line 1, byte 56: 5 nested too deep' < /dev/null
}

# ---- check and info

case_a_valid_stream() {
  lines "$header" '' "$feature" ' ' "$feature" | run check
  lines 'valid lines=5 features=2' | answered 0 ''
}

case_a_report() {
  { lines "$header"; indexed 3; } | run info
  lines 'lines 2' 'features 1' 'scale 1e0 1e0 1e0' 'translate 0e0 0e0 0e0' 'type Building 1' 'lod 2 1' 'x 0 1000' 'y 0 1000' \
    'z 0 0' "peak bytes $((${#header} + 210))" 'peak tokens 65' 'peak open 8' | answered 0 ''
}

case_a_report_of_a_header() {
  lines "$header" | run info
  lines 'lines 1' 'features 0' 'scale 1e0 1e0 1e0' 'translate 0e0 0e0 0e0' "peak bytes ${#header}" 'peak tokens 21' \
    'peak open 3' | answered 0 ''
}

case_check_of_a_bad_stream_writes_nothing() {
  { lines "$header"; indexed 3; indexed 4; } | run check
  answered 1 'line 3, byte 144: 25 vertex index out of range' < /dev/null
}

case_info_of_a_bad_stream_writes_nothing() {
  { lines "$header"; indexed 3; indexed 4; } | run info
  answered 1 'line 3, byte 144: 25 vertex index out of range' < /dev/null
}

case_info_of_an_empty_input() {
  run info < /dev/null
  answered 1 'line 1, byte 0: 1 no header line' < /dev/null
}

# ---- going on after invalid lines

# A header and two valid features, with invalid lines and a blank line between them.
several_lines() {
  lines "$header" "$feature" '[]' '' '{}'
  indexed 4
  indexed 3
}
several_told='line 3, byte 0: 12 wrong kind
line 5, byte 0: 10 member missing
line 6, byte 144: 25 vertex index out of range'

case_each_invalid_line_is_told() {
  several_lines | run check --keep-going
  lines 'invalid lines=7 features=2 refused=3' | answered 1 "$several_told"
}

case_all_good_lines_are_copied() {
  several_lines | run filter --keep-going
  { lines "$header" "$feature"; indexed 3; } | answered 1 "$several_told"
}

case_a_part_of_the_good_lines() {
  several_lines | run filter --keep-going --id b1
  { lines "$header"; indexed 3; } | answered 1 "$several_told"
}

case_going_on_in_a_valid_stream() {
  run filter --keep-going < examples/sample.city.jsonl
  answered 0 '' < examples/sample.city.jsonl
  run check --keep-going < examples/sample.city.jsonl
  lines 'valid lines=121 features=120' | answered 0 ''
}

case_going_on_after_a_line_longer_than_the_limit() {
  { long_line $((limit + 1)); lines "$feature"; } | run check --keep-going
  lines 'invalid lines=3 features=1 refused=1' | answered 1 "line 2, byte $limit: 2 line too long"
}

# Nothing is judged of the dropped bytes, however many they are.
case_going_on_after_a_line_of_many_limits() {
  { lines "$header"; head -c $((limit * 5)) /dev/zero | tr '\0' '['; lines '' "$feature"; } | run filter --keep-going
  lines "$header" "$feature" | answered 1 "line 2, byte $limit: 2 line too long"
}

case_a_last_line_that_is_cut_short() {
  { lines "$header" "$feature"; printf %s "${feature:0:50}"; } | run filter --keep-going
  lines "$header" "$feature" | answered 1 'line 3, byte 50: 4 syntax'
}

case_no_going_on_without_a_header() {
  lines "$feature" "$header" "$feature" | run check --keep-going
  answered 1 'line 1, byte 0: 10 member missing' < /dev/null
}

# Every second one of many lines.
case_many_invalid_lines() {
  local n
  { lines "$header"; for n in {1..5000}; do lines '[]' "$feature"; done; } | run filter --keep-going
  [ "$(sort -u "$scratch/said" | wc -l)" = 5000 ] || { differs '5000 lines' "$(sketch "$scratch/said")"; return 1; }
  [ "$(sed 's/^[^:]*: //' "$scratch/said" | sort -u)" = '12 wrong kind' ] || return 1
  [ "$(tail -n 1 "$scratch/said")" = 'line 10000, byte 0: 12 wrong kind' ] || return 1
  lines 'line 10000, byte 0: 12 wrong kind' > "$scratch/said"
  { lines "$header"; for n in {1..5000}; do lines "$feature"; done; } | answered 1 'line 10000, byte 0: 12 wrong kind'
}

# A report comes while the input is still open.
case_a_report_comes_at_once() {
  local report
  mkfifo "$scratch/in" "$scratch/err"
  "$program" filter --keep-going < "$scratch/in" > "$scratch/written" 2> "$scratch/err" &
  exec 3> "$scratch/in" 4< "$scratch/err"
  lines "$header" '[]' >&3
  IFS= read -r -t 60 report <&4
  lines "$feature" >&3
  exec 3>&-
  cat <&4 > "$scratch/rest"
  wait $!
  echo $? > "$scratch/status"
  exec 4<&-
  lines "$report" > "$scratch/said"
  [ ! -s "$scratch/rest" ] && lines "$header" "$feature" | answered 1 'line 2, byte 0: 12 wrong kind'
}

# The program gathers 16 KiB before it writes. It does not wait for the end of the input. What it
# writes here fits into a pipe that nobody reads yet.
case_kept_lines_come_before_the_input_ends() {
  local first second
  mkfifo "$scratch/in" "$scratch/out"
  timeout 60 "$program" filter < "$scratch/in" > "$scratch/out" 2> "$scratch/said" &
  exec 3> "$scratch/in" 4< "$scratch/out"
  { lines "$header"; yes "$feature" | head -n 300; } >&3 2> "$scratch/noise"
  IFS= read -r -t 60 first <&4
  IFS= read -r -t 60 second <&4
  exec 3>&-
  { lines "$first" "$second"; cat <&4; } > "$scratch/written"
  wait $!
  echo $? > "$scratch/status"
  exec 4<&-
  [ "$first$second" = "$header$feature" ] || { differs 'two lines before the input ends' "$first$second"; return 1; }
  { lines "$header"; yes "$feature" | head -n 300; } 2>> "$scratch/noise" | answered 0 ''
}

# ---- an input that stays open

# Runs the program with these words on an input that stays open after the bytes of standard input.
# Keeps what the program writes and prints, and its status. That is 124 if it does not end by
# itself.
run_on_open_input() {
  local process
  mkfifo "$scratch/in"
  timeout 60 "$program" "$@" < "$scratch/in" > "$scratch/written" 2> "$scratch/said" &
  process=$!
  exec 3> "$scratch/in"
  cat >&3 2> "$scratch/noise"
  wait $process
  echo $? > "$scratch/status"
  exec 3>&-
  rm "$scratch/in"
}

case_a_bad_line_is_the_end_of_an_open_input() {
  local command
  for command in check info; do
    lines "$header" "$feature" '[]' | run_on_open_input $command
    answered 1 'line 3, byte 0: 12 wrong kind' < /dev/null || return 1
  done
  lines "$header" "$feature" '[]' | run_on_open_input filter
  lines "$header" "$feature" | answered 1 'line 3, byte 0: 12 wrong kind'
}

case_a_bad_header_is_the_end_of_an_open_input() {
  local command
  for command in check filter info 'check --keep-going' 'filter --keep-going'; do
    lines "$feature" "$header" | run_on_open_input $command
    answered 1 'line 1, byte 0: 10 member missing' < /dev/null || return 1
  done
}

# The program reports the line before its LF comes.
case_a_long_line_is_the_end_of_an_open_input() {
  { lines "$header"; head -c 1001 /dev/zero | tr '\0' '['; } | run_on_open_input check --line-limit 1000
  answered 1 'line 2, byte 1000: 2 line too long' < /dev/null
}

# The program gathers lines before it writes them. Therefore many lines come before the write that
# fails.
case_a_full_device_is_the_end_of_an_open_input() {
  mkfifo "$scratch/in"
  timeout 60 "$program" filter < "$scratch/in" > /dev/full 2> "$scratch/said" &
  exec 3> "$scratch/in"
  { lines "$header"; yes "$feature" | head -n 5000; } 2> "$scratch/noise" | cat >&3 2>> "$scratch/noise"
  wait $!
  echo $? > "$scratch/status"
  exec 3>&-
  answered 4 'write fault' < /dev/null
}

case_going_on_and_info() {
  refuses "$(mistake "unexpected argument '--keep-going' found" "Usage: cityseq info [OPTIONS]$files" '')" info --keep-going
}

case_going_on_twice() {
  refuses "$(mistake "the argument '--keep-going' cannot be used multiple times" "Usage: cityseq check [OPTIONS]$files" '')" \
    check --keep-going --keep-going
}

case_going_on_with_a_value() {
  refuses "$(mistake "unexpected value 'true' for '--keep-going' found; no more were expected" \
    "Usage: cityseq check [OPTIONS]$files" '')" check --keep-going=true
}

case_a_full_device_after_a_report() {
  several_lines | run_onto filter --keep-going > /dev/full
  answered 4 "$several_told"$'\nwrite fault' < /dev/null
}

case_a_full_device_and_check_after_a_report() {
  several_lines | run_onto check --keep-going > /dev/full
  answered 4 "$several_told"$'\nwrite fault' < /dev/null
}

case_a_full_standard_error_and_reports() {
  several_lines | "$program" filter --keep-going > "$scratch/written" 2> /dev/full
  echo $? > "$scratch/status"
  { lines "$header" "$feature"; indexed 3; } | answered 1 ''
}

# ---- trees, and exclusion

# A feature of these city objects. The main one is b.
objects() { printf '{"type":"CityJSONFeature","id":"b","CityObjects":{%s},"vertices":[]}\n' "$1"; }

case_an_object_that_hangs_on_nothing() {
  local command
  for command in check info; do
    { lines "$header"; objects '"b":{"type":"Building"},"c":{"type":"Building"}'; } | run $command --tree
    answered 1 'line 2, byte 78: 31 not reached from the main object' < /dev/null || return 1
  done
  { lines "$header"; objects '"b":{"type":"Building"},"c":{"type":"Building"}'; } | run check
  lines 'valid lines=2 features=1' | answered 0 ''
}

case_an_object_that_hangs_on_nothing_is_left_out() {
  { lines "$header"; objects '"b":{"type":"Building"},"c":{"type":"Building"}'; lines "$feature"; } | run filter --tree --keep-going
  lines "$header" "$feature" | answered 1 'line 2, byte 78: 31 not reached from the main object'
}

case_all_but_what_is_asked_for() {
  { lines "$header"; indexed 3; lines "$feature"; } | run filter --exclude --id b1
  lines "$header" "$feature" | answered 0 '' || return 1
  lines "$header" "$feature" | run filter --exclude
  lines "$header" | answered 0 ''
}

# ---- help, and words that are not understood

case_the_version() {
  run --version < /dev/null
  lines 'cityseq 0.2.0' | answered 0 ''
}

case_the_version_by_a_letter() {
  run -V < /dev/null
  lines 'cityseq 0.2.0' | answered 0 ''
}

# Whether these words all ask for one help. The guide shows it.
same_help() {
  local words
  run $1 < /dev/null
  mv "$scratch/written" "$scratch/help"
  for words in "${@:2}"; do
    run $words < /dev/null
    answered 0 '' < "$scratch/help" || return 1
  done
}

case_help() { same_help --help help -h; }
case_help_of_check() { same_help 'check --help' 'help check' 'check -h'; }
case_help_of_filter() { same_help 'filter --help' 'help filter' 'filter -h'; }
case_help_of_info() { same_help 'info --help' 'help info' 'info -h'; }

# Whether these words are refused with this text, or in silence where it is empty, and nothing is read. The package's command has
# other words, which its own tests try. It must say something, in a few lines.
refuses() {
  local text=$1
  shift
  lines "$header" | { run "$@"; cat > "$scratch/unread"; }
  if $package; then
    grep -q . "$scratch/said" && ! grep -q Traceback "$scratch/said" || { differs 'a mistake' "$(sketch "$scratch/said")"; return 1; }
    : > "$scratch/said"
    text=''
  fi
  answered 2 "$text" < /dev/null || return
  [ "$(cat "$scratch/unread")" = "$header" ] && return
  differs 'an input that is not read' "$(sketch "$scratch/unread")"
  false
}

# The text of a mistake in the words, which may have more lines than one.
mistake() {
  lines "error: $1" '' "${@:2}" "For more information, try '--help'."
}

case_no_word() {
  run --help < /dev/null
  refuses "$(cat "$scratch/written")"
}

case_an_unknown_word() {
  refuses "$(mistake "unrecognized subcommand 'chekc'" "  tip: a similar subcommand exists: 'check'" '' \
    'Usage: cityseq <COMMAND>' '')" chekc
}

case_an_empty_word() {
  refuses "$(mistake "unrecognized subcommand ''" 'Usage: cityseq <COMMAND>' '')" ''
}

case_a_word_too_many() {
  refuses "$(mistake "unexpected argument 'filter' found" "Usage: cityseq filter [OPTIONS]$files" '')" filter filter
}

# A stream is named as what standard input has, and the usage shows how.
case_a_file_that_is_named() {
  local command
  for command in check filter info; do
    refuses "$(mistake "unexpected argument 'town.city.jsonl' found" "Usage: cityseq $command [OPTIONS] < FILE" '')" \
      $command town.city.jsonl || return 1
  done
}

case_an_unknown_option() {
  refuses "$(mistake "unexpected argument '--idd' found" "  tip: a similar argument exists: '--id'" '' \
    "Usage: cityseq filter [OPTIONS]$files" '')" filter --idd b
}

case_an_option_of_another_command() {
  refuses "$(mistake "unexpected argument '--id' found" "Usage: cityseq check [OPTIONS]$files" '')" check --id b
}

case_an_option_given_twice() {
  refuses "$(mistake "the argument '--id <IDS>' cannot be used multiple times" "Usage: cityseq filter [OPTIONS]$files" '')" \
    filter --id b --id c
}

case_an_option_without_its_value() {
  refuses "$(mistake "a value is required for '--id <IDS>' but none was supplied")" filter --id
}

case_a_box_taken_for_an_option() {
  refuses "$(mistake "unexpected argument '-5' found" "Usage: cityseq filter [OPTIONS]$files" '')" filter --bbox -5,0,5,9
}

# Whether this line limit is refused.
refuses_limit() {
  refuses "$(mistake "invalid value '$1' for '--line-limit <BYTES>': $2")" check --line-limit "$1"
}

case_a_line_limit_of_0() {
  refuses_limit 0 '0 is not in 1..=1073741824'
}

case_a_line_limit_above_the_range() {
  refuses_limit 1073741825 '1073741825 is not in 1..=1073741824'
}

case_a_line_limit_that_is_no_number() {
  refuses_limit x 'invalid digit found in string'
}

case_a_depth_above_the_range() {
  refuses "$(mistake "invalid value '1025' for '--depth <LEVELS>': 1025 is not in 1..=1024")" info --depth 1025
}

case_an_unknown_type() {
  refuses 'unknown object type' filter --type Building,building
}

case_a_box_of_three_numbers() {
  refuses 'bad box' filter --bbox 1,2,3
}

case_a_box_of_too_great_a_number() {
  refuses 'box number out of range' filter --bbox 1e18,0,2e18,1
}

case_a_box_with_its_corners_exchanged() {
  refuses 'empty box' filter --bbox 3,0,1,1
}

case_a_type_of_an_extension_that_is_unknown() {
  refuses 'unknown object type' filter --type Building,+Shed
}

case_an_unknown_type_beside_one_of_an_extension() {
  refuses 'unknown object type' filter --extensions --type +Shed,Shed
}

case_a_type_is_judged_before_a_box() {
  refuses 'unknown object type' filter --bbox 1,2,3 --type Shed
}

case_a_word_that_is_not_utf_8() {
  refuses '' $'\xff'
}

case_a_second_word_that_is_not_utf_8() {
  refuses '' filter $'\xff'
}

# Not even the program's name. Some systems put an empty name there. Then the program answers as for
# no words. Other systems do not start such a program.
case_no_arguments_at_all() {
  local text
  command -v python3 > "$scratch/written" || return $skipped
  run --help < /dev/null
  text=$(cat "$scratch/written")
  python3 -c 'import ctypes, os, sys
ctypes.CDLL(None).execv(os.fsencode(sys.argv[1]), (ctypes.c_char_p * 1)(None))
sys.exit(int(sys.argv[2]))' "$program" $skipped < /dev/null > "$scratch/written" 2> "$scratch/said"
  echo $? > "$scratch/status"
  [ "$(cat "$scratch/status")" != $skipped ] || return $skipped
  [ -s "$scratch/said" ] || text=''
  answered 2 "$text" < /dev/null
}

# ---- devices that fail

case_a_folder_as_standard_input() {
  run filter < "$scratch"
  answered 3 'read fault' < /dev/null
}

case_a_folder_as_standard_input_of_check() {
  run check < "$scratch"
  answered 3 'read fault' < /dev/null
}

case_a_closed_standard_input() {
  run filter <&-
  answered 3 'read fault' < /dev/null
}

case_a_closed_standard_output() {
  lines "$header" | run_onto filter >&-
  answered 4 'write fault' < /dev/null
}

case_a_closed_standard_output_and_help() {
  run_onto --help < /dev/null >&-
  answered 4 'write fault' < /dev/null
}

case_a_full_device_and_check() {
  lines "$header" | run_onto check > /dev/full
  answered 4 'write fault' < /dev/null
}

case_a_full_device_and_info() {
  lines "$header" | run_onto info > /dev/full
  answered 4 'write fault' < /dev/null
}

case_a_full_device_and_a_bad_stream() {
  lines "$feature" | run_onto check > /dev/full
  answered 1 'line 1, byte 0: 10 member missing' < /dev/null
}

case_a_full_device_at_the_flush() {
  lines "$header" | run_onto filter > /dev/full
  answered 4 'write fault' < /dev/null
}

case_a_full_device_at_a_write() {
  run_onto filter < examples/sample.city.jsonl > /dev/full
  answered 4 'write fault' < /dev/null
}

case_a_full_device_and_nothing_to_write() {
  run_onto filter < /dev/null > /dev/full
  answered 1 'line 1, byte 0: 1 no header line' < /dev/null
}

case_a_reader_that_goes_away() {
  { lines "$header"; yes "$feature" | head -c 10000000; } 2> "$scratch/noise" | run_onto filter | head -c 10 > "$scratch/written"
  printf %s "${header:0:10}" | answered 4 'write fault'
}

case_a_full_standard_error() {
  "$program" filter < /dev/null > "$scratch/written" 2> /dev/full
  echo $? > "$scratch/status"
  answered 1 '' < /dev/null
}

# ---- memory that is refused

case_less_memory_than_the_limits_ask_for() {
  long_line $limit | (ulimit -v 80000 && run filter) # room for the header, and not for later lines too
  answered 5 'out of memory' < /dev/null
}

case_no_more_memory_than_the_limits_ask_for() {
  long_line $limit > "$scratch/stream"
  (ulimit -v 160000 && run filter < "$scratch/stream")
  answered 0 < "$scratch/stream"
}

case_each_allocation_refused_in_turn() {
  command -v cc > "$scratch/noise" || return $skipped
  tests/faults/refused_growth.sh "$program" > "$scratch/noise" 2>&1 || { cat "$scratch/noise"; false; }
}

# ---- what the system gives the process

case_a_stack_that_is_too_small() {
  command -v python3 > "$scratch/noise" || return $skipped
  tests/cli/stack.py "$program" > "$scratch/noise" 2>&1 || { cat "$scratch/noise"; false; }
}

# Whether the program reads nothing, and leaves the file as it is.
leaves_its_input() {
  lines "$header" "$feature" > "$scratch/stream"
  run_onto "$@" < "$scratch/stream" >> "$scratch/stream"
  mv "$scratch/stream" "$scratch/written"
  lines "$header" "$feature" | answered 2 'standard input and standard output are one file'
}

case_one_file_as_input_and_output() { leaves_its_input filter; }
case_one_file_as_input_and_output_of_check() { leaves_its_input check; }
case_one_file_as_input_and_output_of_info() { leaves_its_input info; }

case_one_file_by_two_names() {
  lines "$header" "$feature" > "$scratch/stream"
  ln "$scratch/stream" "$scratch/other"
  run_onto filter < "$scratch/stream" >> "$scratch/other"
  mv "$scratch/stream" "$scratch/written"
  lines "$header" "$feature" | answered 2 'standard input and standard output are one file'
}

# It has nothing that the run could read again.
case_one_file_that_is_empty() {
  : > "$scratch/stream"
  run_onto check < "$scratch/stream" >> "$scratch/stream"
  mv "$scratch/stream" "$scratch/written"
  answered 1 'line 1, byte 0: 1 no header line' < /dev/null
}

case_one_device_as_input_and_output() {
  run_onto check < /dev/null > /dev/null
  : > "$scratch/written"
  answered 1 'line 1, byte 0: 1 no header line' < /dev/null
}

case_one_file_and_help() {
  lines "$header" > "$scratch/stream"
  run_onto --version < "$scratch/stream" >> "$scratch/stream"
  mv "$scratch/stream" "$scratch/written"
  lines "$header" 'cityseq 0.2.0' | answered 0 ''
}

# ---- the example for embedders

# It is tried with no proof, as that takes a minute whatever is proved: `examples/embed/run.sh` proves it.
case_the_example_counts() {
  head -n 3 examples/sample.city.jsonl > "$scratch/stream"
  examples/embed/run.sh --try "$scratch/stream" > "$scratch/written" 2> "$scratch/noise"
  echo $? > "$scratch/status"
  lines 'buildings 2, geometries 17' | answered 0 '' || { cat "$scratch/noise"; false; }
}

# ---- wrong bodies

# Whether `tests/mutation/wrong_bodies.sh` can apply each: they are not tried here.
case_each_edit_can_be_applied() {
  command -v python3 > "$scratch/noise" || return $skipped
  tests/mutation/edits.py > "$scratch/written" && grep -qx '[1-9][0-9]* edits, 0 that cannot be applied' "$scratch/written" ||
    { cat "$scratch/written"; false; }
}

# ---- ported crates

case_each_ported_crate_does_its_work() {
  command -v python3 > "$scratch/noise" || return $skipped
  tests/docs/crates.py > "$scratch/written" || { cat "$scratch/written"; false; }
}

# ---- columns

# Imports are on one line, as `rt check --fix-imports` writes them. So are texts of streams.
case_definitions_and_proofs_have_at_most_120_columns() {
  ! LC_ALL=C.UTF-8 grep -rnE --include='*.antt' --exclude-dir=out '^.{121,}$' crates |
    grep -vE ':(pub )?use |codes "'
}

# ---- what the documents name

case_the_documents_name_what_is_there() {
  command -v python3 > "$scratch/noise" || return $skipped
  tests/docs/promises.py > "$scratch/noise" || { cat "$scratch/noise"; false; }
}

case_the_page_of_the_proof_is_made_of_the_sources() {
  command -v python3 > "$scratch/noise" || return $skipped
  tests/docs/proof.py > "$scratch/noise" || { cat "$scratch/noise"; false; }
}

case_the_documents_link_to_what_is_there_and_are_short() {
  command -v python3 > "$scratch/noise" || return $skipped
  tests/docs/links.py > "$scratch/noise" || { cat "$scratch/noise"; false; }
}

# ---- what the documents show

# Prints for each block of a document that is marked `console` the number of the line that marks it.
blocks_of() {
  grep -n '^```console$' "$1" | cut -d : -f 1
}

# Prints the block of a document that is marked at this line.
block() {
  tail -n "+$(($2 + 1))" "$1" | sed '/^```$/,$d'
}

# Prints commands that show a command as the block has it, and run it.
step() {
  [ -z "$1" ] || printf "printf '%%s\\\\n' %q\n%s\n" "$1" "$2"
}

# Prints a script that shows each command of a block and runs it. So it prints the block, if all is as the block has it.
script_of() {
  local line shown='' command=''
  while IFS= read -r line; do
    case $line in
      '$ '*) step "$shown" "$command" && shown=$line command=${line#* } ;;
      '> '*) shown+=$'\n'$line command+=$'\n'${line#* } ;;
    esac
  done
  step "$shown" "$command"
}

# Whether the commands of this block print what stands under them, on standard output and standard error together. The package has
# another help, and other words for a mistake.
shown_in() {
  block "$1" "$2" > "$scratch/wanted"
  # the package has help and messages of its own, and does not look at its stack
  if $package && grep -qE "$not_shown" "$scratch/wanted"; then return $skipped; fi
  script_of < "$scratch/wanted" > "$scratch/script"
  PATH=$tools:$PATH timeout 60 bash "$scratch/script" < /dev/null > "$scratch/written" 2>&1
  diff --label shown --label printed -u "$scratch/wanted" "$scratch/written"
}

has_blocks() {
  [ -n "$(blocks_of "$1")" ]
}

# Runs a test case, and counts it.
try() {
  test_case=${*#case_}
  rm -f "$scratch"/*
  touch "$scratch/written" "$scratch/said" "$scratch/status"
  "$@"
  case $? in
    0) passed=$((passed + 1)) ;;
    "$skipped") echo "$test_case: left out, as it cannot be shown here" ;;
    *) echo "$test_case: FAILED" && failed=$((failed + 1)) ;;
  esac
}

# Runs the blocks of a document. There must be at least one.
try_document() {
  local line
  try has_blocks "$1"
  for line in $(blocks_of "$1"); do
    try shown_in "$1" "$line"
  done
}

# Whether a test case is tried: with the package's command some are not.
is_tried() {
  ! $package || ! grep -q "^$1 " <<< "$not_of_the_package"
}

passed=0 failed=0
[ "${1:-}" != --package ] || package=true
if found=$(find_program "$@"); then
  program=$tools/cityseq
  ln -s "$found" "$program"
  for test_case in $(compgen -A function case_); do
    is_tried "$test_case" && try "$test_case"
  done
  for document in $documents; do
    try_document "$document"
  done
else
  echo "there is no program to test" && failed=1
fi
echo "$passed passed, $failed failed"
[ "$failed" = 0 ]
