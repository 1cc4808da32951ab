#!/usr/bin/env bash
# Runs a listing program on every file that the second program makes, and compares whole outputs.
#
#   tests/listing.sh PROGRAM [ARGUMENT...]
#
# Its last line is 'N passed, M failed'; its status is 0 only if M is 0 and N is not. `python3 tests/second/files.py FOLDER`
# writes the files, each with the output that it has to give.
set -u
if [[ $# -eq 0 ]]; then
  echo "usage: tests/listing.sh PROGRAM [ARGUMENT...]" >&2
  exit 2
fi

# start FILE: the beginning of an output, for a message
start() {
  head -n 1 "$1" | head -c 60 | tr -d '\0'
}

# compare STEM PROGRAM..: writes STEM.res, which is empty if the program's output for STEM.in is STEM.out
compare() {
  local stem=$1 status
  shift
  "$@" <"$stem.in" >"$stem.came"
  status=$?
  # A status of 128 or more: the program was ended by a signal.
  if cmp -s "$stem.out" "$stem.came" && [[ $status -lt 128 ]]; then
    : >"$stem.res"
  else
    echo "$(basename "$stem"): expected '$(start "$stem.out")' .., came '$(start "$stem.came")' .., status $status" >"$stem.res"
  fi
}
export -f start compare

folder=$(mktemp -d)
trap 'rm -rf "$folder"' EXIT
python3 "$(dirname "$0")/second/files.py" "$folder" || exit 1
for input in "$folder"/*.in; do
  printf '%s\0' "${input%.in}"
done | xargs -0 -P "$(nproc)" -I STEM bash -c 'compare "$@"' bash STEM "$@"
files=$(find "$folder" -name '*.in' | wc -l)
passed=$(find "$folder" -name '*.res' -empty | wc -l)
cat "$folder"/*.res
echo "$passed passed, $((files - passed)) failed"
[[ $passed -eq $files && $passed -gt 0 ]]
