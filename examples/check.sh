#!/usr/bin/env bash
# check.sh [PROGRAM]: runs the built program on each example of list.txt and compares what it writes, and its status, with what
# is wanted. A row is a command, a specification and a status; the input is NAME.COMMAND.in, and the output NAME.COMMAND.out.
# PROGRAM is a path or a word on the path. Where it is named and isn't there, the status is 1; where none is named and none is
# built, nothing is run.
built=$(dirname "$0")/../crates/spectra/out/spectra
named=${1:-$built}
if ! program=$(command -v "$named"); then
  if [ $# -eq 0 ]; then
    echo "examples: skipped, since there is no program at $named"
    exit 0
  fi
  echo "examples: there is no program $named"
  exit 1
fi
program=$(realpath "$program")
cd "$(dirname "$0")" || exit 1
passed=0 failed=0
while read -r command name status; do
  input=/dev/null
  [ -f "$name.$command.in" ] && input=$name.$command.in
  written=$("$program" "$command" "$name.spectra" <"$input"; echo "status $?")
  wanted=$(cat "$name.$command.out"; echo "status $status")
  if [ "$written" = "$wanted" ]; then
    passed=$((passed + 1))
  else
    failed=$((failed + 1))
    echo "examples: $command $name.spectra: wrote"
    echo "$written"
  fi
done <list.txt
echo "examples: $passed as written, $failed not"
[ "$failed" -eq 0 ]
