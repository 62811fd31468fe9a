#!/usr/bin/env bash
# test.sh [PROGRAM]: tries the tools, the patterns and the drawn warehouse with the built program, and without it the recorded runs
# of the examples, and that bench/fuzz.py finds what is wrong. Pages, graphs and controllers in C are tried with it, or else with the
# plain program. What each should write stands in tests/. A program that is named and isn't there is a failure; where none is named and
# none is built, what needs one is skipped, and said to be.
named=$1
[ -n "$named" ] && named=$(command -v "$named") && named=$(realpath "$named")
[ $# -gt 0 ] && [ -z "$named" ] && echo "tools: no program $1" && exit 1
cd "$(dirname "$0")/.." || exit 1
SPECTRA=${named:-$PWD/crates/spectra/out/spectra}
export SPECTRA
failed=0

# writes FILE STATUS COMMAND..: the command writes what FILE has, and ends with the status
writes() {
  local file=tools/tests/$1 status=$2 written
  shift 2
  written=$("$@" 2>/dev/null; echo "status $?")
  if [ "$written" != "$(cat "$file"; echo "status $status")" ]; then
    failed=$((failed + 1))
    echo "tools: $* didn't write $file with status $status, but"
    echo "$written"
  fi
}

passes() { "$@" || failed=$((failed + 1)); }

passes python3 tools/tests/kept.py
reordered() { printf 'nodes 9\norder %s\nnodes 8\n' "$1" | tools/reorder.py tools/tests/reordered.spectra; }
writes reordered.out 0 reordered "d f e seen c b a"
writes nothing.out 1 reordered "d f e seen c b"
unordered() { echo "node budget 2 reached" | tools/reorder.py tools/tests/reordered.spectra; }
writes nothing.out 1 unordered
passes python3 bench/fuzz.py --self-test
if [ ! -x "$SPECTRA" ]; then
  passes python3 tools/tests/patterns.py
  passes python3 tools/tests/reordered.py
  passes python3 tools/tests/drawn.py
  passes python3 tools/tests/embedded.py
  echo "tools: the rest is skipped, since there is no program at $SPECTRA"
  exit $((failed > 0))
fi

explained() { "$SPECTRA" core examples/stuck.spectra | tools/numbered.py "$1"; }
writes numbered.out 0 explained examples/stuck.spectra
listed() { tools/numbered.py examples/stuck.spectra </dev/null; }
writes numbered-all.out 0 listed
writes numbered-other.out 1 explained examples/door.spectra
writes nothing.out 1 tools/numbered.py tools/tests/none.spectra
writes duel-stuck.out 0 tools/duel.py examples/stuck.spectra 40 2
writes duel-tank.out 0 tools/duel.py examples/tank.spectra 40 2
writes duel-bus-split.out 0 tools/duel.py examples/bus-split.spectra
writes duel-short.out 1 tools/duel.py examples/bus-split.spectra 3
writes duel-door.out 1 tools/duel.py examples/door.spectra
begun() { tools/controller.py examples/arbiter.spectra <tools/tests/begun.in; }
writes begun.out 6 begun
writes ../../examples/warehouse.txt 0 examples/warehouse.py 13 4
for tool in controller.py numbered.py duel.py sanity.py draw.py embed.py reorder.py; do
  writes nothing.out 2 "tools/$tool"
done
writes nothing.out 2 examples/warehouse.py fast
writes refused.out 3 tools/sanity.py tools/tests/refused.spectra
late() {
  tools/sanity.py examples/door.spectra 0 | grep -v asked
  return "${PIPESTATUS[0]}"
}
writes late.out 3 late

passes python3 tools/tests/talks.py
passes python3 tools/tests/sanity.py
passes python3 tools/tests/patterns.py "$SPECTRA"
passes python3 tools/tests/reordered.py "$SPECTRA"
passes python3 tools/tests/drawn.py "$SPECTRA"
passes python3 tools/tests/embedded.py "$SPECTRA"
echo "tools: $failed failed"
exit $((failed > 0))
