#!/usr/bin/env bash
# Times `spectra synth` on eight families of rising size and their unrealizable twins, beside three ways of a solver over BuDDy
# (Debian's libbdd-dev) in the same run; the verdicts and numbers must agree. families.sh [ROUNDS [PROGRAM [LIMIT [REACH]]]]:
# prints a table of sizes, each run within LIMIT seconds of processor time (10 if none are given), the least of ROUNDS runs
# (1), and where REACH seconds are given a table of how far each way goes in so many. PROGRAM is built where none is given.
set -euo pipefail
rounds=${1:-1} limit=${3:-10} reach=${4:-}
here=$(cd "$(dirname "$0")" && pwd)
if [ $# -ge 2 ]; then
    program=$2 made=$(mktemp -d)
    trap 'rm -rf "$made"' EXIT
else
    source "$here/program.sh"
fi
g++ -O2 -o "$made/solver" "$here/solver.cpp" -lbdd || { echo "families.sh: no BuDDy here (libbdd-dev)" >&2; exit 1; }
python3 "$here/timed.py" "$program" "$made/solver" "$made" "$rounds" "$limit"
[ -z "$reach" ] || python3 "$here/reach.py" "$program" "$made/solver" "$made" "$reach"
