#!/usr/bin/env bash
# Times `spectra audit` on logs of two lifts and of a bus of 64 clients, beside the same logs without lines to judge, and counts
# its instructions by callgrind. audit.sh [POSITIONS [PROGRAM]]: prints a table; 200,000 positions if none are given, and the
# program of this checkout, which is built, if no other is given. Each command runs three times, and the least of its seconds counts.
set -euo pipefail
count=${1:-200000}
if [ $# -gt 1 ]; then
  here=$(cd "$(dirname "${BASH_SOURCE[0]}")" && pwd)
  program=$2
  made=$(mktemp -d)
  trap 'rm -rf "$made"' EXIT
else
  source "$(dirname "$0")/program.sh"
fi

python3 "$here/audited.py" "$program" "$here/../examples/lift.spectra" "$made" "$count"
