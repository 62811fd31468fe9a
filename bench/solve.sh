#!/usr/bin/env bash
# Times `spectra synth` on arbiters of 2, 3, 4 and 5 clients, whose games have 16 to 1,024 states.
# solve.sh [ROUNDS]: prints a table; the least seconds of ROUNDS runs count, 5 if none are given.
set -euo pipefail
rounds=${1:-5}
source "$(dirname "$0")/program.sh"

python3 "$here/solved.py" "$program" "$made" "$rounds"
