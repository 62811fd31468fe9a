#!/usr/bin/env bash
# Times `spectra core` on specifications of 8, 16 and 32 guarantees, of which five make the core.
# core.sh [ROUNDS]: prints a table; the least seconds of ROUNDS runs count, 5 if none are given.
set -euo pipefail
rounds=${1:-5}
source "$(dirname "$0")/program.sh"

python3 "$here/cores.py" "$program" "$made" "$rounds"
