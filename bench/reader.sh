#!/usr/bin/env bash
# Times how long `spectra audit` reads texts of rising length, up to 1 MiB with 1,024 variables and 4,096 lines.
# reader.sh [ROUNDS]: prints a table; the least seconds of ROUNDS runs count, 5 if none are given.
set -euo pipefail
rounds=${1:-5}
source "$(dirname "$0")/program.sh"

python3 "$here/read.py" "$program" "$made" "$rounds"
