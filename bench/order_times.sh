#!/usr/bin/env bash
# How long `order` takes on families of texts of up to 32 variables, with what it tells of them.
# order_times.sh [PROGRAM [LIMIT]]: PROGRAM is built where none is given; each run has LIMIT seconds of a processor (60).
set -euo pipefail
asked=${1:-}
source "$(dirname "$0")/program.sh"
python3 "$here/order_times.py" "$program" "$made" "${2:-60}"
