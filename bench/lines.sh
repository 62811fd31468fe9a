#!/usr/bin/env bash
# Times the lines that `spectra run` and `spectra many` answer, beside `cat` and `wc -l` on the same file in the same run.
# lines.sh [LINES]: prints a table, with the ratio to `wc -l`; 1,000,000 lines if none are given. Each command runs three
# times, and the least of its seconds counts.
set -euo pipefail
count=${1:-1000000}
source "$(dirname "$0")/program.sh"

python3 "$here/answered.py" "$program" "$here/../examples/arbiter.spectra" "$made/lines" "$count"
