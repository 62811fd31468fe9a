#!/usr/bin/env bash
# A short run of each command, over and over, each time with the next allocation refused; refused_memory.py judges them. Outside of the
# gate: some 4,000 runs, a minute or less.
# refused_memory.sh [PROGRAM]: the runs of PROGRAM, or of crates/spectra, which is proved and built then; refuse.c is loaded before it.
# refused_memory.sh --try STEP LAST: by `rt try --fail-alloc N`, without a proof and with each access to memory checked, each STEP-th
# allocation up to the one of the number LAST. That builds anew each time, and takes 100 s of a processor or more.
set -euo pipefail
if [ "${1:-}" = --try ]; then
  exec python3 "$(dirname "$0")/refused_memory.py" "$@"
fi
asked=${1:-}
source "$(dirname "$0")/program.sh"

"${CC:-cc}" -O2 -shared -fPIC -o "$made/refuse.so" "$here/refuse.c"
python3 "$here/refused_memory.py" "$program" "$made/refuse.so"
