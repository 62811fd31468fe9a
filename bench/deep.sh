#!/usr/bin/env bash
# What the program does with hostile texts on a small stack.
# deep.sh [WORD]: prints a table of all texts of deep_texts.py, or of those in whose name WORD stands.
set -euo pipefail
source "$(dirname "$0")/program.sh"

python3 "$here/deep.py" "$program" "$@"
