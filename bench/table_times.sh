#!/usr/bin/env bash
# How long the largest tables of strategies take.
# table_times.sh: prints a table of what `export` and `verify` take, with nodes and bytes.
set -euo pipefail
source "$(dirname "$0")/program.sh"

python3 "$here/table_times.py" "$program" "$made"
