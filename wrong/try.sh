#!/usr/bin/env bash
# try.sh CRATE..: has the prover refuse every wrong body of these crates, those of wrong/ and those of the gate, in a copy of the
# crates. Libraries that stand in out/ go along, so `rt check` in a crate before spares its proof here. It fails where one is
# still proved, or doesn't apply.
set -eu
cd "$(dirname "$0")/.."
if [ $# -eq 0 ]; then
  echo "usage: wrong/try.sh CRATE.."
  exit 2
fi
room=$(mktemp -d)
trap 'rm -rf "$room"' EXIT
cp crates.txt HANDLES "$room"
for folder in crates/*/; do
  to=$room/$folder
  mkdir -p "$to/out"
  for part in src specs proofs; do
    if [ -d "$folder$part" ]; then cp -r "$folder$part" "$to"; fi
  done
  if [ -d "${folder}out/rlib" ]; then cp -rl "${folder}out/rlib" "$to/out" 2>/dev/null || cp -r "${folder}out/rlib" "$to/out"; fi
done
for crate in "$@"; do
  mkdir -p "$room/crates/$crate/must-fail"
  for edits in "crates/$crate/must-fail" "wrong/$crate"; do
    if [ -d "$edits" ]; then cp "$edits"/*.edit "$room/crates/$crate/must-fail"; fi
  done
done
cd "$room"
rt must-fail "$@"
