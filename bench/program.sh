# Sourced by the scripts that time the program: makes the folder $made, which goes at the end, and tells the program as $program: that
# of the name $asked, where the script sets that, or else the one of crates/spectra, which is built.
here=$(cd "$(dirname "${BASH_SOURCE[0]}")" && pwd)
made=$(mktemp -d)
trap 'rm -rf "$made"' EXIT
if [ -n "${asked:-}" ]; then
  program=$(realpath "$(command -v "$asked")")
else
  program=$here/../crates/spectra/out/spectra
  (cd "$here/../crates/spectra" && rt run --jobs 2 -- synth t.spectra >/dev/null 2>"$made/log") || [ $? -eq 1 ] || { cat "$made/log" >&2; exit 1; }
fi
