#!/usr/bin/env bash
# build.sh [FOLDER]: proves each crate that the program stands on, links the program, puts it into FOLDER (out/bin here, where none
# is given) and its man page beside that, and runs the main job. What is proved already isn't proved again. All that it writes
# elsewhere stands in folders out/, which git ignores.
set -u
cd "$(dirname "$0")" || exit 1
folder=${1:-out/bin}
logic=dac8208d650f15bf
# from nothing: processor minutes in all, those in which the last crates and the program are alone, and GB of disk (bench/README.md)
minutes=180
alone=10
disk=12

if ! found=$(rt version 2>/dev/null); then
  echo "build: rt isn't on the path; the toolchain is rattle-kit (README, Build and run)"
  exit 1
fi
case $found in
  *"logic $logic"*) ;;
  *)
    echo "build: wanted a rattle-kit with logic $logic, found: $found"
    exit 1
    ;;
esac
mkdir -p out || exit 1
log=out/build.log

# the crates that the library of the top call stands on, and it, each with its lines: its share of the work
work=$(awk -F: '!/^#/ && NF { below[$1] = $2 }
  function take(name,  i, n, deps) { if (name in below && !(name in taken)) { taken[name]; n = split(below[name], deps, " "); for (i = 1; i <= n; i++) take(deps[i]) } }
  END { take("spectra_top"); for (name in taken) print name }' crates.txt | while read -r name; do
  echo "$name $(find "crates/$name/src" "crates/$name/specs" "crates/$name/proofs" -type f -exec cat {} + 2>/dev/null | wc -l)"
done)
crates=$(wc -l <<<"$work")
work=${work//$'\n'/;}

# a crate at a time for each processor for which 4 GB are free
memory=$(awk '/^MemAvailable:/ { print int($2 / 1000000) }' /proc/meminfo)
jobs=$((memory / 4 < 1 ? 1 : memory / 4 < $(nproc) ? memory / 4 : $(nproc)))
free=$(df -Pk . | awk 'NR == 2 { print int($4 / 1000000) }')
echo "build: $crates crates, $jobs at a time, each in up to 4 GB of memory ($memory GB are free); from nothing it takes $disk GB of disk ($free GB are free)"
echo "build: from nothing about $minutes processor minutes, so $(((minutes - alone) / jobs + alone)) minutes and more; the log is $log"
if [ "$free" -lt "$disk" ]; then
  echo "build: note: the disk may not suffice"
fi
(cd crates/spectra_top && rt all check --jobs "$jobs") 2>&1 | tee "$log" | awk -v work="$work" '
  BEGIN { all = split(work, row, ";"); for (i = 1; i <= all; i++) { split(row[i], it, " "); lines[it[1]] = it[2]; whole += it[2] }
    "date +%s" | getline start; close("date +%s") }
  /^== / && $2 in lines { done++; so_far += lines[$2]; "date +%s" | getline now; close("date +%s")
    printf "build: minute %d: %d of %d crates, %d%% of the work, last %s\n", (now - start) / 60, done, all, 100 * so_far / whole, $2; fflush() }'
if [ "${PIPESTATUS[0]}" -ne 0 ]; then
  tail -n 5 "$log"
  echo "build: a crate isn't proved"
  exit 1
fi

# `rt run` proves the program itself and builds it. Its own status, 11, says that there is no such file
echo "build: minute $((SECONDS / 60)): the program"
(cd crates/spectra && rt run -- synth none.spectra) >>"$log" 2>&1
status=$? program=crates/spectra/out/spectra
if [ "$status" -ne 11 ] || [ ! -x "$program" ]; then
  tail -n 5 "$log"
  echo "build: the program didn't link"
  exit 1
fi
mkdir -p "$folder" "$folder/../share/man/man1" || exit 1
cp "$program" "$folder/spectra" && cp docs/spectra.1 "$folder/../share/man/man1/spectra.1" || exit 1
echo "build: $folder/spectra, after $((SECONDS / 60)) minutes"
"$folder/spectra" synth examples/lift.spectra && "$folder/spectra" run examples/lift.spectra <examples/lift.run.in
