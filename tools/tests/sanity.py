#!/usr/bin/env python3
"""sanity.py [NAME..]: runs tools/sanity.py on each text of sanity.txt (or on those named), and compares what it says.

$SPECTRA names the program. The time that it tells isn't compared. It ends with 1 where anything differs.
"""
import subprocess
import sys
from pathlib import Path

HERE = Path(__file__).resolve().parent


def cases():
    """The name of each text, the status, and the lines before the last one."""
    for row in (HERE / "sanity.txt").read_text().splitlines():
        if row.startswith("  "):
            last[2].append(row[2:])
        elif not row.startswith("#"):
            last = (row.split()[0], int(row.split()[1]), [])
            yield last


def main():
    differences, count = 0, 0
    for name, status, wanted in list(cases()):
        if sys.argv[1:] and name not in sys.argv[1:]:
            continue
        count += 1
        words = [sys.executable, str(HERE.parent / "sanity.py"), f"{name}.spectra", "600"]
        done = subprocess.run(words, cwd=HERE / "sanity", capture_output=True, text=True, encoding="utf-8")
        *written, last = done.stdout.splitlines() or [""]
        warned = sum("warning: " in row for row in wanted)
        if (written, done.returncode) != (wanted, status) or not last.startswith(f"{warned} warnings, 0 questions open; "):
            differences += 1
            print(f"sanity: {name}: status {done.returncode}, not {status}, or other lines:\n{done.stdout}{done.stderr}")
    print(f"sanity: {count} texts, {differences} answered otherwise")
    return 1 if differences or not count else 0


if __name__ == "__main__":
    sys.exit(main())
