#!/usr/bin/env python3
"""numbered.py FILE: the place, the name and the text of each numbered line of a specification.

With an answer of the program on its standard input it writes that answer, and behind each #n the line that is meant:
`spectra core FILE | numbered.py FILE`. It reads the words of FILE alone, and can't tell whether the program takes it.

Where its input is empty or a terminal it lists all lines. It ends with 0; with 1 where a number in the answer is none of FILE's, or FILE has no lines that can be read; with 2 at wrong words.
"""
import re
import sys

from texts import Source, Unreadable


def listed(source):
    for line in source.lines:
        print(f"#{line.number}\t{source.shown(line.number)}")
    return 0


def explained(source, answer):
    """Each row of the answer, with the line behind its number; all lines, where there is no answer."""
    status = None
    for row in answer:
        status = status or 0
        found = re.search(r"#(\d+)", row)
        shown = source.shown(int(found.group(1))) if found else ""
        if shown is None:
            shown, status = f"{source.file} has no line {found.group(0)}", 1
        print(row.rstrip("\n") + (f"\t{shown}" if shown else ""), flush=True)
    return listed(source) if status is None else status


def main():
    if len(sys.argv) != 2 or sys.argv[1].startswith("--"):
        print(__doc__, file=sys.stderr)
        return 2
    try:
        source = Source(sys.argv[1])
    except Unreadable as why:
        print(why, file=sys.stderr)
        return 1
    return listed(source) if sys.stdin.isatty() else explained(source, sys.stdin)


if __name__ == "__main__":
    sys.exit(main())
