#!/usr/bin/env python3
"""reach.py PROGRAM SOLVER FOLDER [LIMIT [FAMILY..]]: a table of the greatest size of each family that each way answers.

Sizes rise along LADDER until a run takes more than LIMIT seconds of processor time (60 where none is given), or writes no
verdict. A text that passes a limit of the language ends the ladder, and then the size has a `+`.
"""
import sys

from families import spec_of
from spec import text
from timed import SIZES
from ways import WAYS, Bench, is_verdict

LADDER = (2, 3, 4, 5, 6, 7, 8, 10, 12, 14, 16, 20, 24, 28, 32, 40, 48, 56, 64, 80, 96, 112, 128, 160, 192, 224, 256)


def fits(family, size):
    spec = spec_of(family, size)
    return len(spec.lines) <= 4096 and len(spec.variables) <= 1024 and len(text(spec)) <= 1 << 20


def reach(bench, way, family):
    """The greatest size that is answered, as a cell of the table."""
    last = "none"
    for size in LADDER:
        if not fits(family, size):
            return f"{last}+"
        said, took = bench.least(way, bench.write(family, size), 1)
        if not is_verdict(said):
            return f"{last}, then {said}" if said else f"{last}"
        last = f"{size}"
    return f"{last}+"


def main():
    program, solver, folder, *more = sys.argv[1:]
    bench = Bench(program, solver, folder, int((more or [60])[0]))
    print("| " + " | ".join(["Family", *(way.column for way in WAYS)]) + " |")
    print("|" + "---|" * (1 + len(WAYS)))
    for family in more[1:] or SIZES:
        print("| " + " | ".join([family, *(reach(bench, way, family) for way in WAYS)]) + " |", flush=True)


if __name__ == "__main__":
    main()
