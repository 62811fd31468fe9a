#!/usr/bin/env python3
"""timed.py PROGRAM SOLVER FOLDER [ROUNDS [LIMIT [FAMILY..]]]: how long each way takes on each specification of SIZES.

The verdicts must be what the family says, and the numbers agree. Seconds are processor time, the least of ROUNDS runs (1 where
none is given); a run of more than LIMIT seconds (10) is ended, and larger sizes of the family aren't tried that way. Nodes are
the least budget, of powers of two, with which there is still a verdict within twice the seconds and one more; they are
looked for where a run takes less than a twentieth of the limit.
"""
import sys

from families import FAMILIES
from ways import WAYS, Bench, is_verdict

SIZES = {
    "arbiter": (16, 32, 64, 80),
    "arbiter_u": (8, 16, 64, 80),
    "lift": (8, 16, 48, 96),
    "lift_u": (8, 16, 48, 96),
    "buffer": (2, 4, 8, 16, 48),
    "buffer_u": (2, 4, 8, 16, 24),
    "patrol": (16, 32, 64, 80),
    "patrol_u": (16, 32, 64, 80),
    "bus": (4, 8, 12, 20, 64),
    "bus_u": (4, 8, 12, 20, 64),
    "requests": (3, 5, 8, 10, 20, 40, 64),
    "requests_u": (3, 5, 8, 10, 20, 40, 64),
    "genbuf": (2, 3, 5, 10, 20, 32),
    "genbuf_u": (2, 3, 5, 10, 20, 32),
    "amba": (2, 3, 4, 5, 6, 8),
    "amba_u": (2, 3, 4, 5, 6, 8),
}


def checked(family, size, way, said, numbers):
    """Ends where a verdict isn't the family's, or its numbers aren't those that another way wrote."""
    word = "unrealizable" if family.endswith("_u") else "realizable"
    if not is_verdict(said):
        return
    if said.split()[0] != word or said.split()[1:] and numbers.setdefault("line", said) != said:
        sys.exit(f"{family} {size}: {way.column} says {said}; {numbers}")


def cells(bench, way, stem, said, took):
    """The seconds, or what is said instead, and the nodes."""
    if not is_verdict(said):
        return [f"over {bench.limit}" if not said else f"{said} after {took:.2f}", ""]
    if took > bench.limit / 20:
        return [f"{took:.3f}", ""]
    return [f"{took:.3f}", f"{bench.nodes(way, stem, int(2 * took) + 1):,}"]


def row(bench, family, size, rounds, going):
    """A row of the table. Ways that give no verdict leave those that are going."""
    stem, numbers, made = bench.write(family, size), {}, []
    for way in WAYS:
        if way not in going:
            made += ["", ""]
            continue
        said, took = bench.least(way, stem, rounds)
        checked(family, size, way, said, numbers)
        made += cells(bench, way, stem, said, took)
        if not is_verdict(said):
            going.remove(way)
    return [family, str(size), numbers.get("line", ""), *made]


def main():
    program, solver, folder, *more = sys.argv[1:]
    bench = Bench(program, solver, folder, int(more[1]) if len(more) > 1 else 10)
    columns = [column for way in WAYS for column in (f"{way.column}, s", "nodes")]
    print("| " + " | ".join(["Family", "Size", "Verdict", *columns]) + " |")
    print("|" + "---|" * (3 + len(columns)))
    for family in more[2:] or SIZES:
        going = list(WAYS)
        for size in SIZES[family]:
            print("| " + " | ".join(row(bench, family, size, int((more or [1])[0]), going)) + " |", flush=True)


if __name__ == "__main__":
    assert set(SIZES) == {name + twin for name in FAMILIES for twin in ("", "_u")}
    main()
