#!/usr/bin/env python3
"""audited.py PROGRAM LIFT FOLDER COUNT: what `PROGRAM audit` takes to judge logs.

Three logs that break no line go through it: COUNT positions of the lift of the specification LIFT, which goes up and
down and is called where it is; as many of a lift whose floors are numbers, which it goes up and down by; and a 20th as
many of a bus of 64 clients with a line for each, that a request stays until it is granted. Each log is audited by a
specification of the same variables without lines too, which tells how long the lines take to be read. Instructions are
counted by callgrind, on a 20th of the positions and on twice as many: half of the difference is without what comes
before and after the log.
"""
import re
import subprocess
import sys
import time

CLIENTS = 64


def lift_positions(count):
    """The lift is at floors 0, 1, 2, 1 in turn, and is called at each second of them."""
    for k in range(count):
        floor = [0, 1, 2, 1][k % 4]
        called = floor if k % 2 == 1 else None
        yield "blocked=false " + " ".join(
            f"call{f}={'true' if called == f else 'false'} floor{f}={'true' if floor == f else 'false'}" for f in range(3)
        )


FLOORS = """spec Floors
type Floor = Int(0..3);
env boolean call1;
env boolean call2;
env boolean blocked;
sys Floor floor;
sys {UP, DOWN, STAY} move;
sys boolean moved;
gar ini !moved;
gar alw next(moved) <-> next(floor) != floor;
asm alw call1 & floor != 1 -> next(call1);
asm alw call2 & floor != 2 -> next(call2);
gar ini floor = 0;
gar alw move = UP -> next(floor) = floor + 1;
gar alw move = DOWN -> next(floor) = floor - 1;
gar alw move = STAY -> next(floor) = floor;
gar alw blocked -> move = STAY;
"""


def floor_positions(count):
    """The lift goes from floor 0 up to 2 and down again, and is called where it is, each other time."""
    for k in range(count):
        floor, move = [(0, "UP"), (1, "UP"), (2, "DOWN"), (1, "DOWN")][k % 4]
        calls = " ".join(f"call{f}={'true' if floor == f and k % 8 < 4 else 'false'}" for f in (1, 2))
        yield f"{calls} blocked=false floor={floor} move={move} moved={'true' if k else 'false'}"


def bus_positions(count):
    """Each client asks at two of four positions, and is granted at the second of them."""
    rounds = []
    for k in range(4):
        words = []
        for c in range(CLIENTS):
            phase = (k + c) % 4
            words.append(f"r{c}={'true' if phase < 2 else 'false'} g{c}={'true' if phase == 1 else 'false'}")
        rounds.append(" ".join(words))
    for k in range(count):
        yield rounds[k % 4]


def bus():
    variables = [f"env boolean r{c};\nsys boolean g{c};" for c in range(CLIENTS)]
    lines = [f"asm alw r{c} & !g{c} -> next(r{c});" for c in range(CLIENTS)]
    return "\n".join(["spec Bus"] + variables + lines) + "\n"


def without_lines(text):
    return "\n".join(l for l in text.split("\n") if not l.startswith(("asm", "gar"))) + "\n"


def write(path, text):
    with open(path, "w", encoding="ascii") as out:
        out.write(text)
    return path


def seconds(program, specification, log, count):
    """The least seconds of three runs."""
    least = None
    for _ in range(3):
        with open(log, "rb") as lines:
            before = time.perf_counter()
            run = subprocess.run([program, "audit", specification], stdin=lines, stdout=subprocess.PIPE, check=False)
            took = time.perf_counter() - before
        if run.returncode != 0 or run.stdout != b"audit ok %d\n" % count:
            sys.exit(f"{specification}: {run.stdout!r} and status {run.returncode}")
        least = took if least is None else min(least, took)
    return least


def instructions(program, specification, log, count):
    """The instructions of one run."""
    with open(log, "rb") as lines:
        run = subprocess.run(
            ["valgrind", "--tool=callgrind", "--callgrind-out-file=/dev/null", program, "audit", specification],
            stdin=lines,
            capture_output=True,
            check=False,
        )
    if run.stdout != b"audit ok %d\n" % count:
        sys.exit(f"{specification}: {run.stdout!r} under callgrind")
    return int(re.search(rb"Collected : (\d+)", run.stderr).group(1))


def instructions_each(program, specification, folder, positions, count):
    """How many instructions a position takes."""
    both = []
    for many in (count, 2 * count):
        log = write(f"{folder}/counted.log", "".join(p + "\n" for p in positions(many)))
        both.append(instructions(program, specification, log, many))
    return (both[1] - both[0]) / count


def main():
    program, lift, folder, most = sys.argv[1], sys.argv[2], sys.argv[3], int(sys.argv[4])
    with open(lift, encoding="ascii") as text:
        cases = [
            ("lift", text.read(), lift_positions, most),
            ("floors", FLOORS, floor_positions, most),
            ("bus", bus(), bus_positions, most // 20),
        ]
    print("| Log | Positions | s | s without lines | Positions/s | Times reading | Instructions to read | Instructions to judge |")
    print("|---|---|---|---|---|---|---|---|")
    for name, text, positions, count in cases:
        log = write(f"{folder}/{name}.log", "".join(p + "\n" for p in positions(count)))
        lines = write(f"{folder}/{name}.spectra", text)
        none = write(f"{folder}/{name}_read.spectra", without_lines(text))
        whole = seconds(program, lines, log, count)
        read = seconds(program, none, log, count)
        reads = instructions_each(program, none, folder, positions, count // 20)
        judges = instructions_each(program, lines, folder, positions, count // 20) - reads
        print(f"| {name} | {count:,} | {whole:.3f} | {read:.3f} | {count / whole:,.0f} | {whole / read:.2f} | {reads:,.0f} | {judges:,.0f} |")


main()
