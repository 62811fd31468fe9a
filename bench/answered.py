#!/usr/bin/env python3
"""answered.py PROGRAM SPECIFICATION FILE COUNT: how many lines a second `PROGRAM run SPECIFICATION` answers, and `many`.

FILE is made of COUNT input lines of the arbiter of two clients: nobody asks, both ask, both ask, client 1 asks, in turn,
so that each client keeps asking until it has what it asked for. The same file is given to `cat` and to `wc -l`; `many` has the
same lines of one session, and of 1,024 sessions in random order, each of which goes through these lines in turn.
"""
import random
import subprocess
import sys
import time

ROUND = [
    "request0=false request1=false",
    "request0=true request1=true",
    "request0=true request1=true",
    "request0=false request1=true",
]


def seconds(command, path):
    """The least seconds of three runs over the file, and the lines that the last wrote."""
    least = None
    for _ in range(3):
        with open(path, "rb") as lines:
            before = time.perf_counter()
            run = subprocess.run(command, stdin=lines, stdout=subprocess.PIPE, check=False)
            took = time.perf_counter() - before
        least = took if least is None else min(least, took)
    return least, run.stdout.count(b"\n"), run.returncode


def write(path, lines):
    with open(path, "w", encoding="ascii") as file:
        file.writelines(line + "\n" for line in lines)


def mixed(count):
    """The lines of 1,024 sessions in random order, the same in each run."""
    chosen, played = random.Random(1), [0] * 1025
    for _ in range(count):
        n = chosen.randint(1, 1024)
        yield f"{n} {ROUND[played[n] % len(ROUND)]}"
        played[n] += 1


def main():
    program, specification, path, count = sys.argv[1], sys.argv[2], sys.argv[3], int(sys.argv[4])
    write(path, (ROUND[k % len(ROUND)] for k in range(count)))
    write(path + "-one", (f"1 {ROUND[k % len(ROUND)]}" for k in range(count)))
    write(path + "-mixed", mixed(count))
    commands = [
        ("spectra run", [program, "run", specification], count + 1, path),
        ("spectra many, one session", [program, "many", specification], count + 1, path + "-one"),
        ("spectra many, 1,024 sessions", [program, "many", specification], count + 1, path + "-mixed"),
        ("cat", ["cat"], count, path),
        ("wc -l", ["wc", "-l"], 1, path),
    ]
    rows = []
    for name, command, expected, given in commands:
        took, written, status = seconds(command, given)
        if written != expected or status != 0:
            sys.exit(f"{name}: {written} lines and status {status}")
        rows.append((name, took))
    base = rows[-1][1]
    print("| Command | Lines | s | Lines/s | Times `wc -l` |\n|---|---|---|---|---|")
    for name, took in rows:
        print(f"| {name} | {count:,} | {took:.3f} | {count / took:,.0f} | {took / base:.1f} |")


main()
