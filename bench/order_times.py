#!/usr/bin/env python3
"""order_times.py PROGRAM FOLDER [LIMIT]: how long `order` takes on the families of families.py, at sizes of up to 32 variables, and on
one line of some pairs.

A line of pairs has all first halves declared before all second ones, so that its diagram has 2 to the power of the pairs as many nodes
as it needs. Each run has LIMIT seconds of a processor (60). Put in the order that is told (tools/reorder.py), a text has to have the
nodes that were told, and no better order.
"""
import resource
import subprocess
import sys
from pathlib import Path

from families import spec_of
from spec import text

TOP = Path(__file__).resolve().parent.parent
MOST = 32
SIZES = {
    "arbiter": (8, 16), "lift": (8, 16, 30), "bus": (8, 12, 28), "buffer": (4, 8, 12), "patrol": (8, 16, 30),
    "genbuf": (2, 3, 4), "requests": (3, 5, 8), "amba": (2, 3),
}  # fmt: skip
PAIRS = (4, 6, 8, 10)


def pairs(n):
    names = [f"env boolean a{i};" for i in range(n)] + [f"sys boolean b{i};" for i in range(n)]
    return "\n".join(["spec Pairs", *names, f"gar alw {' | '.join(f'a{i} & b{i}' for i in range(n))};", ""])


def texts():
    """The name of each text, and the text."""
    for family, sizes in SIZES.items():
        for size in sizes:
            yield f"{family} {size}", text(spec_of(family, size))
    for n in PAIRS:
        yield f"{n} pairs", pairs(n)


def ordered(program, file, limit):
    """The lines that are written, and the seconds of a processor."""
    before = resource.getrusage(resource.RUSAGE_CHILDREN)
    try:
        run = subprocess.run(["prlimit", f"--cpu={limit}", program, "order", str(file)], capture_output=True, text=True)
    except FileNotFoundError:
        sys.exit("order_times.py: no prlimit here (util-linux)")
    after = resource.getrusage(resource.RUSAGE_CHILDREN)
    return run.stdout.splitlines(), after.ru_utime + after.ru_stime - before.ru_utime - before.ru_stime


def keeps(program, file, rows, limit):
    """Whether the text in the order that is told has the nodes that are told, and no better order."""
    answer = "\n".join([*rows, ""])
    done = subprocess.run([sys.executable, TOP / "tools/reorder.py", file], input=answer, capture_output=True, text=True)
    if done.returncode != 0:
        # its monitors would change places
        return "monitors" in done.stderr
    again = file.with_name("again.spectra")
    again.write_text(done.stdout)
    return ordered(program, again, limit)[0] == [rows[-1] if rows[1] != "no better order" else rows[0], "no better order"]


def main():
    program, folder, limit = sys.argv[1], Path(sys.argv[2]), int(sys.argv[3]) if len(sys.argv) > 3 else 60
    print("| Text | Variables | Moves in a round | Nodes | In the better order | s |\n|---|---|---|---|---|---|")
    for name, source in texts():
        file = folder / "t.spectra"
        file.write_text(source)
        count = sum(row.split()[0] in ("env", "sys", "monitor") for row in source.splitlines() if row)
        if count > MOST:
            sys.exit(f"{name} has {count} variables")
        rows, seconds = ordered(program, file, limit)
        if not rows:
            print(f"| {name} | {count} | {count * (count - 1)} | | | over {limit} |")
            continue
        if not keeps(program, file, rows, limit):
            sys.exit(f"{name}: in the order that is told it has other nodes, or a better order")
        nodes, better = rows[0].split()[1], rows[2].split()[1] if len(rows) > 2 else "none"
        print(f"| {name} | {count} | {count * (count - 1)} | {nodes} | {better} | {seconds:.2f} |", flush=True)


if __name__ == "__main__":
    main()
