#!/usr/bin/env python3
"""solved.py PROGRAM FOLDER ROUNDS: how long `PROGRAM synth` takes on arbiters of rising size.

An arbiter of n clients has n requests and n grants, no two of which hold together; each request is answered again and
again. Its game has 4^n states and n goals of two ranks each, so K is 1 + 2n.
"""
import sys

from runs import seconds


def arbiter(n):
    """The text for n clients."""
    lines = ["spec Arbiter"]
    lines += [f"env boolean r{i};" for i in range(n)]
    lines += [f"sys boolean g{i};" for i in range(n)]
    lines += [f"gar alw !(g{i} & g{k});" for i in range(n) for k in range(i + 1, n)]
    lines += [f"gar alwEv r{i} -> g{i};" for i in range(n)]
    return "\n".join(lines) + "\n"


def main():
    program, folder, rounds = sys.argv[1], sys.argv[2], int(sys.argv[3])
    print("| Clients | States | K | s |\n|---|---|---|---|")
    for n in range(2, 6):
        path = f"{folder}/arbiter{n}.spectra"
        with open(path, "w", encoding="ascii") as text:
            text.write(arbiter(n))
        took = seconds([program, "synth", path], f"realizable K={1 + 2 * n}\n", rounds)
        print(f"| {n} | {4 ** n:,} | {1 + 2 * n} | {took:.3f} |")


main()
