#!/usr/bin/env python3
"""cores.py PROGRAM FOLDER ROUNDS: how long `PROGRAM core` takes on specifications of rising numbers of guarantees.

Five guarantees are spread among the others: the first of four outputs always holds, each holds with the one before it, and
the last never does. No state is legal, so each state is in the environment's first layer, and N is 1 and M 2. Without any
one of the five some outputs meet the rest. What the others ask is met by every output.
"""
import sys

from runs import seconds

CHAIN = ["x0", "x0 -> x1", "x1 -> x2", "x2 -> x3", "!x3"]


def text_of(count):
    """A text with so many guarantees, and the numbers of the core's lines."""
    lines = ["spec Chain", "env boolean a;"] + [f"sys boolean x{i};" for i in range(4)]
    places = [(k + 1) * count // 5 for k in range(5)]
    for number in range(1, count + 1):
        if number in places:
            lines.append(f"gar alw {CHAIN[places.index(number)]};")
        else:
            lines.append(f"gar alw x{number % 4} | !x{number % 4} | (a & x{number // 4 % 4});")
    return "\n".join(lines) + "\n", places


def main():
    program, folder, rounds = sys.argv[1], sys.argv[2], int(sys.argv[3])
    print("| Guarantees | Core | States | s |\n|---|---|---|---|")
    for count in (8, 16, 32):
        path = f"{folder}/chain{count}.spectra"
        body, core = text_of(count)
        with open(path, "w", encoding="ascii") as text:
            text.write(body)
        expected = "unrealizable N=1 M=2\ncore 5\n" + "".join(f"#{number}\n" for number in core)
        took = seconds([program, "core", path], expected, rounds)
        print(f"| {count} | 5 | 32 | {took:.3f} |")


main()
