#!/usr/bin/env python3
"""read.py PROGRAM FOLDER ROUNDS: how long `PROGRAM audit` reads texts of rising length, with an empty log.

A text of n variables has an enum, n - 1 ranges, as many defines, 16 predicates, and 4n lines with enum names, comparisons,
sums and remainders. A text of arrays is at the limits of length, of elements (1,024), of lines and of a quantifier's numbers (256),
nested twice, and its formulas have nearly as many nodes as they may. It has no fault, and nothing is solved: the log has no position.
"""
import os
import sys

from runs import seconds


def text_of(count):
    """The text of so many variables."""
    lines = ["spec Reader", "env {RED, AMBER, GREEN} light;"]
    lines += [f"{'env' if k % 2 else 'sys'} Int(0..7) level{k};" for k in range(count - 1)]
    lines += [f"define sum{k} := level{k} + level{(k + 1) % (count - 1)};" for k in range(count - 1)]
    lines += [f"predicate within{k}(Int(0..14) low, Int(0..14) high): low + {k} <= high + {k} & low >= 0;" for k in range(16)]
    for k in range(4 * count):
        a, b, c = k % (count - 1), (7 * k + 3) % (count - 1), (11 * k + 5) % (count - 1)
        rest = f"within{k % 16}(sum{a}, sum{b}) & level{a} * 2 + level{b} <= 21 & (level{c} + sum{a}) mod 5 != 6"
        more = f"level{a} - level{b} < 8 | light != GREEN & level{c} + 3 * (level{a} + level{b}) >= 0 & sum{c} < 15"
        lines.append(f"gar r{k}: alw light = RED & level{a} >= 0 -> {rest} & ({more});")
    return "\n".join(lines) + "\n"


def text_of_arrays():
    """Four arrays of 256 elements and 4,096 lines: one over each pair of elements of two arrays, and others over 26 elements each,
    read by sums, in defines and predicates."""
    sorts = ("env boolean", "env Int(0..7)", "sys boolean", "sys Int(0..7)")
    names = ("request_of_each_client", "level_that_is_wanted", "grant_for_each_client", "level_that_is_set")
    lines = ["spec Arrays", *(f"{sort}[256] {name};" for sort, name in zip(sorts, names))]
    lines += [f"define all_are_calm{k} := forall client in {k}..{k + 7}: level_that_is_set[client] < 7;" for k in range(16)]
    lines.append("predicate is_served(Int(0..255) client): request_of_each_client[client] -> grant_for_each_client[client];")
    lines.append("gar each_with_each: alw forall one in 0..255: forall other in 0..255: request_of_each_client[one] | grant_for_each_client[other];")
    for k in range(4095):
        low = 7 * k % 210
        served = f"is_served(client + {k % 20})" if k % 3 else f"request_of_each_client[255 - client] | level_that_is_set[client] < {k % 7 + 1}"
        lines.append(f"gar guarantee_of_row_{k}_that_some_of_these_clients_are_served_in_turn_or_that_all_of_the_others_are_calm_as_each_of_them_may_expect: alw all_are_calm{k % 16} | (forall client in {low}..{low + 25}: grant_for_each_client[client] | {served});")
    return "\n".join(lines) + "\n"


def main():
    program, folder, rounds = sys.argv[1], sys.argv[2], int(sys.argv[3])
    print("| Text | Variables | Lines | Bytes | s |\n|---|---|---|---|---|")
    texts = [("plain", count, 4 * count, text_of(count)) for count in (64, 256, 1024)]
    for sort, count, lines, text in [*texts, ("arrays", 1024, 4096, text_of_arrays())]:
        path = f"{folder}/reader-{sort}{count}.spectra"
        with open(path, "w", encoding="ascii") as file:
            file.write(text)
        took = seconds([program, "audit", path], "audit ok 0\n", rounds)
        print(f"| {sort} | {count:,} | {lines:,} | {os.path.getsize(path):,} | {took:.3f} |")


main()
