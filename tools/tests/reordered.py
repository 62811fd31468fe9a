#!/usr/bin/env python3
"""reordered.py [PROGRAM]: tries tools/reorder.py: all examples in random orders, which say the same as before, and some examples in
the order that the program tells, or else the plain program: with it there are as many nodes as were told, and no better order.

It ends with 1 where anything is otherwise.
"""
import random
import shutil
import sys
import tempfile
from pathlib import Path

from exported import TOP, Disk, Text, written  # noqa: I001  (puts bench/ and tools/ on the path)
from reference.talks import answer
from reorder import Source, Unfit, Text as Declared, check, declared, told

FEW = ("bus-joined", "fleet", "trapped")
# so many variables `order` puts in order
MOST = 32


class Beside(Disk):
    """The files of the machine, but one has another text."""

    def __init__(self, name, text):
        super().__init__()
        self.name, self.text = name, text.encode()

    def bytes_of(self, name):
        return self.text if name == self.name else super().bytes_of(name)


def said(text):
    """What a specification says, its order of variables aside."""
    return sorted(map(str, text.variables)), [(line.number, line.role, line.time, line.formulas()) for line in text.lines]


def shuffled(blocks, some):
    """The names in a random order that leaves the monitors among themselves as they are."""
    mixed = some.sample(blocks, len(blocks))
    monitors = iter([block for block in blocks if block.is_monitor])
    return [next(monitors).name if block.is_monitor else block.name for block in mixed]


def wrong_orders(file, some):
    """What is otherwise where an example is put in some orders."""
    source, before = Source(file), Text(file, Disk())
    text = Declared(source)
    for _ in range(5):
        names = shuffled(text.blocks, some)
        try:
            moved = text.in_order(names)
            check(source, names, moved)
        except Unfit as why:
            yield f"{' '.join(names)}: {why}"
            continue
        after = Text(file, Beside(file, moved))
        if said(after) != said(before) or declared(name for name, _, _ in after.variables) != names:
            yield f"{' '.join(names)}: it says something else"
        if sorted("".join(moved.split())) != sorted("".join(text.text.split())):
            yield f"{' '.join(names)}: some signs are lost or new"


def ordered(program, file):
    """What is told of the order of a text's variables."""
    return written(program, "order", file) if program else answer("order", Text(file, Disk()), [])[0]


def unrefused(text, names):
    """What is otherwise where an order is told in which monitors change places: it is refused."""
    try:
        text.in_order(names)
        yield f"{' '.join(names)}: monitors change places"
    except Unfit:
        pass


def wrong_told(program, file, folder):
    """What is otherwise where an example is put in the order that is told."""
    rows = ordered(program, file)
    if len(Text(file, Disk()).variables) > MOST:
        if rows != ["size limit reached"]:
            yield f"{rows} is told of more than {MOST} variables"
        return
    names = told(rows)
    if names is None:
        return
    text = Declared(Source(file))
    monitors = [block.name for block in text.blocks if block.is_monitor]
    if [name for name in names if name in monitors] != monitors:
        yield from unrefused(text, names)
        return
    # (beside the files that it imports)
    beside = shutil.copytree(Path(file).parent, Path(folder) / Path(file).stem)
    better = beside / "better.spectra"
    better.write_text(text.in_order(names))
    if ordered(program, str(better)) != [rows[2], "no better order"]:
        yield f"in the order that is told it isn't {rows[2]}"


def main():
    program, some, failed = sys.argv[1] if len(sys.argv) > 1 else None, random.Random(1), 0
    files = sorted(map(str, (TOP / "examples").glob("*.spectra")))
    with tempfile.TemporaryDirectory() as folder:
        for file in files:
            wrong = list(wrong_orders(file, some))
            if program or Path(file).stem in FEW:
                wrong += wrong_told(program, file, folder)
            for what in wrong:
                print(f"reorder: {file}: {what}")
            failed += len(wrong)
    print(f"reorder: {len(files)} examples, {failed} failed, by the orders of {'the program' if program else 'the plain program'}")
    return 1 if failed else 0


if __name__ == "__main__":
    sys.exit(main())
