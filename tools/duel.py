#!/usr/bin/env python3
"""duel.py FILE [POSITIONS [SEED]]: plays `spectra counter FILE` against random legal outputs, one row a position.

It draws the loop that the play ends in, or tells which line each output would break where no legal one is left. A loop is told
once its rows came three times in a row, which is a strong hint and no proof that they come for ever.

It ends with 0 where the play ends so; with 1 where POSITIONS (100, if none are given) are over before; with 2 at wrong words; and
with the program's status where the environment doesn't win. $SPECTRA names the program, if it isn't `spectra` on the path.
"""
import itertools
import random
import subprocess
import sys
from pathlib import Path

from texts import Source, Unreadable, program

from reference.text import NoText, Shelf, Text

SAME = 3
ANEW = 2


class Disk(Shelf):
    def bytes_of(self, name):
        return Path(name).read_bytes() if Path(name).is_file() else None


def shown(value):
    return str(value).lower() if isinstance(value, bool) else str(value)


def items(names, values):
    return " ".join(f"{name}={shown(v)}" for name, v in zip(names, values))


class Counter:
    """The environment: the counterstrategy, which is talked to by lines."""

    def __init__(self, file):
        self.process = subprocess.Popen(
            [program(), "counter", file], stdin=subprocess.PIPE, stdout=subprocess.PIPE, text=True, encoding="utf-8", bufsize=1
        )
        self.verdict = self.line()

    def line(self):
        return self.process.stdout.readline().rstrip("\n")

    def reply(self, outputs):
        """The note on a position."""
        self.process.stdin.write(outputs + "\n")
        self.process.stdin.flush()
        return self.line()

    def close(self):
        self.process.stdin.close()
        self.process.stdout.read()
        return self.process.wait()


class Outputs:
    """Finds legal outputs, by asking `audit` of the play so far with each assignment of the outputs behind it."""

    def __init__(self, file, seed):
        self.file, self.random = file, random.Random(seed)
        variables = Text(file, Disk()).variables
        outputs = [(name, domain) for name, owner, domain in variables if owner != "env"]
        names = [name for name, _ in outputs]
        self.all = [items(names, values) for values in itertools.product(*(domain for _, domain in outputs))]
        self.log, self.chosen, self.refused = [], {}, {}

    def broken(self, row):
        """The number of the line that a row breaks behind the play so far; None where it is legal."""
        log = "".join(line + "\n" for line in [*self.log, row])
        done = subprocess.run([program(), "audit", self.file], input=log, capture_output=True, text=True, encoding="utf-8")
        words = done.stdout.split()
        return None if words[:2] == ["audit", "ok"] else words[2] if words[:2] == ["audit", "broken"] else done.stdout.strip()

    def next(self, inputs):
        """Random legal outputs; None where there are none. From the third time on in one place the same ones are chosen again."""
        place = (self.log[-1] if self.log else None, inputs)
        before = self.chosen.setdefault(place, [])
        tried = before[-1:] if len(before) >= ANEW else []
        tried += sorted(self.all, key=lambda _: self.random.random())
        self.refused = {}
        for outputs in tried:
            row = f"{inputs} {outputs}"
            broken = self.broken(row)
            if broken is None:
                before.append(outputs)
                self.log.append(row)
                return outputs
            self.refused.setdefault(broken, outputs)
        return None


def loop_of(rows):
    """How many of the last rows came three times in a row; 0 where none did."""
    for length in range(1, len(rows) // SAME + 1):
        last = rows[-length:]
        if all(rows[-(k + 1) * length : -k * length or None] == last for k in range(SAME)):
            return length
    return 0


def drawn(rows, loop):
    """The rows of a play, each once, with the loop in its margin."""
    first = len(rows) - SAME * loop
    while loop and first > 0 and rows[first - 1] == rows[first - 1 + loop]:
        first -= 1
    for number, row in enumerate(rows[: first + loop] if loop else rows, 1):
        inside = loop and number > first
        mark = " "
        if inside:
            mark = ">" if loop == 1 else "," if number == first + 1 else "'" if number == first + loop else "|"
        yield f"{number:4} {mark} " + " | ".join(part for part in row if part)
    if loop:
        yield f"     the {'row' if loop == 1 else f'{loop} rows'} marked come again and again"


def played(file, counter, outputs, positions):
    """The rows of a play, the length of the loop in which it ends, and whether a dead end was reached."""
    rows = []
    inputs = counter.line()
    while len(rows) < positions:
        answer = outputs.next(inputs)
        if answer is None:
            rows.append((inputs, "no outputs are legal", ""))
            return rows, 0, True
        note = counter.reply(answer)
        rows.append((inputs, answer, note))
        loop = loop_of(rows)
        if loop:
            return rows, loop, False
        inputs = counter.line()
    return rows, 0, False


def tell(source, rows, loop, dead, refused):
    print("\n".join(drawn(rows, loop)))
    notes = [note for _, _, note in (rows[-loop:] if loop else [])]
    for label in sorted({note.split("#")[1] for note in notes if note.startswith("deny")}):
        print(f"denied: #{label}\t{source.shown(int(label.split('.')[0]))}")
    for number, outputs in sorted(refused.items()) if dead else []:
        shown_line = source.shown(int(number[1:])) if number.startswith("#") else number
        print(f"not {outputs}: it breaks {number}\t{shown_line}")
    if not loop and not dead:
        print(f"no loop in {len(rows)} positions")


def main():
    words = sys.argv[1:]
    if not 1 <= len(words) <= 3 or words[0].startswith("--") or not all(w.isdigit() for w in words[1:]):
        print(__doc__, file=sys.stderr)
        return 2
    file = words[0]
    positions = int(words[1]) if len(words) > 1 else 100
    seed = int(words[2]) if len(words) > 2 else 1
    try:
        counter = Counter(file)
        print(counter.verdict)
        if not counter.verdict.startswith("unrealizable"):
            return counter.close()
        outputs = Outputs(file, seed)
        rows, loop, dead = played(file, counter, outputs, positions)
        counter.close()
        tell(Source(file), rows, loop, dead, outputs.refused)
    except (Unreadable, NoText, OSError) as why:
        print(why, file=sys.stderr)
        return 2
    return 0 if loop or dead else 1


if __name__ == "__main__":
    sys.exit(main())
