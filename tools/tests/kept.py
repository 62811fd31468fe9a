#!/usr/bin/env python3
"""kept.py [NAME..]: judges the runs of the examples by the lines of their specifications, without any solver.

For each row `run NAME 0` of examples/list.txt (or the names given) it reads NAME.run.in beside NAME.run.out and evaluates every
line at every position, by the plain program's formulas: nothing may be broken; each recurring guarantee holds somewhere, and in
each stretch of K rounds. It can't tell whether the outputs are the ones that the program should choose; it ends with 1 where
anything isn't kept.
"""
import sys
from pathlib import Path

TOP = Path(__file__).resolve().parent.parent.parent
sys.path.insert(0, str(TOP / "bench"))

from reference.game import Game  # noqa: E402
from reference.talks import lines_of, read  # noqa: E402
from reference.text import Shelf, Text  # noqa: E402

EXAMPLES = TOP / "examples"


class Disk(Shelf):
    def bytes_of(self, name):
        return Path(name).read_bytes() if Path(name).is_file() else None


def states_of(game, inputs, outputs):
    """The states of a run, and what is wrong with a line of it."""
    state, states = None, []
    for p, (given, written) in enumerate(zip(inputs, outputs, strict=True), 1):
        x, y = read(game.inputs, given), read(game.outputs, written)
        if x is None or y is None:
            return states, f"line {p} can't be read"
        broken = game.broken_by_input(state, x) or game.broken_by_output(state, x, y)
        if broken:
            return states, f"line {p} breaks #{broken}"
        state = (game.hidden_after(state), x, y)
        states.append(state)
    return states, None


def goals_of(game, states, role):
    """The recurring goals of a player, each by the positions at which it holds."""
    own = {table.key: table for table in game.tables}
    for line in game.lines:
        for test in line.goals(own.get(("line", line.number))) if line.role == role else []:
            yield line.number, [test(game.named(state)) for state in states]


def end_of_rounds(assumed, start, count, length):
    """The position behind the first so many rounds from a start; None where there are fewer."""
    at = start
    for _ in range(count):
        ends = [next((t for t in range(at, length) if row[t]), None) for row in assumed] or [at if at < length else None]
        if None in ends:
            return None
        at = max(ends) + 1
    return at


def judged(name):
    """What isn't kept in a run, and how many goals and positions it has."""
    game = Game(Text(str(EXAMPLES / f"{name}.spectra"), Disk()))
    inputs = lines_of((EXAMPLES / f"{name}.run.in").read_text())
    verdict, *outputs = lines_of((EXAMPLES / f"{name}.run.out").read_text())
    states, wrong = states_of(game, inputs, outputs)
    faults, k = [wrong] if wrong else [], int(verdict.split("K=")[1])
    assumed = [row for _, row in goals_of(game, states, "asm")]
    wanted = list(goals_of(game, states, "gar"))
    for number, row in wanted:
        if not any(row):
            faults.append(f"#{number} never holds")
        for start in range(len(states)):
            end = end_of_rounds(assumed, start, k, len(states))
            if end is not None and not any(row[start:end]):
                faults.append(f"#{number} doesn't hold in {k} rounds from line {start + 1}")
    return faults, len(wanted), len(states)


def main():
    names = sys.argv[1:]
    if names[:1] == ["--help"]:
        print(__doc__, file=sys.stderr)
        return 2
    rows = [row.split() for row in (EXAMPLES / "list.txt").read_text().splitlines()]
    names = names or [name for command, name, status in rows if (command, status) == ("run", "0")]
    bad, goals, positions = 0, 0, 0
    for name in names:
        faults, count, length = judged(name)
        goals, positions, bad = goals + count, positions + length, bad + bool(faults)
        for fault in faults:
            print(f"{name}: {fault}")
    print(f"kept: {len(names)} runs of {positions} positions, {goals} recurring guarantees, {bad} runs not kept")
    return 1 if bad else 0


if __name__ == "__main__":
    sys.exit(main())
