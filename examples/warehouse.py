#!/usr/bin/env python3
"""warehouse.py [POSITIONS [SEED]]: plays the warehouse robot against a random person, and draws the aisles.

The robot is the controller of warehouse.spectra, which `tools/controller.py` runs; R is the robot, P the person, s the shelf, r the
ramp and d the door; the robot changes its aisle at either end. The person keeps the assumptions: one step at a time, not onto the
robot, and to the door again and again. It is watched that the robot keeps its part, but that it does so always only the proof of
the controller can say.

In a terminal each picture is drawn over the last one; else one follows the other. $SPECTRA names the program, if it isn't `spectra`
on the path. It ends with 0; with 1 where the robot did what it may not; with 2 at wrong words or without a program.
"""
import random
import sys
import time
from pathlib import Path

HERE = Path(__file__).resolve().parent
sys.path.insert(0, str(HERE.parent / "tools"))

from controller import Controller, Ended  # noqa: E402

AISLES, PLACES = 3, 4
SHELF, RAMP, DOOR = (2, 3), (0, 0), (1, 0)
PAUSE = 0.4


class Person:
    """Walks about by chance, and now and then back to the door."""

    def __init__(self, seed):
        self.random, self.at, self.goes_home = random.Random(seed), DOOR, False

    def chance(self, count):
        """A number below this one; the same on each machine for one seed."""
        return int(self.random.random() * count)

    def step(self, robot):
        if self.at == DOOR:
            self.goes_home = False
        elif self.chance(4) == 0:
            self.goes_home = True
        steps = [(self.at[0] + a, self.at[1] + p) for a in (-1, 0, 1) for p in (-1, 0, 1)]
        free = [c for c in steps if 0 <= c[0] < AISLES and 0 <= c[1] < PLACES and c != robot]
        if self.goes_home:
            nearest = min(distance(c, DOOR) for c in free)
            free = [c for c in free if distance(c, DOOR) == nearest]
        # the person never has no way: they may stay, since the robot isn't where they are
        self.at = free[self.chance(len(free))]


def distance(a, b):
    return max(abs(a[0] - b[0]), abs(a[1] - b[1]))


def drawn(person, robot, title):
    """The aisles as a picture, the last one on top."""
    marks = {SHELF: "s", RAMP: "r", DOOR: "d"} | {person: "P", robot: "R"}
    wall = "+---" * PLACES + "+"
    rows = [title, wall]
    for aisle in reversed(range(AISLES)):
        rows.append("|" + "".join(f" {marks.get((aisle, place), '.')} |" for place in range(PLACES)))
        rows.append("|   " + "=" * (4 * PLACES - 7) + "   |" if aisle else wall)
    return rows


def lawful(before, robot, person):
    """Whether the robot may go so: one place along its aisle, or one aisle across at either end, and never to the person."""
    aisles, places = abs(robot[0] - before[0]), abs(robot[1] - before[1])
    across = aisles == 1 and places == 0 and before[1] in (0, PLACES - 1)
    return robot != person and (across or (aisles == 0 and places <= 1))


def show(picture, first):
    if sys.stdout.isatty():
        print("" if first else f"\x1b[{len(picture)}F", end="")
        time.sleep(0 if first else PAUSE)
    elif not first:
        print()
    print("\n".join(row.ljust(48 if sys.stdout.isatty() else 0) for row in picture), flush=True)


def played(positions, seed):
    """Plays so many positions, and returns what the robot did that it may not."""
    person, robot, visits = Person(seed), RAMP, {SHELF: 0, RAMP: 0}
    with Controller(HERE / "warehouse.spectra") as controller:
        for position in range(1, positions + 1):
            if position > 1:
                person.step(robot)
            outputs = controller.step(personAisle=person.at[0], personPlace=person.at[1])
            before, robot = robot, (outputs["aisle"], outputs["place"])
            if robot in visits and (robot != before or position == 1):
                visits[robot] += 1
            title = f"position {position}: at the shelf {visits[SHELF]}, at the ramp {visits[RAMP]}"
            show(drawn(person.at, robot, title), position == 1)
            if not lawful(before, robot, person.at):
                return f"the robot went from {before} to {robot}, and the person is at {person.at}"
    return None


def main():
    words = sys.argv[1:]
    if len(words) > 2 or not all(word.isdigit() for word in words):
        print(__doc__, file=sys.stderr)
        return 2
    positions, seed = [int(word) for word in [*words, *("60", "1")[len(words) :]]]
    try:
        wrong = played(positions, seed)
    except (Ended, OSError) as end:
        print(end, file=sys.stderr)
        return 1 if isinstance(end, Ended) else 2
    if wrong:
        print(wrong, file=sys.stderr)
    return 1 if wrong else 0


if __name__ == "__main__":
    try:
        sys.exit(main())
    except KeyboardInterrupt:
        sys.exit(130)
