#!/usr/bin/env python3
"""judged.py SOLVER [NAME:SIZE..]: who wins small specifications of families.py, by the plain program over reached states.

The verdict must be the family's, and the solver's. States that no play reaches aren't looked at: they don't change who wins,
but they may count in K, N and M. With no NAME:SIZE given all of SMALL are judged, most of them in seconds, amba in an hour.
"""
import functools
import subprocess
import sys

from families import spec_of
from reference.game import Game
from reference.layers import Verdict
from reference.text import Shelf, Text
from spec import flat, text

SMALL = [f"{name}{twin}:{size}" for name, sizes in {
    "arbiter": (2, 3), "lift": (2, 3), "buffer": (2,), "patrol": (3, 4), "bus": (2,),
    "requests": (2, 3, 4), "genbuf": (1, 2), "amba": (2,),
}.items() for twin in ("", "_u") for size in sizes]  # fmt: skip


class Reached(Game):
    """A game over the states that plays reach, as numbers. An output is put together variable by variable, as far as no line
    is broken, and what a line says is remembered by what it reads."""

    def __init__(self, given):
        super().__init__(given)
        self.numbers, self.found, self.at, self.seen = {}, [], [], {}
        self.keys = self.hidden_keys + self.input_keys + self.output_keys
        self.first_output = len(self.keys) - len(self.outputs)
        self.judged = [self.reading(line, says) for line, says in self.says.items() if line.role != "asm"]

    def reading(self, line, says):
        """A line, the places of what it reads where it is judged, and with which output its value is known."""
        places = [self.keys.index(key) for key in (says.later if self.waits[line] else says.now)]
        return line, places, max([self.first_output - 1, *places]) - self.first_output + 1

    def number(self, state):
        if state not in self.numbers:
            self.numbers[state] = len(self.found)
            self.found.append(state)
            self.at.append(super().named(state))
        return self.numbers[state]

    @functools.cached_property
    def states(self):
        """All that is reached: each is numbered when it is met, and its moves are made in turn."""
        self.moves(None)
        for state in self.found:
            self.moves(self.numbers[state])
        return range(len(self.found))

    def named(self, state):
        return self.at[state] if isinstance(state, int) else super().named(state)

    def moves(self, before):
        if before not in self.known:
            hidden, checks = self.hidden_after(before), self.checks(before)
            self.known[before] = {
                x: [self.number((hidden, x, y)) for y in self.outputs_after(before, hidden + x, checks)]
                for x in self.all_inputs
                if self.broken_by_input(before, x) is None
            }
        return self.known[before]

    def checks(self, before):
        """The lines that are judged at a move, by the number of outputs that have to be there, with what is remembered."""
        made = [[] for _ in range(len(self.outputs) + 1)]
        for line, places, count in self.judged:
            if before is None if self.waits[line] else line.time == "ini" and before is not None:
                continue
            kept = tuple(self.at[before][key] for key in self.says[line].now) if self.waits[line] else ()
            made[count].append((line, places, self.seen.setdefault((line.number, kept), {})))
        return made

    def outputs_after(self, before, given, checks):
        fronts = [given] if self.is_open(before, given, checks[0]) else []
        for (_, domain), judged in zip(self.outputs, checks[1:]):
            longer = [(*front, v) for front in fronts for v in domain]
            fronts = [front for front in longer if self.is_open(before, front, judged)]
        return [front[self.first_output :] for front in fronts]

    def is_open(self, before, values, judged):
        for line, places, seen in judged:
            key = tuple([values[place] for place in places])
            if key not in seen:
                seen[key] = self.holds(line, before, dict(zip(self.keys, values)))
            if not seen[key]:
                return False
        return True


def main():
    for case in sys.argv[2:] or SMALL:
        family, size = case.split(":")
        spec = spec_of(family, int(size))
        game = Reached(Text("small", Shelf({"small": text(spec).encode()})))
        line = Verdict(game).line()
        command = [sys.argv[1], "numbers", "50000"]
        said = subprocess.run(command, input=flat(spec), capture_output=True, text=True, check=True).stdout
        print(f"{family} {size}: {len(game.states)} states, {line}; the solver: {said}", end="", flush=True)
        wanted = "unrealizable" if family.endswith("_u") else "realizable"
        if {line.split()[0], said.split()[0]} != {wanted}:
            sys.exit(f"{family} {size} should be {wanted}")


main()
