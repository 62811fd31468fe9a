#!/usr/bin/env python3
"""plain.py COMMAND FILE [INPUT]: what the program should write, by plain sets of states.

COMMAND is one of the program's, or `layers`. The input is that of the file INPUT, or else the standard input, of which each
line is answered before the next is read; `verify` reads it whole. It shares nothing with the crates: a state is some tuples of
values, a set is a Python set, and each greatest or least set is found by going on until nothing changes (reference/). It is
slow: try it on texts of a few hundred states. It reads the whole language of docs/LANGUAGE.md, with what FILE imports, and tells
the fault of a text that is refused.

`layers` writes Z, and for each goal and rank the layer `y` and its parts `x`, one for each assumption. Goals and
assumptions count from 0, ranks from 1. A set has a digit for each state: hidden values, inputs and then outputs, each in
declared order, the first one slowest; a `_` stands where the input changes. The last line has K and who wins.
"""
import os
import sys
import threading
from pathlib import Path

sys.path.insert(0, str(Path(__file__).resolve().parent))

from reference.game import Game  # noqa: E402
from reference.layers import round_count, winning  # noqa: E402
from reference.tables import MOST_BYTES  # noqa: E402
from reference.talks import input_of, talk  # noqa: E402
from reference.text import NoText, Shelf, Text  # noqa: E402

COMMANDS = ("synth", "run", "many", "order", "counter", "core", "separate", "audit", "export", "verify", "layers")
USAGE = f"""usage: plain.py COMMAND FILE [INPUT]
COMMAND is one of {' '.join(COMMANDS)}; without INPUT the standard input is read.
It writes what spectra writes, slowly and without a proof: python3 bench/plain.py run examples/lift.spectra examples/lift.run.in"""


class Disk(Shelf):
    """The files of the machine."""

    def bytes_of(self, name):
        return Path(name).read_bytes() if Path(name).is_file() else None


def digits(game, states):
    width = len(game.all_outputs)
    row = "".join("1" if s in states else "0" for s in game.states)
    return "_".join(row[k : k + width] for k in range(0, len(row), width))


def write_layers(game):
    z, goals = winning(game)
    print("Z", digits(game, z))
    for j, layers in enumerate(goals):
        for rank, (layer, parts) in enumerate(layers, 1):
            print(f"goal {j} rank {rank}")
            print("  y", digits(game, layer))
            for x in parts:
                print("  x", digits(game, x))
    winner = "system" if game.forces(None, z) else "environment"
    print(f"K={round_count(goals)}, the {winner} wins")


def typed():
    """The lines of the standard input, each as it comes."""
    for line in sys.stdin.buffer:
        text = line.decode("utf-8", "replace")
        yield text[:-1].removesuffix("\r") if text.endswith("\n") else text


def given(command, name=None):
    """The input that a command takes: that of a file, or else the standard input."""
    if name is not None:
        return input_of(command, Path(name).read_bytes())
    return sys.stdin.buffer.read(MOST_BYTES + 1) if command == "verify" else typed()


def write(lines):
    """Writes each line as it comes; the status behind the last."""
    while True:
        try:
            print(next(lines), flush=True)
        except StopIteration as end:
            return end.value
        except BrokenPipeError:
            os.dup2(os.open(os.devnull, os.O_WRONLY), sys.stdout.fileno())
            return 9


def main():
    if len(sys.argv) not in (3, 4) or sys.argv[1] not in COMMANDS:
        print(USAGE, file=sys.stderr)
        return 2
    try:
        text = Text(sys.argv[2], Disk())
    except NoText as refused:
        print(refused.line)
        return refused.status
    if sys.argv[1] == "layers":
        write_layers(Game(text))
        return 0
    return write(talk(sys.argv[1], text, given(sys.argv[1], *sys.argv[3:])))


def deep(call):
    """What a call gives, with room for texts whose formulas are deep."""
    threading.stack_size(512 * 1024 * 1024)
    given = []
    thread = threading.Thread(target=lambda: given.append(call()), daemon=True)
    thread.start()
    thread.join()
    return given[0] if given else 1


if __name__ == "__main__":
    try:
        sys.exit(deep(main))
    except KeyboardInterrupt:
        os._exit(130)
