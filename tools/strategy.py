"""An exported table with the names and texts of its specification, for the tools that draw and embed it.

It reads both by the modules of bench/. It doesn't check that the table wins: `spectra verify FILE` does.
"""
import sys
from pathlib import Path

from texts import Source, Unreadable  # noqa: I001  (puts bench/ on the path)

from plain import Disk
from reference.game import Game
from reference.tables import SYSTEM, NoTable, table_of
from reference.talks import shown
from reference.text import NoText, Text


def bytes_of(name):
    """The bytes of a file, or of the standard input where the name is `-`."""
    return sys.stdin.buffer.read() if name == "-" else Path(name).read_bytes()


class Strategy:
    """A specification's table. Goals, assumptions and nodes count from 0 here."""

    def __init__(self, file, table):
        try:
            self.file, self.game = str(file), Game(Text(str(file), Disk()))
            self.table = table_of(self.game, bytes_of(table))
        except NoText as refused:
            raise Unreadable(refused.line) from None
        except NoTable:
            raise Unreadable(f"{table}: no table of {file}; `spectra export {file}` writes one") from None
        except OSError as failed:
            raise Unreadable(f"{failed.filename}: {failed.strerror}") from None
        self.nodes, self.is_controller = self.table.nodes, self.table.kind == SYSTEM
        self.inputs, self.outputs = self.game.inputs, self.game.outputs
        (self.goal_labels, self.goal_tests), (self.asm_labels, self.asm_tests) = map(self.game.recurring, ("gar", "asm"))
        self.source = Source(file)
        if not all(map(self.is_named, self.nodes)) or max(self.table.first, default=-1) >= len(self.nodes):
            raise Unreadable(f"{table}: it names nodes, goals or assumptions that aren't there; `spectra verify {file}` tells where")

    def is_named(self, node):
        """Whether what a node names is there."""
        counted = 1 <= node.goal <= len(self.goal_tests) and 1 <= node.asm <= len(self.asm_tests)
        return counted and max(node.follows, default=-1) < len(self.nodes)

    def holds(self, tests, node):
        """For each of some goals whether it holds at a node."""
        now = self.game.named(node.state)
        return [bool(test(now)) for test in tests]

    def goal_holds(self, node):
        return bool(self.goal_tests[node.goal - 1](self.game.named(node.state)))

    def text_of(self, label):
        """The line of a label, as it is written."""
        return self.source.text(self.source.lines[int(label.split(".")[0]) - 1])

    def goals(self, role):
        """The label and the text of each goal of a player; where nothing recurs there is one that always holds."""
        labels = self.goal_labels if role == "gar" else self.asm_labels
        return [(f"#{label}", self.text_of(label)) for label in labels] or [("true", "nothing recurs")]

    def name_of(self, goal):
        """How a guarantee is called in short: by its line's name, or its label."""
        if not self.goal_labels:
            return "true"
        label = self.goal_labels[goal - 1]
        return self.source.lines[int(label.split(".")[0]) - 1].name or f"#{label}"

    def claim(self):
        return " ".join(f"{name.upper()}={number}" for name, number in self.table.numbers.items())

    def kind(self, node, target):
        """What a move is called: a turn, nearer or waiting for a controller; a shift or a denial for a counterstrategy."""
        holds = self.goal_holds(node)
        if not self.is_controller:
            return "shift" if holds else "denies"
        return "turn" if holds else "nearer" if target.rank < node.rank else "waits"


def item(name, value):
    """A value with its name: a truth value by the name alone."""
    if isinstance(value, bool):
        return name if value else f"!{name}"
    return f"{name}={shown(value)}"


def items(variables, values):
    return [item(name, value) for (name, _), value in zip(variables, values)]
