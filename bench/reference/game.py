"""The states of a text, the legal moves from each, and what the players can force.

A state has three tuples of values: of the hidden tables, of the inputs and of the outputs; None stands for the time before the
first.
"""
import functools
import itertools

from .formulas import Remembered, has_next, present
from .hidden import tables_of


class Game:
    """The game of a text. `lines` are those that count, and all lines where nothing is given."""

    def __init__(self, text, lines=None):
        self.lines = text.lines if lines is None else lines
        self.inputs = [(name, domain) for name, owner, domain in text.variables if owner == "env"]
        self.outputs = [(name, domain) for name, owner, domain in text.variables if owner != "env"]
        self.input_keys = [("variable", name) for name, _ in self.inputs]
        self.output_keys = [("variable", name) for name, _ in self.outputs]
        self.tables = tables_of(self.lines)
        self.hidden_keys = [table.key for table in self.tables]
        self.first_hidden = tuple(table.first for table in self.tables)
        self.says = {line: Remembered(line.says) for line in self.lines if line.time in ("ini", "alw")}
        self.waits = {line: self.waits_for_output(line) for line in self.says}
        self.known = {}

    @functools.cached_property
    def all_inputs(self):
        return list(itertools.product(*(domain for _, domain in self.inputs)))

    @functools.cached_property
    def all_outputs(self):
        return list(itertools.product(*(domain for _, domain in self.outputs)))

    @functools.cached_property
    def states(self):
        """All states, which a log isn't judged by."""
        all_hidden = itertools.product(*(table.values for table in self.tables))
        return [(h, x, y) for h in all_hidden for x in self.all_inputs for y in self.all_outputs]

    @functools.cached_property
    def labels(self):
        return self.recurring("gar")[0]

    @functools.cached_property
    def goals(self):
        return self.states_of("gar")

    @functools.cached_property
    def assumptions(self):
        return self.states_of("asm")

    def waits_for_output(self, line):
        """Whether a line is judged on the position before, at the move to the next one."""
        reads_output = line.role == "asm" and bool(present(line.says) & set(self.output_keys))
        return line.time == "alw" and (has_next(line.says) or reads_output)

    def recurring(self, role):
        """The labels of the recurring goals, and a test of what is known at a state for each; `true` where there is no such goal."""
        labels, tests = [], []
        own = {table.key: table for table in self.tables}
        for line in self.lines:
            goals = line.goals(own.get(("line", line.number))) if line.role == role else []
            tests += goals
            labels += [f"{line.number}" if len(goals) == 1 else f"{line.number}.{part}" for part in range(1, len(goals) + 1)]
        return labels, tests or [lambda now: True]

    def states_of(self, role):
        """The states of each recurring goal."""
        return [{s for s in self.states if test(self.named(s))} for test in self.recurring(role)[1]]

    def named(self, state):
        """What is known at a state."""
        return dict(zip(self.hidden_keys + self.input_keys + self.output_keys, state[0] + state[1] + state[2]))

    def hidden_after(self, before):
        """The hidden values of the position behind a state."""
        if before is None:
            return self.first_hidden
        now = self.named(before)
        return tuple(table.following(now) for table in self.tables)

    def holds(self, line, before, here):
        """Whether a line holds at the move that makes a position."""
        if line.time == "ini":
            return before is not None or self.says[line].value(here, None)
        if self.waits[line]:
            return before is None or self.says[line].value(self.named(before), here)
        return self.says[line].value(here, None)

    def broken_by_input(self, before, x):
        """The number of the first assumption that an input breaks."""
        here = dict(zip(self.hidden_keys + self.input_keys, self.hidden_after(before) + x))
        broken = (line.number for line in self.says if line.role == "asm" and not self.holds(line, before, here))
        return next(broken, None)

    def broken_by_output(self, before, x, y):
        """The number of the first guarantee or line of a monitor that an output breaks after an input."""
        here = self.named((self.hidden_after(before), x, y))
        broken = (line.number for line in self.says if line.role != "asm" and not self.holds(line, before, here))
        return next(broken, None)

    def moves(self, before):
        """For each legal input the states that the legal outputs lead to, in order."""
        if before not in self.known:
            hidden = self.hidden_after(before)
            legal = [x for x in self.all_inputs if self.broken_by_input(before, x) is None]
            self.known[before] = {
                x: [(hidden, x, y) for y in self.all_outputs if self.broken_by_output(before, x, y) is None] for x in legal
            }
        return self.known[before]

    def forces(self, before, target):
        """Whether each legal input has a legal output into the target."""
        return all(any(s in target for s in reached) for reached in self.moves(before).values())

    def pre_sys(self, target):
        return {s for s in self.states if self.forces(s, target)}

    def env_input(self, before, target):
        """The first legal input all of whose legal outputs lead into the target."""
        for x, reached in self.moves(before).items():
            if all(s in target for s in reached):
                return x
        return None

    def pre_env(self, target):
        return {s for s in self.states if self.env_input(s, target) is not None}
