"""Quantifiers written out: a copy of the body for each number from one bound to the other. Copies keep the text's places."""
from types import SimpleNamespace as Item

from .kinds import QUANTIFIERS
from .trees import Tree

MOST_NUMBERS = 256


class NoRoom(Exception):
    """There are more nodes than there is room for."""


def has_quantifier(t):
    return t.form in QUANTIFIERS or any(has_quantifier(operand) for operand in t.operands)


class Writer:
    """Writes expressions out, by what bounds have for numbers. `room` is left for nodes; arguments and bounds are nodes too."""

    def __init__(self, number_of, room):
        self.number_of, self.room = number_of, room

    def written(self, t, numbers=()):
        """`numbers` has those of the quantifiers around, the innermost last."""
        self.room -= 1
        if self.room < 0:
            raise NoRoom
        if t.form == "bound":
            known = [number for variable, number in numbers if variable is t.says]
            return self.placed(Tree("number", t.first, t.at, says=known[-1]) if known else t, t)
        if t.form in QUANTIFIERS:
            return self.quantifier(t, numbers)
        operands = [self.written(operand, numbers) for operand in t.operands]
        return self.placed(Tree(t.form, t.first, t.at, operands, t.says, t.places), t)

    @staticmethod
    def placed(made, t):
        if made is not t:
            made.brought = t.brought
        return made

    def quantifier(self, t, numbers):
        bounds = [self.written(bound, numbers) for bound in t.operands[:2]]
        extent, given = t.says.extent, [numbers]
        low, high = (self.number_of(bound) for bound in bounds)
        if extent == "open" and None not in (low, high):
            extent = "right" if low <= high < low + MOST_NUMBERS else "wrong"
            if extent == "right":
                given = [(*numbers, (t.says.variable, number)) for number in range(low, high + 1)]
        copies = [self.written(copy, inside) for inside in given for copy in t.operands[2:]]
        says = Item(variable=t.says.variable, extent=extent)
        return self.placed(Tree(t.form, t.first, t.at, bounds + copies, says), t)


def write_text(declared, number_of, room=1_000_000):
    """Writes out what has a quantifier, as long as there is room: definitions, then patterns' lines, then lines."""
    writer = Writer(number_of, room)

    def out(t):
        if writer.room is None or not has_quantifier(t):
            return t
        try:
            return writer.written(t)
        except NoRoom:
            writer.room = None
            return t

    def regex(r):
        if r[0] == "atom":
            return ("atom", out(r[1]))
        return tuple(regex(inner) if isinstance(inner, tuple) else inner for inner in r)

    for definition in declared.definitions:
        definition.body = out(definition.body)
    for pattern in declared.all_patterns:
        for line in pattern.lines:
            line.says = out(line.says)
    for line in declared.lines:
        if line.time == "trig":
            line.cause, line.effect = regex(line.cause), regex(line.effect)
        elif line.time == "pattern":
            line.arguments = [out(argument) for argument in line.arguments]
        else:
            line.says = out(line.says)
