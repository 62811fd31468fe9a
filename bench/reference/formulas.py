"""Formulas: tuples of an operator and its operands, and their values.

A leaf is `("truth", b)`, `("number", n)`, `("enum", name)`, or what is read: `("variable", name)`, and in a pattern
`("parameter", k)` and `("own", k)`. What is known at a position is a table from what is read, and from each past operator to
what its hidden table has there.
"""
from .trees import COMPARED, Tree

CONSTANTS = ("truth", "number", "enum", "hole")
READ = ("variable", "parameter", "own")
PAST = ("PREV", "ONCE", "HISTORICALLY", "SINCE", "TRIGGERED")


class FormulaTooLarge(Exception):
    """A formula with more nodes than there is room for."""


class Formulas:
    """The formulas of expressions with everything put in; `kind` gives the kind of one. `room` is left for nodes."""

    def __init__(self, kind, room):
        self.kind, self.room = kind, room

    def of(self, t):
        """The formula of an expression. Each index that may be several elements is replaced by cases, the first in the text first."""
        if t.form in COMPARED:
            found = self.chosen(t.operands, False)
            if found:
                index, under = found
                return self.cases(index, under, lambda element: self.of(replaced(t, index, element)))
        if t.form == "index":
            element = self.one(t)
            if element is None and self.kind(t)[0] != "truth":
                return self.of_leaf(t.says.elements[0])
            return self.of_leaf(element) if element else self.cases(t, False, self.of_leaf)
        self.count()
        if t.form == "variable":
            return ("variable", t.says.name.text)
        if t.form in CONSTANTS or t.form in READ:
            return (t.form, t.says)
        if t.form == "mod":
            return ("mod", self.of(t.operands[0]), ("number", t.says))
        if t.form in ("forall", "exists"):
            return ("&" if t.form == "forall" else "|", *map(self.of, t.operands[2:]))
        return (t.form, *map(self.of, t.operands))

    def count(self):
        self.room -= 1
        if self.room < 0:
            raise FormulaTooLarge

    def of_leaf(self, element):
        self.count()
        return ("variable", element.name.text)

    def one(self, t):
        """The element that an index is, where its span is one number."""
        kind, elements = self.kind(t.operands[0]), t.says.elements
        if kind[0] == "whole" and kind[1] == kind[2] and 0 <= kind[1] < len(elements):
            return elements[kind[1]]
        return None

    def chosen(self, operands, under):
        """The first index in parts of a comparison that may be several elements, and whether a `next` stands around it."""
        for t in operands:
            if t.form == "index":
                if self.one(t) is None and self.kind(t)[0] != "truth":
                    return t, under
            elif t.form in ("+", "-", "*", "mod", "next"):
                found = self.chosen(t.operands, under or t.form == "next")
                if found:
                    return found
        return None

    def cases(self, index, under, with_element):
        self.count()
        found = ["|"]
        for number, element in enumerate(index.says.elements):
            self.count()
            found.append(("&", self.of(equation(index.operands[0], under, number)), with_element(element)))
        return tuple(found)


def equation(t, under, number):
    """That an expression is a number, or is it at the next position."""
    read = Tree("next", t.first, t.at, [t]) if under else t
    return Tree("=", t.first, t.at, [read, Tree("number", t.first, t.at, says=number)])


def replaced(t, index, element):
    """An expression with an element in the place of an index."""
    if t is index:
        return Tree("variable", t.first, t.at, says=element)
    operands = [replaced(operand, index, element) for operand in t.operands]
    if all(new is old for new, old in zip(operands, t.operands)):
        return t
    return Tree(t.form, t.first, t.at, operands, t.says, t.places)


def size_of(e):
    """The nodes and the levels of a formula; a remainder's number is no node."""
    sizes = [size_of(operand) for operand in (operands_of(e)[:1] if e[0] == "mod" else operands_of(e))]
    return 1 + sum(nodes for nodes, _ in sizes), 1 + max((levels for _, levels in sizes), default=0)


def regex_of(r, formulas):
    """A regular expression with these formulas in its brackets, in text order."""
    if r[0] == "atom":
        return ("atom", next(formulas))
    if r[0] == "repeat":
        return ("repeat", regex_of(r[1], formulas), r[2], r[3])
    return (r[0], *[regex_of(inner, formulas) for inner in r[1:]])


def operands_of(e):
    return () if e[0] in CONSTANTS or e[0] in READ else e[1:]


def has_next(e):
    return e[0] == "next" or any(has_next(operand) for operand in operands_of(e))


def present(e):
    """What an expression reads outside `next` and outside the operand of `PREV`."""
    if e[0] in READ:
        return {e}
    return set() if e[0] in ("next", "PREV") else set().union(*map(present, operands_of(e)))


def operators_in(e):
    """The past operators in an expression, inner ones first, each once."""
    found = {}
    for operand in operands_of(e):
        found |= operators_in(operand)
    return found | ({e: None} if e[0] in PAST else {})


def asked(e):
    """What its value asks for at the present position, and at the next one."""
    if e[0] in READ:
        return {e}, set()
    if e[0] == "next":
        return set(), asked(e[1])[0]
    now, later = {e} if e[0] in PAST else set(), set()
    for operand in () if e[0] == "PREV" else operands_of(e):
        more = asked(operand)
        now, later = now | more[0], later | more[1]
    return now, later


def value(e, now, later):
    """The value of an expression at a position, and at the next one where it has `next`."""
    kind, operands = e[0], e[1:]
    if kind in CONSTANTS:
        return operands[0]
    if kind in READ or kind == "PREV":
        return now[e]
    if kind == "next":
        return value(operands[0], later, None)
    v = [value(operand, now, later) for operand in operands]
    if kind in PAST:
        return PAST_VALUES[kind](*v, now[e])
    if kind == "&":
        return all(v)
    return any(v) if kind == "|" else OPERATIONS[kind](*v)


# from the operands' values here, and the operator's value at the position before
PAST_VALUES = {
    "ONCE": lambda a, before: a or before,
    "HISTORICALLY": lambda a, before: a and before,
    "SINCE": lambda a, b, before: b or (a and before),
    "TRIGGERED": lambda a, b, before: b and (a or before),
}

OPERATIONS = {
    "!": lambda a: not a,
    "->": lambda a, b: not a or b,
    "<->": lambda a, b: a == b,
    "=": lambda a, b: a == b,
    "!=": lambda a, b: a != b,
    "<": lambda a, b: a < b,
    "<=": lambda a, b: a <= b,
    ">": lambda a, b: a > b,
    ">=": lambda a, b: a >= b,
    "+": lambda a, b: a + b,
    "-": lambda a, b: a - b,
    "*": lambda a, b: a * b,
    "mod": lambda a, b: a % b,
}


class Remembered:
    """A formula that remembers its values by what they ask for."""

    def __init__(self, says):
        self.says, self.known = says, {}
        self.now, self.later = (sorted(keys, key=str) for keys in asked(says))

    def value(self, now, later):
        key = tuple([now[k] for k in self.now] + [later[k] for k in self.later])
        if key not in self.known:
            self.known[key] = value(self.says, now, later)
        return self.known[key]
