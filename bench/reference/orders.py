"""Orders of the declared variables: how many different parts the diagrams of a text's lines have under each, and a better one.

A diagram is made of a truth table, so it is slow where a line reads more than some twelve bits.
"""
import itertools

from .formulas import CONSTANTS, PAST, READ, operands_of, value
from .game import Game

MOST_VARIABLES = 32


class Limit(Exception):
    """More variables than are tried."""


# ---- functions of bits


def named(e, at, tables):
    """What an expression reads, itself or through the atoms of its tables, each with the time at which."""
    if e[0] in READ:
        return {(e, at)}
    if e[0] == "next":
        return named(e[1], "next", tables)
    own = table_named(tables[e], at, tables) if e[0] in PAST else set()
    return own.union(*(named(operand, at, tables) for operand in operands_of(e))) if e[0] not in CONSTANTS else own


def atoms_of(table):
    """What a hidden table's next value hangs on besides its own."""
    if hasattr(table, "arguments"):
        return table.arguments
    return table.atoms if hasattr(table, "atoms") else []


def table_named(table, at, tables):
    return {(table.key, at)}.union(*(named(atom, at, tables) for atom in atoms_of(table)))


def width_of(domain):
    """The least number of bits that gives each value a code."""
    return (len(domain) - 1).bit_length()


class Bits:
    """A function of the bits of some places at some times, as a truth table."""

    def __init__(self, places, domains, test):
        self.bits = [(*place, k) for place in places for k in range(width_of(domains[place[0]]))]
        self.table = {}
        for row in itertools.product([False, True], repeat=len(self.bits)):
            codes = {}
            for (key, at, _), bit in zip(self.bits, row):
                codes[key, at] = 2 * codes.get((key, at), 0) + bit
            self.table[row] = self.holds(codes, places, domains, test)

    @staticmethod
    def holds(codes, places, domains, test):
        """The value of the test, and false where a code is none."""
        known = {"now": {}, "next": {}}
        for key, at in places:
            code = codes.get((key, at), 0)
            if code >= len(domains[key]):
                return False
            known[at][key] = domains[key][code]
        return bool(test(known["now"], known["next"]))


class Nodes:
    """The nodes of all diagrams, one for each bit and two different parts. The constants are 0 and 1."""

    def __init__(self):
        self.made, self.known = {}, {}

    def node(self, bit, low, high):
        return low if low == high else self.made.setdefault((bit, low, high), len(self.made) + 2)

    def parts(self, function, bits):
        """The nodes of a function's reduced diagram where its bits come in this order."""
        key = function, tuple(bits)
        if key not in self.known:
            turned = [function.bits.index(bit) for bit in bits]
            rows = itertools.product([False, True], repeat=len(bits))
            row = [self.leaf(function, turned, values) for values in rows]
            found = set()
            for bit in reversed(bits):
                row = [self.node(bit, low, high) for low, high in zip(row[::2], row[1::2])]
                found |= {n for n in row if n > 1}
            self.known[key] = self.reached(row[0], found)
        return self.known[key]

    def reached(self, top, found):
        """The parts of a node. Each node that was made stands in it."""
        inner = {n: (low, high) for (_, low, high), n in self.made.items() if n in found}
        seen, left = set(), [top]
        while left:
            n = left.pop()
            if n > 1 and n not in seen:
                seen.add(n)
                left += inner[n]
        return seen

    @staticmethod
    def leaf(function, turned, values):
        row = [False] * len(turned)
        for k, v in zip(turned, values):
            row[k] = v
        return int(function.table[tuple(row)])


# ---- a text


def functions_of(game):
    """The functions of its lines and recurring goals."""
    tables = {table.key: table for table in game.tables}
    domains = dict(zip(game.hidden_keys, (table.values for table in game.tables)))
    domains |= dict(zip(game.input_keys + game.output_keys, (domain for _, domain in game.inputs + game.outputs)))
    for line in game.lines:
        if line.time in ("ini", "alw", "alwEv"):
            places = named(line.says, "now", tables)
            tests = [lambda now, later, e=line.says: value(e, now, later)]
        else:
            table = tables["line", line.number]
            places = table_named(table, "now", tables)
            tests = [lambda now, later, goal=goal: goal(now) for goal in line.goals(table)]
        for test in tests:
            yield Bits(sorted(places, key=str), domains, test)


class Sizes:
    """How many different parts a text's diagrams have under an order, both constants counted."""

    def __init__(self, game):
        self.hidden, self.functions, self.nodes = game.hidden_keys, list(functions_of(game)), Nodes()

    def of(self, order):
        places = {key: k for k, key in enumerate([*self.hidden, *[("variable", name) for name in order]])}
        found = set()
        for f in self.functions:
            in_order = sorted(f.bits, key=lambda bit: (places[bit[0]], bit[1] == "next", bit[2]))
            found |= self.nodes.parts(f, in_order)
        return len(found) + 2


def moved(order, i, j):
    rest = order[:i] + order[i + 1 :]
    return rest[:j] + order[i : i + 1] + rest[j:]


def climb(sizes, order):
    """The order that is reached by moving one variable at a time to where it helps most, the first of several."""
    least = sizes.of(order)
    while True:
        others = [moved(order, i, j) for i in range(len(order)) for j in range(len(order)) if j != i]
        best = min(others, key=sizes.of, default=order)
        if sizes.of(best) >= least:
            return order, least
        order, least = best, sizes.of(best)


def better(text, game):
    """The parts under the declared order, and the order that is found with its parts; None where there is none better."""
    declared = [name for name, _, _ in text.variables]
    if len(declared) > MOST_VARIABLES:
        raise Limit
    sizes = Sizes(game)
    order, least = climb(sizes, declared)
    return sizes.of(declared), None if order == declared else (order, least)


def order(text):
    """What is told of a text's order: gives each line, then the status."""
    try:
        parts, found = better(text, Game(text))
    except Limit:
        yield "size limit reached"
        return 14
    yield f"nodes {parts}"
    if found is None:
        yield "no better order"
    else:
        yield "order " + " ".join(found[0])
        yield f"nodes {found[1]}"
    return 0
