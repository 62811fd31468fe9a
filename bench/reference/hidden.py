"""Hidden values: of past operators, of patterns and of triggers.

A table has its key in what is known at a position, its values in order, the first one, and how the next one is found.
"""
import itertools

from .formulas import operators_in, value

MOST_ATOMS, MOST_POSITIONS, MOST_STATES = 8, 64, 256


class TooWide(Exception):
    """A trigger with too many atoms, positions or states."""


# ---- past operators


class PastTable:
    """For `PREV` the operand's value at the position before, and for each other operator its own."""

    def __init__(self, operator):
        self.key, self.values = operator, [False, True]
        self.first = operator[0] in ("HISTORICALLY", "TRIGGERED")

    def following(self, now):
        return value(self.key[1] if self.key[0] == "PREV" else self.key, now, None)


# ---- patterns


def assigned(form, values):
    return {(form, k): v for k, v in enumerate(values)}


def pattern_table(arity, domains, first, step):
    """The first assignment of own variables, and for each assignment and arguments the next one; None where the lines allow
    none or several."""
    own = list(itertools.product(*domains))
    begun = [v for v in own if all(value(e, assigned("own", v), None) for e in first)]
    rows = {}
    for here in own:
        for arguments in itertools.product([False, True], repeat=arity):
            now = assigned("own", here) | assigned("parameter", arguments)
            rows[here, arguments] = [v for v in own if all(value(e, now, assigned("own", v)) for e in step)]
    if len(begun) != 1 or any(len(found) != 1 for found in rows.values()):
        return None
    return own, begun[0], {key: found[0] for key, found in rows.items()}


class PatternTable:
    """The own variables of one use of a pattern."""

    def __init__(self, line):
        pattern = line.pattern
        self.key, self.arguments = ("line", line.number), line.arguments
        self.values, self.first, self.rows = pattern_table(pattern.arity, pattern.domains, pattern.first, pattern.step)

    def following(self, now):
        return self.rows[now[self.key], tuple(value(e, now, None) for e in self.arguments)]

    def known(self, now):
        """The own variables and the arguments at a position."""
        return assigned("own", now[self.key]) | assigned("parameter", [value(e, now, None) for e in self.arguments])


# ---- triggers


def position_count(r):
    """How many brackets a regular expression has with its repeats written out."""
    if r[0] == "atom":
        return 1
    if r[0] == "repeat":
        return position_count(r[1]) * (r[2] + 1 if r[3] is None else r[3])
    return sum(position_count(inner) for inner in r[1:])


def written(r):
    """With its repeats written out: copies, optional copies, and starred ones."""
    if r[0] == "atom":
        return r
    if r[0] != "repeat":
        return (r[0], *map(written, r[1:]))
    inner = written(r[1])
    more = [("star", inner)] if r[3] is None else [("optional", inner)] * (r[3] - r[2])
    return ("cat", *([inner] * r[2] + more))


def all_atoms(r):
    return [r[1]] if r[0] == "atom" else [a for inner in r[1:] if isinstance(inner, tuple) for a in all_atoms(inner)]


class Side:
    """The brackets of one side, which can stand first, which last, and which behind which."""

    def __init__(self, r):
        self.brackets, self.behind = [], {}
        _, self.firsts, self.lasts = self.looked(written(r))

    def looked(self, r):
        """Whether nothing may stand for it, and its first and last brackets."""
        if r[0] == "atom":
            k = len(self.brackets)
            self.brackets.append(r[1])
            self.behind[k] = set()
            return False, {k}, {k}
        parts = [self.looked(inner) for inner in r[1:]]
        if r[0] in ("star", "optional"):
            _, firsts, lasts = parts[0]
            if r[0] == "star":
                self.join(lasts, firsts)
            return True, firsts, lasts
        if r[0] == "alt":
            return any(p[0] for p in parts), set().union(*(p[1] for p in parts)), set().union(*(p[2] for p in parts))
        empty, firsts, lasts = True, set(), set()
        for part in parts:
            self.join(lasts, part[1])
            firsts = firsts | part[1] if empty else firsts
            lasts = lasts | part[2] if part[0] else part[2]
            empty = empty and part[0]
        return empty, firsts, lasts

    def join(self, before, after):
        for k in before:
            self.behind[k] |= after

    def step(self, state, true_atoms):
        """The brackets that can just have been read; a state is such a set, or None at the start."""
        can = self.firsts if state is None else set().union(*(self.behind[k] for k in state))
        return frozenset(k for k in can if self.brackets[k] in true_atoms)

    def states(self, letters):
        """The start and every set that is reached, without going on from one that holds a last bracket."""
        found = [None]
        for state in found:
            if state is None or not state & self.lasts:
                for letter in letters:
                    following = self.step(state, letter)
                    if following not in found:
                        found.append(following)
                        if len(found) > MOST_STATES:
                            raise TooWide
        return found


class TriggerTable:
    """The phase of a trigger, and how far its regular expression has come in it."""

    def __init__(self, key, cause, effect):
        self.key, self.atoms = key, list(dict.fromkeys(all_atoms(cause) + all_atoms(effect)))
        if len(self.atoms) > MOST_ATOMS or max(position_count(cause), position_count(effect)) > MOST_POSITIONS:
            raise TooWide
        self.sides = {"cause": Side(cause), "effect": Side(effect)}
        # a letter is a number with a bit for each atom, the first one lowest
        letters = [{e for k, e in enumerate(self.atoms) if letter >> k & 1} for letter in range(2 ** len(self.atoms))]
        states = [(phase, state) for phase, side in self.sides.items() for state in side.states(letters)]
        if len(states) > MOST_STATES:
            raise TooWide
        self.values = [(phase, state) for phase, state in states if not state or not state & self.sides[phase].lasts]
        self.first = ("cause", None)

    def following(self, now):
        phase, state = now[self.key]
        true_atoms = {e for e in self.atoms if value(e, now, None)}
        reached = self.sides[phase].step(state, true_atoms)
        if reached & self.sides[phase].lasts:
            return ("effect" if phase == "cause" else "cause", None)
        return (phase, reached)

    def is_pending(self, now):
        return self.following(now)[0] == "effect"


def tables_of(lines):
    """The hidden tables of lines: those of past operators, inner ones first, and then those of patterns and triggers."""
    operators = {}
    for line in lines:
        for e in line.formulas():
            operators |= operators_in(e)
    tables = [PastTable(e) for e in operators]
    for line in lines:
        if line.time in ("pattern", "trig"):
            tables.append(line.table())
    return tables
