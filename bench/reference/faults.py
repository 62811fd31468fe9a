"""All faults of several files whose tokens are texts of the grammar. A fault is a place and a number; the least is told."""
from .formulas import Formulas, FormulaTooLarge, operators_in, regex_of, size_of
from .hidden import TooWide, TriggerTable, pattern_table
from .names import TOO_MANY
from .putting import MOST_LEVELS, Facts, TooLarge, is_range

WIDE, CYCLE, TOO_LARGE, OPEN, PATTERN_WIDE, TRIGGER_WIDE = 14, 15, 19, 20, 21, 22
MOST_PARAMETERS, MOST_OWN, MOST_REPEATS, MOST_TABLES = 8, 64, 256, 1024
MOST_NODES = 1_000_000


def stand_of(line):
    """Where the expressions of a line stand."""
    owner = "asm" if line.role == "asm" else "gar"
    own = {"trig": "atom", "pattern": "argument", "alwEv": "alwEv"}
    return own.get(line.time) or f"{line.time} {owner}"


def atoms_of(r):
    return [r[1]] if r[0] == "atom" else [t for inner in r[1:] if isinstance(inner, tuple) for t in atoms_of(inner)]


def trees_of(line):
    if line.time == "trig":
        return atoms_of(line.cause) + atoms_of(line.effect)
    return line.arguments if line.time == "pattern" else [line.says]


def repeats_well(r):
    """Whether the numbers of all repeats are at most 256, the upper one not below the lower."""
    if r[0] == "atom":
        return True
    if r[0] == "repeat":
        least, most = r[2], r[3] if r[3] is not None else MOST_REPEATS
        return least <= most <= MOST_REPEATS and repeats_well(r[1])
    return all(repeats_well(inner) for inner in r[1:])


class Faults:
    """The faults of what files declare and say, and the lines with everything put in."""

    def __init__(self, declared):
        self.declared, self.facts = declared, Facts(declared)
        self.found = list(declared.faults)
        self.put = {}
        self.types()
        self.definitions()
        if len(self.found) == len(declared.faults):
            self.ranges_without_numbers()
        self.lines()
        self.patterns()
        self.tables()

    def faults(self, t, stand, inside=None):
        return self.facts.judge.faults(t, stand, inside)

    # ---- types and definitions

    def all_types(self):
        declared = self.declared
        named = [v.domain for v in declared.variables] + [a.body for a in declared.aliases]
        return named + [kind for d in declared.definitions for kind in d.parameters]

    def types(self):
        declared = self.declared
        for kind in self.all_types():
            self.type(kind, None)
        for pattern in declared.all_patterns:
            before = len(self.found)
            for variable in pattern.own:
                self.type(variable.domain, self.facts.inside_pattern(pattern))
            pattern.sound = pattern.sound and len(self.found) == before
        for alias in declared.aliases:
            seen, kind = [], alias.body
            while kind.form == "alias" and not any(kind.alias is other for other in seen):
                seen.append(kind.alias)
                kind = kind.alias.body
            if any(alias is other for other in seen):
                self.found.append((alias.name.at, CYCLE))

    def ranges_without_numbers(self):
        """Where nothing is wrong with types and definitions, a range's bounds have no numbers only if they are too large."""
        own = [variable.domain for pattern in self.declared.all_patterns for variable in pattern.own]
        for kind in self.all_types() + own:
            if kind.form == "range" and None in (self.facts.number(kind.low), self.facts.number(kind.high)):
                self.found.append((kind.at, TOO_LARGE))

    def type(self, kind, inside):
        """A range's numbers, and the faults of its bounds in both texts."""
        if kind.form != "range":
            return
        low, high = self.facts.number(kind.low), self.facts.number(kind.high)
        if None not in (low, high) and not is_range(low, high):
            self.found.append((kind.at, WIDE))
        for bound in (kind.low, kind.high):
            self.found += self.faults(bound, "bound", inside)
            made = self.made([bound], "bound", inside)
            if made:
                self.found += self.faults(made[0], "bound", inside)

    def definitions(self):
        for d in self.declared.definitions:
            self.found += self.facts.body_faults(d)
            if self.facts.is_cyclic(d):
                self.found.append((d.name.at, CYCLE))

    # ---- lines

    def made(self, trees, stand, inside=None):
        """Expressions with everything put in; None where they are too large."""
        try:
            return [self.facts.put_in(self.facts.holed(t, stand, inside)) for t in trees]
        except TooLarge:
            return None

    def lines(self):
        """Lines and patterns' lines in text order. What follows one that is too large isn't put in."""
        room = MOST_NODES
        for what, line in self.declared.said:
            stand = f"{line.time} own" if what == "part" else stand_of(line)
            inside = self.facts.inside_pattern(line.pattern) if what == "part" else None
            trees = [line.says] if what == "part" else trees_of(line)
            written = [f for t in trees for f in self.faults(t, stand, inside)]
            self.found += written
            made, formulas = None, None
            if room is not None:
                made = self.made(trees, stand, inside)
                formulas, room = (None, None) if made is None else self.formulas(made, inside, room)
                if room is None:
                    self.found.append((line.at, TOO_LARGE))
            if what == "line":
                self.put_line(line, made if formulas is not None else None, formulas, stand, written)
            else:
                line.sound = formulas is not None and not written
                line.formula = formulas[0] if formulas else None
                if formulas:
                    faults = self.faults(made[0], stand, inside)
                    self.found += faults
                    line.sound = line.sound and not faults

    def formulas(self, trees, inside, room):
        """The formulas of expressions, and the room that is left; None where they are too large or too deep."""
        maker = Formulas(lambda t: self.facts.judge.kind(t, inside), room)
        try:
            formulas = [maker.of(t) for t in trees]
        except FormulaTooLarge:
            return None, None
        if any(size_of(formula)[1] > MOST_LEVELS for formula in formulas):
            return None, None
        return formulas, maker.room

    def put_line(self, line, made, formulas, stand, written):
        """A line that isn't too large with everything put in; a trigger's repeats are looked at as they are written."""
        if line.time == "trig" and not (repeats_well(line.cause) and repeats_well(line.effect)):
            self.found.append((line.word, TRIGGER_WIDE))
            return
        if made is None:
            return
        faults = [f for t in made for f in self.faults(t, stand)]
        self.found += faults
        self.put[id(line)] = formulas
        if line.time == "trig" and not faults + written:
            atoms = iter(self.put[id(line)])
            try:
                TriggerTable(None, regex_of(line.cause, atoms), regex_of(line.effect, atoms))
            except TooWide:
                self.found.append((line.word, TRIGGER_WIDE))

    # ---- patterns

    def patterns(self):
        """A pattern's table, where it has no other fault and its variables' types have a meaning."""
        for pattern in self.declared.all_patterns:
            if pattern.sound and all(line.sound for line in pattern.lines):
                self.pattern_as_a_whole(pattern, self.facts.inside_pattern(pattern)["own"])

    def pattern_as_a_whole(self, pattern, kinds):
        domains = [values_of(kind) for kind in kinds]
        count = 1
        for domain in domains:
            count *= len(domain) if domain else 1
        if pattern.arity > MOST_PARAMETERS or count > MOST_OWN:
            self.found.append((pattern.name.at, PATTERN_WIDE))
        elif None not in domains:
            lines = {time: [line.formula for line in pattern.lines if line.time == time] for time in ("ini", "alw")}
            if pattern_table(pattern.arity, domains, lines["ini"], lines["alw"]) is None:
                self.found.append((pattern.name.at, OPEN))

    # ---- hidden tables

    def tables(self):
        """The line with more than so many different past operators, uses of patterns, and triggers up to it."""
        operators, others = set(), 0
        for line in self.declared.lines:
            for says in self.put.get(id(line), ()):
                operators |= set(operators_in(says))
            others += line.time in ("trig", "pattern")
            if len(operators) + others > MOST_TABLES:
                self.found.append((line.item, TOO_MANY))
                return


def values_of(kind):
    """The values of a kind in order; None where it has no meaning."""
    if kind[0] == "truth":
        return [False, True]
    if kind[0] == "whole":
        return list(range(kind[1], kind[2] + 1))
    return list(kind[1:]) if kind[0] == "names" else None
