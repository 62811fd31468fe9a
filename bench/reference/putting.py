"""Expressions with everything put in, and what is known of a text's types and definitions for that."""
from types import SimpleNamespace as Item

from .copies import NoRoom, Writer, write_text
from .kinds import ANYTHING, ARITHMETIC, BANS, MOST_NUMBERS, PAST, QUANTIFIERS, TRUTH, Judge, fits
from .names import FAR
from .trees import Tree

MOST_PUT, MOST_LEVELS, MOST_STEPS = 2_000_000, 512, 3_000_000


class TooLarge(Exception):
    """An expression that is too large or too deep with everything put in."""


def uses(t):
    """The definitions that are used in an expression; a misused name is a use."""
    form, thing = t.says[1] or ("", None) if t.form == "misused" else (t.form, t.says)
    found = [thing] if form in ("define", "predicate") else []
    return found + [d for operand in t.operands for d in uses(operand)]


def reached(starts, following):
    """All that is reached from some things."""
    found, waiting = [], list(starts)
    while waiting:
        thing = waiting.pop()
        if not any(thing is other for other in found):
            found.append(thing)
            waiting += following(thing)
    return found


class Facts:
    """What types stand for, which definitions have a meaning, and their bodies."""

    def __init__(self, declared):
        self.declared, self.known = declared, {}
        self.judge = Judge(self.variable_kind, self.define_kind, self.parameter_kinds)
        used = {id(d): uses(d.body) for d in declared.definitions}
        following = lambda d: used[id(d)]
        self.cyclic = [d for d in declared.definitions if any(d is e for e in reached(following(d), following))]
        self.steps = 0
        write_text(declared, self.number)

    def once(self, what, thing, make):
        key = (what, id(thing))
        if key not in self.known:
            self.known[key] = make()
        return self.known[key]

    # ---- numbers of bounds

    def number(self, t):
        """The number of an expression that reads no variable; None where it has none."""
        if t.form == "number":
            return t.says
        if t.form == "define":
            return self.once("constant", t.says, lambda: self.constant(t.says))
        if t.form == "mod":
            divided = self.number(t.operands[0])
            return None if divided is None or t.says <= 0 else divided % t.says
        if t.form not in ("+", "-", "*"):
            return None
        a, b = (self.number(operand) for operand in t.operands)
        if a is None or b is None:
            return None
        made = {"+": lambda: a + b, "-": lambda: a - b, "*": lambda: a * b}[t.form]()
        return max(-FAR - 1, min(FAR + 1, made))

    def constant(self, d):
        return None if d.kind != "define" or self.is_cyclic(d) else self.sound_number(d.body, "define")

    def sound_number(self, t, stand):
        """The number of an expression without a fault as it is written."""
        number = self.number(t)
        return None if number is None or self.judge.faults(t, stand, None) else number

    # ---- kinds

    def type_kind(self, kind):
        seen = []
        while kind.form == "alias":
            if any(kind.alias is other for other in seen):
                return ANYTHING
            seen.append(kind.alias)
            kind = kind.alias.body
        if kind.form == "boolean":
            return TRUTH
        if kind.form == "names":
            return ("names", *kind.names)
        if kind.form == "none":
            return ANYTHING
        low, high = (self.sound_number(bound, "bound") for bound in (kind.low, kind.high))
        return ANYTHING if None in (low, high) or not is_range(low, high) else ("whole", low, high)

    def variable_kind(self, variable):
        return self.once("kind", variable, lambda: self.type_kind(variable.domain))

    def parameter_kinds(self, predicate):
        return self.once("parameters", predicate, lambda: [self.type_kind(kind) for kind in predicate.parameters])

    def define_kind(self, d):
        return ANYTHING if self.is_hole(d) else self.once("kind", d, lambda: self.judge.kind(d.body, None))

    def inside(self, d):
        """The kinds of the parameters in a definition's body."""
        return {"parameter": self.parameter_kinds(d)}

    def inside_pattern(self, pattern):
        own = self.once("own", pattern, lambda: [self.type_kind(variable.domain) for variable in pattern.own])
        return {"parameter": [TRUTH] * pattern.arity, "own": own}

    # ---- definitions

    def is_cyclic(self, d):
        return any(d is other for other in self.cyclic)

    def body_faults(self, d):
        return self.judge.faults(d.body, d.kind, self.inside(d))

    def is_hole(self, d):
        """Whether a definition has no meaning: it is on a cycle, a parameter stands twice, or its body is faulty as written."""
        return self.once("hole", d, lambda: self.is_cyclic(d) or d.doubled or bool(self.body_faults(d)))

    def holed_body(self, d):
        return self.once("body", d, lambda: self.holed(d.body, d.kind, self.inside(d)))

    # ---- holes

    def holed(self, t, stand, inside, around=()):
        """An expression as it is written, with a hole for each argument of which nothing is left where it is put in."""
        if t.form == "misused":
            return Tree("hole", t.first, t.at, says=t.says[0])
        if t.form in ("next", *PAST):
            around = (*around, t)
        if t.form in QUANTIFIERS:
            in_bounds = (*around, Item(form="bounds", at=t.at, brought=t.brought))
            operands = [self.holed(bound, stand, inside, in_bounds) for bound in t.operands[:2]]
            operands += [self.holed(copy, stand, inside, around) for copy in t.operands[2:]]
            return Tree(t.form, t.first, t.at, operands, t.says)
        wanted = self.parameter_kinds(t.says) if t.form == "predicate" else [None] * len(t.operands)
        operands = []
        for operand, kind in zip(t.operands, wanted):
            lost = kind is not None and self.is_lost(operand, kind, stand, inside, around)
            operands.append(Tree("hole", operand.first, operand.first) if lost else self.holed(operand, stand, inside, around))
        return Tree(t.form, t.first, t.at, operands, t.says, t.places)

    def is_lost(self, t, wanted, stand, inside, around):
        """Whether a parameter's type has no meaning, its argument misfits it, or a fault stands in the argument."""
        if wanted == ANYTHING or not fits(wanted, self.judge.kind(t, inside)):
            return True
        bans, found = BANS[stand], []
        if any(outer.form == "next" for outer in around):
            # these are faults of the `next` around it
            bans = bans - {"system in next", "parameter in next"}
        self.judge.walk(t, bans, inside, around, found)
        return bool(found)

    # ---- put in

    def put_in(self, t):
        """A holed expression with all bodies put in, and quantifiers written out whose bounds have numbers then."""
        self.steps = 0
        made = self.put(t, None, None)
        try:
            return Writer(self.number, MOST_PUT).written(made)
        except NoRoom:
            raise TooLarge from None

    def put(self, t, given, name):
        """With arguments for parameters, where a name brings this part, or with none where it is the text's own."""
        self.steps += 1
        if self.steps > MOST_STEPS:
            raise RuntimeError("this program isn't made for bodies that are put in so often")
        if t.form == "parameter" and given is not None:
            return given[t.says]()
        if t.form in ("define", "predicate") and not self.is_hole(t.says):
            arguments = [self.later(operand, given, name) for operand in t.operands]
            return self.put(self.holed_body(t.says), arguments, name or t.at)
        if t.form in ("define", "predicate"):
            return sized(Tree("hole", name or t.first, name or t.at, says="truth" if t.form == "predicate" else None))
        operands = [self.put(operand, given, name) for operand in t.operands]
        made = Tree(t.form, name or t.first, name or t.at, operands, t.says, [name or place for place in t.places])
        made.brought = name is not None
        return sized(made)

    def later(self, t, given, name):
        """An argument, which is put in once it is read."""
        made = []

        def read():
            if not made:
                made.append(self.put(t, given, name))
            return made[0]

        return read


def is_range(low, high):
    return low <= high < low + MOST_NUMBERS


def sized(t):
    """Counts what is put in. Sums, differences and products in a row are one level."""
    t.nodes = 1 + sum(operand.nodes for operand in t.operands)
    levels = [operand.levels for operand in t.operands]
    if t.form in ARITHMETIC and t.operands[0].form in ARITHMETIC:
        levels[0] -= 1
    t.levels = 1 + max(levels, default=0)
    if t.nodes > MOST_PUT or t.levels > MOST_LEVELS:
        raise TooLarge
    return t
