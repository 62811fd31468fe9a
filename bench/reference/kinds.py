"""The kind of an expression, and the faults of one where it stands.

A kind is `("truth",)`, `("whole", least, greatest)`, `("some",)` for whole numbers whose span isn't known, `("names", ..)` for
an enum's values, `("name", n)` for one enum name, or `("anything",)`, which fits everything.

In an expression with bodies put in, each part of a body has the place of the name that brings it, and is marked so.
"""
from types import SimpleNamespace as Item

from .names import FAR, WRONG

NEXT_HERE, NESTED, OF_SYSTEM, IN_INITIAL, WIDE, OUTSIDE = 10, 11, 12, 13, 14, 25
TRUTH, SOME, ANYTHING = ("truth",), ("some",), ("anything",)
PAST = ("PREV", "ONCE", "HISTORICALLY", "SINCE", "TRIGGERED")
PREFIXES = ("!", "PREV", "ONCE", "HISTORICALLY")
LOGICAL = ("->", "<->", "SINCE", "TRIGGERED")
ARITHMETIC = ("+", "-", "*")
QUANTIFIERS = ("forall", "exists")
MOST_NUMBERS = 4096

# Where an expression stands, and what may not stand in it.
BANS = {
    "ini asm": {"next", "system"},
    "ini gar": {"next"},
    "alw asm": {"system in next"},
    "alw gar": set(),
    "alwEv": {"next"},
    "bound": {"next", "variable", "parameter"},
    "atom": {"next"},
    "argument": {"next"},
    "ini own": {"next", "past", "parameter", "parameter in bounds"},
    "alw own": {"past", "parameter in next", "parameter in bounds"},
    "alwEv own": {"next", "past", "parameter in bounds"},
    "define": set(),
    "predicate": set(),
}


def is_truth(kind):
    return kind[0] in ("truth", "anything")


def is_whole(kind):
    return kind[0] in ("whole", "some", "anything")


def fits(a, b):
    """Whether `=` takes the two; whether a parameter of the one kind takes an argument of the other."""
    if ANYTHING in (a, b):
        return True
    if a[0] in ("truth", "whole", "some"):
        return is_truth(b) if a[0] == "truth" else is_whole(b)
    if a[0] == b[0] == "names":
        return a[1:] == b[1:]
    if {a[0], b[0]} == {"name", "names"}:
        one, listed = (a, b) if a[0] == "name" else (b, a)
        return one[1] in listed[1:]
    return False


def is_wide(kind):
    return kind[0] == "whole" and (kind[1] < -FAR or kind[2] > FAR or kind[2] - kind[1] >= MOST_NUMBERS)


def is_outside(kind, array):
    """Whether a span isn't within the numbers of an array's elements, where both are known."""
    return array.known and kind[0] == "whole" and (kind[1] < 0 or kind[2] >= len(array.elements))


def given(form, a, b):
    """The kind that an operator gives, whatever it is given."""
    if form not in ARITHMETIC:
        return TRUTH
    if a[0] != "whole" or b[0] != "whole":
        return SOME
    operate = {"+": lambda x, y: x + y, "-": lambda x, y: x - y, "*": lambda x, y: x * y}[form]
    ends = [operate(x, y) for x in a[1:] for y in b[1:]]
    return ("whole", min(ends), max(ends))


class Judge:
    """Judges expressions by the kinds of variables, defines, parameters and own variables."""

    def __init__(self, kind_of_variable, kind_of_define, kinds_of_parameters):
        self.variable, self.define, self.wanted = kind_of_variable, kind_of_define, kinds_of_parameters
        self.made = {}

    def kind(self, t, inside):
        """The kind of an expression; `inside` has the kinds of parameters and of own variables around it."""
        form = t.form
        if form in ("parameter", "own"):
            return inside[form][t.says]
        if form == "truth" or form == "predicate":
            return TRUTH
        if form == "number":
            return ("whole", t.says, t.says)
        if form == "enum":
            return ("name", t.says)
        if form in ("variable", "index"):
            return self.variable(t.says if form == "variable" else t.says.elements[0])
        if form == "bound":
            return SOME
        if form == "define":
            return self.define(t.says)
        if form in ("hole", "misused"):
            return TRUTH if (t.says if form == "hole" else t.says[0]) == "truth" else ANYTHING
        if form == "next":
            return self.kind(t.operands[0], inside)
        if form == "mod":
            return ("whole", 0, t.says - 1) if t.says > 0 else SOME
        if form in ARITHMETIC:
            return self.kind_of_numbers(t, inside)
        return TRUTH

    def kind_of_numbers(self, t, inside):
        """The kind of a sum, difference or product, found once: sums may nest deep. The tree is kept, so that no other has its id."""
        key = (id(t), id(inside))
        if key not in self.made:
            self.made[key] = t, inside, given(t.form, *(self.kind(o, inside) for o in t.operands))
        return self.made[key][2]

    def faults(self, t, stand, inside):
        """Every fault of an expression where it stands."""
        found = []
        self.walk(t, BANS[stand], inside, (), found)
        kind = self.kind(t, inside)
        if stand != "define" and not (is_whole(kind) if stand == "bound" else is_truth(kind)):
            found.append((t.first, WRONG))
        return found

    def walk(self, t, bans, inside, around, found):
        """The faults inside an expression; `around` has what is open, outermost first: each `next`, past operator, and quantifier
        in whose bounds this stands."""
        form, at = t.form, t.at
        if form in QUANTIFIERS:
            self.quantifier(t, bans, inside, around, found)
            return
        reads = (form, t.says) if form != "misused" else t.says[1] or ("", None)
        reads = ("variable", t.says.elements[0]) if form == "index" else reads
        if reads[0] in ("variable", "parameter", "own"):
            self.read(t, reads, bans, around, found)
        if form == "misused":
            found.append((at, t.says[2]))
        if form in ("next", *PAST):
            self.shift(t, bans, around, found)
            around = (*around, t)
        for operand in t.operands:
            self.walk(operand, bans, inside, around, found)
        self.operands(t, [self.kind(operand, inside) for operand in t.operands], found)
        if form in ("number", "mod", *ARITHMETIC) and is_wide(self.kind(t, inside)):
            found.append((at, WIDE))
        if form == "mod" and t.says <= 0:
            found.append((t.places[0], WIDE))

    def quantifier(self, t, bans, inside, around, found):
        """The faults of a quantifier: of its bounds, of its range, and of its copies, or of its body alone."""
        in_bounds = (*around, Item(form="bounds", at=t.at, brought=t.brought))
        for bound in t.operands[:2]:
            self.walk(bound, bans, inside, in_bounds, found)
            self.want(is_whole(self.kind(bound, inside)), bound.first, found)
        for copy in t.operands[2:]:
            self.walk(copy, bans, inside, around, found)
            self.want(is_truth(self.kind(copy, inside)), copy.first, found)
        if t.says.extent == "wrong":
            found.append((t.at, WIDE))

    def operands(self, t, kinds, found):
        """The operands or arguments of the wrong kind."""
        form = t.form
        if form == "index":
            self.want(is_whole(kinds[0]), t.operands[0].first, found)
            if is_outside(kinds[0], t.says):
                found.append((t.at, OUTSIDE))
        elif form == "predicate":
            for operand, kind, wanted in zip(t.operands, kinds, self.wanted(t.says)):
                self.want(fits(wanted, kind), operand.first, found)
        elif form in ("&", "|"):
            for kind, place in zip(kinds, [t.places[0], *t.places]):
                self.want(is_truth(kind), place, found)
        elif form in PREFIXES or form in LOGICAL:
            self.want(all(map(is_truth, kinds)), t.at, found)
        elif form in ("=", "!="):
            self.want(fits(*kinds), t.at, found)
        elif form in ("<", "<=", ">", ">=", "mod", *ARITHMETIC):
            self.want(all(map(is_whole, kinds)), t.at, found)

    @staticmethod
    def want(right, at, found):
        if not right:
            found.append((at, WRONG))

    @staticmethod
    def read(t, reads, bans, around, found):
        """A variable or parameter that is read, and what is open around it."""
        system = reads[0] == "variable" and reads[1].owner == "sys"
        if (reads[0] == "parameter" and "parameter" in bans) or "variable" in bans:
            found.append((t.at, WRONG))
        if system and "system" in bans:
            found.append((t.at, IN_INITIAL))
        for outer in around:
            if outer.form == "bounds" and (reads[0] != "parameter" or "parameter in bounds" in bans):
                found.append((outer.at if outer.brought else t.at, WRONG))
            if outer.form != "next":
                continue
            where = outer.at if outer.brought or not t.brought else t.at
            if system and "system in next" in bans:
                found.append((where, OF_SYSTEM))
            if reads[0] == "parameter" and "parameter in next" in bans:
                found.append((where, NEXT_HERE))

    @staticmethod
    def shift(t, bans, around, found):
        """A `next` or a past operator, and what is open around it."""
        if t.form == "next" and "next" in bans:
            found.append((t.at, NEXT_HERE))
        if t.form != "next" and "past" in bans:
            found.append((t.at, WRONG))
        for outer in around:
            if outer.form == "bounds":
                if t.form == "next":
                    found.append((outer.at if outer.brought else t.at, NEXT_HERE))
            elif "next" in (t.form, outer.form):
                found.append((outer.at if outer.brought else t.at, NESTED))
