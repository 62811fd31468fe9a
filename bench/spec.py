"""Specifications as lists of lines, and how they are written: as texts of the language, and flat."""
from itertools import combinations


class Spec:
    """Variables and lines. An expression is a string (a variable), an int, or a tuple of an operator and its operands.

    A variable is an input (`env`), an output (`sys`) or a `monitor`; a line's role is `asm`, `gar` or the monitor's name.
    """

    def __init__(self, name):
        self.name, self.variables, self.lines = name, [], []

    def var(self, owner, name, low=None, high=None):
        self.variables.append((owner, name, low, high))
        return name

    def vars(self, owner, name, count):
        return [self.var(owner, f"{name}{i}") for i in range(count)]

    def say(self, role, time, e):
        self.lines.append((role, time, e))

    def asm(self, time, e):
        self.say("asm", time, e)

    def gar(self, time, e):
        self.say("gar", time, e)

    def never_two(self, names):
        for one, other in combinations(names, 2):
            self.gar("alw", neg(both(one, other)))


def neg(e):
    return ("!", e)


def nxt(e):
    return ("next", e)


def both(*es):
    return es[0] if len(es) == 1 else ("&", *es)


def either(*es):
    return es[0] if len(es) == 1 else ("|", *es)


def implies(a, b):
    return ("->", a, b)


def iff(a, b):
    return ("<->", a, b)


# ---- as a text


def shown(e):
    """An expression of the language, every operand in parentheses but a name or a number."""
    if isinstance(e, (str, int)):
        return str(e)
    sign, *parts = e
    if sign == "!":
        return f"!{inner(parts[0])}"
    if sign == "next":
        return f"next({shown(parts[0])})"
    return f" {sign} ".join(inner(part) for part in parts)


def inner(e):
    simple = isinstance(e, (str, int)) or e[0] in ("next", "!")
    return shown(e) if simple else f"({shown(e)})"


def text(s):
    lines = [f"spec {s.name}"]
    for owner, name, low, high in s.variables:
        kind = "boolean" if low is None else f"Int({low}..{high})"
        if owner == "monitor":
            own = [f"  {time} {shown(e)};" for role, time, e in s.lines if role == name]
            lines += [f"monitor {kind} {name} {{", *own, "}"]
        else:
            lines.append(f"{owner} {kind} {name};")
    lines += [f"{role} {time} {shown(e)};" for role, time, e in s.lines if role in ("asm", "gar")]
    return "\n".join(lines) + "\n"


# ---- flat: a monitor is an output, and its lines are guarantees


def prefix(e):
    if isinstance(e, (str, int)):
        return str(e)
    return "( " + " ".join([e[0], *map(prefix, e[1:])]) + " )"


def flat(s):
    lines = []
    for owner, name, low, high in s.variables:
        player = "env" if owner == "env" else "sys"
        lines.append(f"var {player} {name} {-1 if low is None else low} {-1 if low is None else high}")
    lines += [f"{'asm' if role == 'asm' else 'gar'} {time} {prefix(e)}" for role, time, e in s.lines]
    return "\n".join(lines) + "\n"
