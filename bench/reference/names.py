"""What several files declare and say, each name by what it stands for, and every fault of names.

A fault is a place and a number. What a name stands for is a form and a thing: a variable, an array, an enum name, a define, a
predicate, the variable of a quantifier, or in a predicate or pattern a parameter, or an own variable.
"""
from types import SimpleNamespace as Item

from .trees import Tree

FAR = 10**12
UNKNOWN, TWICE, WRONG, ARITY, IMPORTED, TOO_MANY, WIDE_ARRAY = 7, 8, 9, 16, 17, 18, 26
MOST_ELEMENTS = 256
LIMITS = {"variables": 1024, "lines": 4096, "enum names": 65_535, "imports": 64}


def twice(names):
    """Each name that stands before it in the list too, by its place."""
    seen, found = set(), []
    for name in names:
        if name.text in seen:
            found.append((name.at, TWICE))
        seen.add(name.text)
    return found


def enum_names(kind):
    return kind.names if kind.form == "names" else []


def has_elements(item):
    """Whether a declared variable is an array of a right length."""
    return item.length is not None and 0 < item.length.count <= MOST_ELEMENTS


def variables_of(item):
    """How many variables an item declares: an array of a wrong length is one."""
    if item.kind == "variable" and has_elements(item):
        return item.length.count
    return int(item.kind in ("variable", "monitor"))


def types_of(item):
    """The types that stand in an item."""
    if item.kind == "type":
        return [item.body]
    if item.kind == "predicate":
        return [kind for kind, _ in item.parameters]
    if item.kind == "pattern":
        return [part.domain for part in item.parts if part.kind == "own"]
    return [item.domain] if item.kind in ("variable", "monitor") else []


class Declared:
    """The declarations of several files, whose main one is last, with every name looked up."""

    def __init__(self, trees):
        self.faults = []
        self.values, self.types, self.patterns, self.line_names = {}, {}, {}, {}
        self.variables, self.aliases, self.definitions, self.all_patterns, self.lines = [], [], [], [], []
        self.said, self.enum_names = [], set()
        items = [item for tree in trees for item in tree.items]
        self.limits(items)
        for number, tree in enumerate(trees):
            self.imports(tree, number < len(trees) - 1)
        for item in items:
            self.declare(item)
        for item in items:
            self.look_into(item)

    def fault(self, at, number):
        self.faults.append((at, number))

    # ---- files and limits

    def imports(self, tree, imported):
        """An imported file has no import, variable, monitor or line of its own."""
        if imported:
            alone = [item for item in tree.items if item.kind in ("variable", "monitor", "line")]
            self.faults += [(item.at, IMPORTED) for item in tree.imports + alone]
        elif len(tree.imports) > LIMITS["imports"]:
            self.fault(tree.imports[LIMITS["imports"]].at, TOO_MANY)

    def limits(self, items):
        counts, told = {"variables": 0, "lines": 0, "enum names": 0}, set()
        for item in items:
            self.enum_names |= {name.text for kind in types_of(item) for name in enum_names(kind)}
            counts["variables"] += variables_of(item)
            counts["lines"] += {"line": 1, "monitor": len(getattr(item, "parts", ()))}.get(item.kind, 0)
            counts["enum names"] = len(self.enum_names)
            for what, count in counts.items():
                if count > LIMITS[what] and what not in told:
                    told.add(what)
                    self.fault(item.at, TOO_MANY)

    # ---- declarations

    def declare(self, item):
        """Puts the names of an item into their name spaces, in text order; the first one stays."""
        if item.kind == "predicate":
            item.means = Item(kind="predicate", name=item.name, arity=len(item.parameters))
            self.value(item.name, ("predicate", item.means))
        for kind in types_of(item):
            for name in enum_names(kind):
                self.value(name, ("enum", name.text))
        if item.kind == "variable" and item.length is not None:
            known = has_elements(item)
            names = [Item(text=f"{item.name.text}[{k}]", at=item.name.at) for k in range(variables_of(item))]
            item.means = Item(elements=[Item(name=name, owner=item.owner) for name in names], known=known)
            self.value(item.name, ("array", item.means))
            if not known:
                self.fault(item.length.at, WIDE_ARRAY)
        elif item.kind in ("variable", "monitor"):
            owner = "sys" if item.kind == "monitor" else item.owner
            item.means = Item(name=item.name, owner=owner)
            self.value(item.name, ("variable", item.means))
        elif item.kind == "define":
            item.means = [Item(kind="define", name=name, arity=0) for name, _ in item.bodies]
            for means in item.means:
                self.value(means.name, ("define", means))
        elif item.kind == "type":
            item.means = Item(name=item.name)
            self.enter(self.types, item.name, item.means)
        elif item.kind == "pattern":
            item.means = Item(name=item.name, arity=len(item.parameters))
            self.enter(self.patterns, item.name, item.means)
        elif item.kind == "line" and item.name:
            self.enter(self.line_names, item.name, True)

    def value(self, name, meaning):
        both_enums = self.values.get(name.text, ("",))[0] == meaning[0] == "enum"
        if not both_enums:
            self.enter(self.values, name, meaning)

    def enter(self, space, name, meaning):
        if name.text in space:
            self.fault(name.at, TWICE)
        space.setdefault(name.text, meaning)

    # ---- what stands in items

    def look_into(self, item):
        if item.kind in ("variable", "monitor"):
            domain, elements = self.type(item.domain, self.values.get), getattr(item.means, "elements", [item.means])
            for element in elements:
                element.domain = domain
            self.variables += elements
        if item.kind == "monitor":
            for part in item.parts:
                says = self.tree(part.says, self.values.get)
                self.line(Item(at=part.at, item=item.at, role="mon", time=part.kind, says=says))
        elif item.kind == "type":
            item.means.body = self.type(item.body, self.values.get)
            self.aliases.append(item.means)
        elif item.kind == "define":
            for means, (_, body) in zip(item.means, item.bodies):
                means.parameters, means.doubled = [], False
                means.body = self.tree(body, self.values.get)
                self.definitions.append(means)
        elif item.kind == "predicate":
            self.predicate(item)
        elif item.kind == "pattern":
            self.pattern(item)
        elif item.kind == "line":
            self.statement(item)

    def predicate(self, item):
        means, names = item.means, [name for _, name in item.parameters]
        means.parameters = [self.type(kind, self.values.get) for kind, _ in item.parameters]
        doubles = twice(names)
        self.faults += doubles
        means.doubled = bool(doubles)
        inside = {}
        for k, name in enumerate(names):
            inside.setdefault(name.text, ("parameter", k))
        means.body = self.tree(item.body, lambda text: inside.get(text) or self.values.get(text))
        self.definitions.append(means)

    def pattern(self, item):
        means = item.means
        own = [part for part in item.parts if part.kind == "own"]
        before = len(self.faults)
        self.faults += twice(item.parameters + [part.name for part in own])
        inside = {}
        for k, name in enumerate(item.parameters):
            inside.setdefault(name.text, ("parameter", k))
        for k, part in enumerate(own):
            inside.setdefault(part.name.text, ("own", k))
        look = lambda text: inside.get(text) or (("enum", text) if text in self.enum_names else None)
        means.own = [Item(name=part.name.text, domain=self.type(part.domain, look)) for part in own]
        means.lines = [
            Item(at=part.at, pattern=means, time=part.kind, says=self.tree(part.says, look)) for part in item.parts if part.kind != "own"
        ]
        means.sound = len(self.faults) == before
        self.all_patterns.append(means)
        self.said += [("part", line) for line in means.lines]

    def statement(self, item):
        line = Item(at=item.at, item=item.at, role=item.role, time=item.time)
        if item.time == "trig":
            line.word = item.word
            line.cause, line.effect = (self.regex(r) for r in (item.cause, item.effect))
        elif item.time == "pattern":
            line.pattern, line.at_name = self.patterns.get(item.pattern.text), item.pattern.at
            if line.pattern is None:
                self.fault(item.pattern.at, UNKNOWN)
            elif line.pattern.arity != len(item.arguments):
                self.fault(item.pattern.at, ARITY)
            line.arguments = [self.tree(argument, self.values.get) for argument in item.arguments]
        else:
            line.says = self.tree(item.says, self.values.get)
        self.line(line)

    def line(self, line):
        line.number = len(self.lines) + 1
        self.lines.append(line)
        self.said.append(("line", line))

    # ---- types

    def type(self, kind, look):
        """A type by what it stands for: `none` for one without a meaning."""
        if kind.form == "boolean":
            return Item(form="boolean")
        if kind.form == "range":
            return Item(form="range", at=kind.at, low=self.tree(kind.low, look), high=self.tree(kind.high, look))
        if kind.form == "names":
            doubles = twice(kind.names)
            self.faults += doubles
            others = [name for name in kind.names if self.values[name.text][0] != "enum"]
            names = tuple(name.text for name in kind.names)
            return Item(form="none") if doubles or others else Item(form="names", names=names)
        if kind.name.text not in self.types:
            self.fault(kind.name.at, UNKNOWN)
            return Item(form="none")
        return Item(form="alias", alias=self.types[kind.name.text])

    # ---- expressions

    def regex(self, r):
        if r[0] == "atom":
            return ("atom", self.tree(r[1], self.values.get))
        if r[0] == "repeat":
            return ("repeat", self.regex(r[1]), r[2], r[3])
        return (r[0], *(self.regex(inner) for inner in r[1:]))

    def tree(self, t, look):
        """The tree with each name by what it stands for. A misused name has the kind of its hole, what it reads, and its fault."""
        if t.form == "number":
            return Tree("number", t.first, t.at, says=max(-FAR - 1, min(FAR + 1, t.says)))
        if t.form in ("forall", "exists"):
            return self.quantified(t, look)
        if t.form not in ("name", "call", "index"):
            return Tree(t.form, t.first, t.at, [self.tree(o, look) for o in t.operands], t.says, t.places)
        meaning = look(t.says)
        operands = [self.tree(o, look) for o in t.operands]
        number, hole = self.misuse(t, meaning)
        if number:
            self.fault(t.at, number)
            if meaning and meaning[0] == "array":
                meaning = ("variable", meaning[1].elements[0])
            return Tree("misused", t.first, t.at, operands, (hole, meaning, number))
        return Tree(t.form if t.form == "index" else meaning[0], t.first, t.at, operands, meaning[1])

    def quantified(self, t, look):
        """A quantifier that isn't written out yet. Its variable hides what is outside, in its body alone."""
        variable = Item(name=t.says)
        inside = lambda text: ("bound", variable) if text == t.says.text else look(text)
        low, high, body = t.operands
        operands = [self.tree(low, look), self.tree(high, look), self.tree(body, inside)]
        return Tree(t.form, t.first, t.at, operands, Item(variable=variable, extent="open"))

    @staticmethod
    def misuse(t, meaning):
        """The number of the fault of a name where it stands, and the kind of its hole."""
        if meaning is None:
            return UNKNOWN, "anything"
        if (t.form == "call") != (meaning[0] == "predicate") or (t.form == "index") != (meaning[0] == "array"):
            return WRONG, "anything"
        if t.form == "call" and meaning[1].arity != len(t.operands):
            return ARITY, "truth"
        return None, None
