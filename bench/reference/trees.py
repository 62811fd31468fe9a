"""The trees of a file whose tokens are a text of the grammar.

A place is a file's number, a line and a column: so places stand in the order in which faults are told.
"""
from types import SimpleNamespace as Item

SAME = {"not": "!", "and": "&", "or": "|", "implies": "->", "iff": "<->", "Y": "PREV", "O": "ONCE"}
SAME |= {"H": "HISTORICALLY", "S": "SINCE", "T": "TRIGGERED"}
ROLES = {"asm": "asm", "assumption": "asm", "gar": "gar", "guarantee": "gar"}
TIMES = {"ini": "ini", "initially": "ini"}
TIMES |= dict.fromkeys(["alw", "always", "G", "trans"], "alw")
TIMES |= dict.fromkeys(["alwEv", "alwaysEventually", "GF"], "alwEv")
PREFIXES = ("!", "PREV", "ONCE", "HISTORICALLY")
COMPARED = ("=", "!=", "<", "<=", ">", ">=")


class Tree:
    """An expression: its form, the places of its first token and of itself, its operands, and what else its form has.

    The form is `truth`, `number`, `name`, `call`, `index`, `next`, `mod`, `forall`, `exists` or an operator. `places` are those
    of the operators of a conjunction or disjunction, or that of a remainder's number. The operands of a quantifier are its
    bounds and its body.
    """

    def __init__(self, form, first, at, operands=(), says=None, places=()):
        self.form, self.first, self.at = form, first, at
        self.operands, self.says, self.places = list(operands), says, list(places)
        self.brought = False


class Reader:
    """Reads the trees of one file. Words for signs are read as signs, and short words as long ones."""

    def __init__(self, tokens, file):
        self.tokens, self.file, self.at = tokens, file, 0

    def peek(self, ahead=0):
        token = self.tokens[min(self.at + ahead, len(self.tokens) - 1)]
        return SAME.get(token.text, token.text) if token.kind == "word" else token.text

    def place(self):
        token = self.tokens[self.at]
        return (self.file, token.line, token.column)

    def take(self):
        text = self.peek()
        self.at += 1
        return text

    def accept(self, text):
        if self.peek() == text:
            self.at += 1
            return True
        return False

    def name(self):
        """A name with its place."""
        at = self.place()
        return Item(text=self.take(), at=at)

    # ---- items

    def tree(self):
        imports, items = [], []
        while self.peek() == "import":
            at = self.place()
            self.at += 1
            imports.append(Item(text=self.take()[1:-1], at=at))
            self.accept(";")
        self.at += 2
        while self.tokens[self.at].kind != "end":
            items.append(self.item())
        return Item(imports=imports, items=items)

    def item(self):
        at, word = self.place(), self.take()
        if word in ROLES:
            return self.line(at, ROLES[word])
        read = {"type": self.alias, "define": self.define, "predicate": self.predicate}
        read |= {"pattern": self.pattern, "monitor": self.monitor}
        return read[word](at) if word in read else self.variable(at, "env" if word == "env" else "sys")

    def variable(self, at, owner):
        domain, length = self.type(), self.length()
        name = self.name()
        self.at += 1
        return Item(kind="variable", at=at, owner=owner, domain=domain, length=length, name=name)

    def length(self):
        """How many elements an array is to have, with the place of the bracket; None for what is no array."""
        at = self.place()
        if not self.accept("["):
            return None
        count = int(self.take())
        self.at += 1
        return Item(at=at, count=count)

    def alias(self, at):
        name = self.name()
        self.at += 1
        body = self.type()
        self.at += 1
        return Item(kind="type", at=at, name=name, body=body)

    def define(self, at):
        bodies = []
        while self.peek(1) == ":=":
            name = self.name()
            self.at += 1
            bodies.append((name, self.expression()))
            self.at += 1
        return Item(kind="define", at=at, bodies=bodies)

    def predicate(self, at):
        name, parameters = self.name(), []
        self.at += 1
        while not self.accept(")"):
            parameters.append((self.type(), self.name()))
            self.accept(",")
        self.at += 1
        body = self.expression()
        self.at += 1
        return Item(kind="predicate", at=at, name=name, parameters=parameters, body=body)

    def pattern(self, at):
        name, parameters = self.name(), []
        self.at += 1
        while not self.accept(")"):
            parameters.append(self.name())
            self.accept(",")
        return Item(kind="pattern", at=at, name=name, parameters=parameters, parts=self.parts())

    def monitor(self, at):
        domain, name = self.type(), self.name()
        return Item(kind="monitor", at=at, domain=domain, name=name, parts=self.parts())

    def parts(self):
        """What stands in braces: own variables, and lines."""
        found = []
        self.at += 1
        while not self.accept("}"):
            at, word = self.place(), self.take()
            if word == "var":
                found.append(Item(kind="own", at=at, domain=self.type(), name=self.name()))
            else:
                found.append(Item(kind=TIMES[word], at=at, says=self.expression()))
            self.at += 1
        return found

    def line(self, at, role):
        name = None
        if self.peek(1) == ":":
            name = self.name()
            self.at += 1
        line = Item(kind="line", at=at, role=role, name=name)
        if self.peek() in TIMES:
            line.time, line.says = TIMES[self.take()], self.expression()
        elif self.peek() == "trig":
            line.time, line.word = "trig", self.place()
            self.at += 1
            line.cause = self.regex()
            self.at += 1
            line.effect = self.regex()
        else:
            line.time, line.pattern, line.arguments = "pattern", self.name(), self.arguments()
        self.at += 1
        return line

    def arguments(self):
        found = []
        self.at += 1
        while not self.accept(")"):
            found.append(self.expression())
            self.accept(",")
        return found

    def type(self):
        at, word = self.place(), self.peek()
        if word == "{":
            self.at += 1
            names = [self.name()]
            while self.accept(","):
                names.append(self.name())
            self.at += 1
            return Item(form="names", at=at, names=names)
        if word == "Int":
            self.at += 2
            low = self.sum()
            self.at += 1
            high = self.sum()
            self.at += 1
            return Item(form="range", at=at, low=low, high=high)
        if word == "boolean":
            self.at += 1
            return Item(form="boolean", at=at)
        return Item(form="named", at=at, name=self.name())

    # ---- regular expressions: ("atom", tree), ("cat", ..), ("alt", ..), ("repeat", inner, least, most or None)

    def regex(self):
        found = [self.sequence()]
        while self.accept("|"):
            found.append(self.sequence())
        return found[0] if len(found) == 1 else ("alt", *found)

    def sequence(self):
        found = []
        while self.peek() in ("[", "("):
            found.append(self.repeated())
        return found[0] if len(found) == 1 else ("cat", *found)

    def repeated(self):
        if self.take() == "[":
            found = ("atom", self.expression())
        else:
            found = self.regex()
        self.at += 1
        while self.peek() in ("*", "+", "?", "{"):
            sign = self.take()
            if sign == "{":
                least = most = int(self.take())
                if self.accept(","):
                    most = int(self.take())
                self.at += 1
            else:
                least, most = {"*": (0, None), "+": (1, None), "?": (0, 1)}[sign]
            found = ("repeat", found, least, most)
        return found

    # ---- expressions

    def expression(self):
        if self.peek() in ("forall", "exists"):
            return self.quantified()
        left = self.disjunction()
        if self.peek() in ("->", "<->"):
            return self.binary(left, self.disjunction)
        if self.peek() in ("SINCE", "TRIGGERED"):
            return self.binary(left, self.primary)
        return left

    def quantified(self):
        at, word, name = self.place(), self.take(), self.name()
        self.at += 1
        low = self.sum()
        self.at += 1
        high = self.sum()
        self.at += 1
        return Tree(word, at, at, [low, high, self.expression()], name)

    def binary(self, left, operand):
        at, word = self.place(), self.take()
        return Tree(word, left.first, at, (left, operand()))

    def disjunction(self):
        return self.several("|", lambda: self.several("&", self.comparison))

    def several(self, sign, operand):
        operands, places = [operand()], []
        while self.peek() == sign:
            places.append(self.place())
            self.at += 1
            operands.append(operand())
        return Tree(sign, operands[0].first, places[0], operands, places=places) if places else operands[0]

    def comparison(self):
        if self.peek() in PREFIXES:
            return self.prefixed()
        left = self.sum()
        if self.peek() in COMPARED:
            return self.binary(left, lambda: self.prefixed() if self.peek(0) in PREFIXES else self.sum())
        return left

    def prefixed(self):
        at, word = self.place(), self.take()
        return Tree(word, at, at, [self.prefixed() if self.peek() in PREFIXES else self.primary()])

    def sum(self):
        left = self.product()
        if self.peek() == "mod":
            at = self.place()
            self.at += 1
            place = self.place()
            return Tree("mod", left.first, at, [left], int(self.take()), [place])
        while self.peek() in ("+", "-"):
            left = self.binary(left, self.product)
        return left

    def product(self):
        left = self.primary()
        while self.peek() == "*":
            left = self.binary(left, self.primary)
        return left

    def primary(self):
        first, kind, word = self.place(), self.tokens[self.at].kind, self.take()
        if word == "(":
            inner = self.expression()
            self.at += 1
            inner.first = first
            return inner
        if word == "next":
            self.at += 1
            inner = self.expression()
            self.at += 1
            return Tree("next", first, first, [inner])
        if word == "-":
            at = self.place()
            return Tree("number", first, at, says=-int(self.take()))
        if kind == "number":
            return Tree("number", first, first, says=int(word))
        if kind == "word":
            return Tree("truth", first, first, says=word == "true")
        if self.peek() == "(":
            return Tree("call", first, first, self.arguments(), word)
        if self.accept("["):
            inner = self.sum()
            self.at += 1
            return Tree("index", first, first, [inner], word)
        return Tree("name", first, first, says=word)
