"""The grammar as it is printed, and the first token with which a file's tokens begin no text of it.

The tokens are followed as Earley's method does: behind each one stands every way in which a production may have got so far.
"""
import re

from .tokens import Refused

GRAMMAR = """
text      = { import } ( "spec" | "module" ) NAME { item } END
import    = "import" TEXT [ ";" ]
item      = vardecl | typedecl | define | predicate | pattern | monitor | line
vardecl   = ( "env" | "sys" | "aux" ) type [ "[" NUMBER "]" ] NAME ";"
type      = "boolean" | "Int" "(" sum ".." sum ")" | "{" NAME { "," NAME } "}" | NAME
typedecl  = "type" NAME "=" type ";"
define    = "define" NAME ":=" expr ";" { NAME ":=" expr ";" }
predicate = "predicate" NAME "(" [ type NAME { "," type NAME } ] ")" ":" expr ";"
pattern   = "pattern" NAME "(" [ NAME { "," NAME } ] ")" "{" { pitem } "}"
pitem     = "var" type NAME ";" | ( INI | ALW | ALWEV ) expr ";"
monitor   = "monitor" type NAME "{" { ( INI | ALW ) expr ";" } "}"
line      = ( ASM | GAR ) [ NAME ":" ] body ";"
body      = INI expr | ALW expr | ALWEV expr | "trig" regex "|=>" regex
          | NAME "(" [ expr { "," expr } ] ")"
regex     = cat { "|" cat }
cat       = post { post }
post      = ratom { "*" | "+" | "?" | "{" NUMBER [ "," NUMBER ] "}" }
ratom     = "[" expr "]" | "(" regex ")"
expr      = disj [ ( "->" | "implies" | "<->" | "iff" ) disj ]
          | prim ( "SINCE" | "S" | "TRIGGERED" | "T" ) prim
          | ( "forall" | "exists" ) NAME "in" sum ".." sum ":" expr
disj      = conj { ( "|" | "or" ) conj }
conj      = cmp { ( "&" | "and" ) cmp }
cmp       = prefixed | sum [ ( "=" | "!=" | "<" | "<=" | ">" | ">=" ) ( sum | prefixed ) ]
prefixed  = PREFIX { PREFIX } prim
PREFIX    = "!" | "not" | "PREV" | "Y" | "ONCE" | "O" | "HISTORICALLY" | "H"
sum       = prod { ( "+" | "-" ) prod } | prim "mod" NUMBER
prod      = prim { "*" prim }
prim      = "true" | "false" | [ "-" ] NUMBER | NAME | NAME "(" [ expr { "," expr } ] ")"
          | NAME "[" sum "]" | "next" "(" expr ")" | "(" expr ")"
ASM       = "asm" | "assumption"
GAR       = "gar" | "guarantee"
INI       = "ini" | "initially"
ALW       = "alw" | "always" | "G" | "trans"
ALWEV     = "alwEv" | "alwaysEventually" | "GF"
"""
TERMINALS = {"NAME": "name", "NUMBER": "number", "TEXT": "text", "END": "end"}
EXPRESSIONS = ("expr", "disj", "conj", "cmp", "prefixed", "sum", "prod", "prim")
OPERATORS = set("-> <-> implies iff | or & and = != < <= > >= + - * mod SINCE S TRIGGERED T".split())
PREFIXES = set("! not PREV Y ONCE O HISTORICALLY H".split())
QUANTIFIERS = {"forall", "exists"}
MOST_LEVELS, MOST_FOLLOWED = 128, 100_000


class Productions:
    """The productions with `{ }`, `[ ]` and `( )` as productions of their own: a name has a list of sequences."""

    def __init__(self, printed):
        self.of = {}
        for name, right in re.findall(r"^(\w+) += (.*(?:\n {10}\|.*)*)", printed, re.M):
            self.pieces = re.findall(r'"[^"]*"|\S+', right)
            self.of[name] = self.alternatives()
        self.nullable = {name for name, rows in self.of.items() if () in rows}

    def alternatives(self):
        rows = [self.sequence()]
        while self.pieces and self.pieces[0] == "|":
            self.pieces.pop(0)
            rows.append(self.sequence())
        return rows

    def sequence(self):
        found = []
        while self.pieces and self.pieces[0] not in ("|", ")", "]", "}"):
            piece = self.pieces.pop(0)
            found.append(self.group(piece) if piece in ("(", "[", "{") else piece)
        return tuple(found)

    def group(self, opening):
        rows = self.alternatives()
        self.pieces.pop(0)
        name = f"group {len(self.of)}"
        if opening == "[":
            rows = [()] + rows
        if opening == "{":
            rows = [()] + [(name,) + row for row in rows]
        self.of[name] = rows
        return name


PRODUCTIONS = Productions(GRAMMAR)


def matches(symbol, token):
    if symbol in TERMINALS:
        return token.kind == TERMINALS[symbol]
    return token.kind in ("word", "sign") and symbol == f'"{token.text}"'


def closed(columns, items):
    """All ways to have got so far: productions that begin here, and those that go on behind one that ends here."""
    here, waiting = list(items), {}
    seen = set(here)

    def add(item):
        if item not in seen:
            seen.add(item)
            here.append(item)

    for name, row, dot, start in here:
        if dot == len(row):
            for item in (columns[start] if start < len(columns) else waiting).get(name, ()):
                add((item[0], item[1], item[2] + 1, item[3]))
        elif row[dot] in PRODUCTIONS.of:
            waiting.setdefault(row[dot], []).append((name, row, dot, start))
            for begun in PRODUCTIONS.of[row[dot]]:
                add((row[dot], begun, 0, len(columns)))
            if row[dot] in PRODUCTIONS.nullable:
                add((name, row, dot + 1, start))
    columns.append(waiting)
    return here


def first_refused(tokens):
    """The number of the first token that no text of the grammar has there, and whether an expression ends before it; None
    where the tokens are a text."""
    columns = []
    here = closed(columns, [("text", row, 0, 0) for row in PRODUCTIONS.of["text"]])
    for number, token in enumerate(tokens):
        moved = [(n, row, dot + 1, start) for n, row, dot, start in here if dot < len(row) and matches(row[dot], token)]
        if not moved:
            return number, any(n in EXPRESSIONS and dot == len(row) for n, row, dot, _ in here)
        here = closed(columns, moved)
    return None


def opens_level(tokens, k):
    """Whether a bracket counts as a level of an expression or of a regular expression."""
    before = [t.text for t in tokens[max(0, k - 4) : k]]
    if tokens[k].text == "[":
        return True
    if before[-1:] == ["Int"] or (len(before) > 1 and before[-2] in ("predicate", "pattern")):
        return False
    roles = ("asm", "assumption", "gar", "guarantee")
    is_use = len(before) > 1 and before[-2] in roles or len(before) > 3 and before[-2] == ":" and before[-4] in roles
    return not (is_use and tokens[k - 1].kind == "name")


def first_too_deep(tokens, end):
    """The number of the first token before this one that opens a level past the limit."""
    brackets, prefixes, quantifiers = [], 0, 0
    for k in range(end):
        token = tokens[k]
        if token.kind in ("word", "sign") and token.text in PREFIXES:
            prefixes += 1
        elif token.kind == "word" and token.text in QUANTIFIERS:
            quantifiers += 1
        elif token.text in ("(", "["):
            brackets.append((opens_level(tokens, k), prefixes, quantifiers))
        elif token.text in (")", "]") and brackets:
            quantifiers = brackets.pop()[2]
            prefixes = brackets[-1][1] if brackets else 0
        elif token.text in (",", ";"):
            quantifiers = brackets[-1][2] if brackets else 0
        elif token.kind in ("name", "number") or token.text in ("true", "false"):
            if tokens[k + 1].text not in ("(", "["):
                prefixes = brackets[-1][1] if brackets else 0
        else:
            continue
        if sum(counts for counts, _, _ in brackets) + prefixes + quantifiers > MOST_LEVELS:
            return k
    return None


def check(tokens):
    """Refuses tokens that are no text of the grammar. More than so many are taken for one, since following takes memory."""
    refused = first_refused(tokens) if len(tokens) <= MOST_FOLLOWED else None
    number, behind_expression = refused or (len(tokens), False)
    deep = first_too_deep(tokens, number)
    if deep is not None:
        raise Refused(5, tokens[deep].line, tokens[deep].column)
    if refused:
        token = tokens[number]
        is_operator = token.kind in ("word", "sign") and token.text in OPERATORS
        raise Refused(6 if is_operator and behind_expression else 4, token.line, token.column)
