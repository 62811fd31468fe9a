"""Texts of at most 1 MiB that go deep, or grow where they are read, each with what is to be written and the status.

Each is short for what it asks: chains, rings and doublings of definitions, rows of operators, brackets, prefixes and repeats.
`known` says what was known of a text when it stood here first: the program ended by its stack, or came late.
"""
from dataclasses import dataclass

MOST_BYTES = 1_048_576
HEAD = "spec Deep\nenv boolean e;\nsys boolean g;\nenv Int(0..2) r;\n"
# The line behind the head, and its first column behind `gar alw `.
NEXT, BEHIND = 5, 9
WON = "realizable K=2\n"
STACK = "ends by the stack"
TIME = "late"


@dataclass
class Hostile:
    """A text with its name, and what is to be written for it."""

    name: str
    text: str
    written: str
    status: int
    command: str = "synth"
    given: str = ""
    known: str = ""


def won(name, text, known="", written=WON):
    return Hostile(name, text, written, 0, known=known)


def refused(name, text, line, column, fault, known=""):
    return Hostile(name, text, f"t.spectra:{line}:{column}: fault {fault}\n", 3, known=known)


def chain(first, each, count, line):
    """A first definition, so many more, each by its number and that of the one before it, and a line."""
    return HEAD + first + "".join(each(k, k - 1) for k in range(1, count + 1)) + line


def ring(each, count):
    """So many definitions, each by its number and that of the next one, and the last by that of the first."""
    return HEAD + "".join(each(k, (k + 1) % count) for k in range(count)) + "gar alw g;\n"


# ---- definitions that stand on one another


def defines(body, count, first="e", line="gar alw g | d#;\n"):
    """Each define is this body of the one before it."""
    return chain(f"define d0 := {first};\n", lambda k, j: f"define d{k} := {body.replace('#', f'd{j}')};\n", count, line.replace("#", str(count)))


def predicates(body, count, first="x", line="gar alw g | p#(e);\n"):
    """Each predicate is this body of the one before it."""
    return chain(f"predicate p0(boolean x): {first};\n", lambda k, j: f"predicate p{k}(boolean x): {body.replace('#', f'p{j}')};\n", count, line.replace("#", str(count)))


def handed(count):
    """Each predicate hands on what the one before it does."""
    return predicates("same(#(x))", count).replace("predicate p0", "predicate same(boolean x): x;\npredicate p0")


def narrowed(count):
    """Each predicate calls the one before it, with a narrower span than it was declared with."""
    return chain("predicate p0(Int(0..4) n): n > 1;\n", lambda k, j: f"predicate p{k}(Int(0..4) n): p{j}(n);\n", count, f"gar alw g | p{count}(r);\n")


def beside(count):
    """Each predicate is its first argument and gives itself twice, with other numbers for the second, which isn't read."""
    return chain("predicate p0(boolean x, Int(1..1) n): x;\n", lambda k, j: f"predicate p{k}(boolean x, Int(1..1) n): p{j}(p{j}(x, n + 1), n * 2);\n", count, f"gar alw g | p{count}(e, 1);\n")


def doubled(lines):
    """A number, 19 sums, each of the one before it twice, and lines."""
    return defines("# + #", 19, "0", lines)


def unbounded(count):
    """A variable, 16 sums, each of the one before it twice, and so many bounds, none of which has a number."""
    return defines("(# + #) mod 3", 16, "r", "".join(f"sys Int(0..d#) y{k};\n" for k in range(count)))


def row(word, count, operand="0"):
    return operand + f" {word} {operand}" * (count - 1)


def used(use, count):
    """A line in whose row a use stands so often."""
    return f"gar alw {row('&', count, use)};\n"


def types(count, line):
    """Each type is the one before it."""
    return chain("type A0 = Int(0..3);\n", lambda k, j: f"type A{k} = A{j};\n", count, line.replace("#", str(count)))


def behind(count):
    """The number of the line behind a first definition and so many more."""
    return NEXT + 1 + count


CHAINS = [
    *(won(f"{n:,} defines", defines("#", n), STACK) for n in (100, 3_000, 30_000)),
    *(refused(f"{n:,} negations", defines("!#", n), behind(n), 1, "19 TooLarge", STACK) for n in (3_000, 30_000)),
    won("510 negations", defines("!#", 510), STACK),
    won("510 past operators", defines("PREV #", 510), STACK),
    Hostile("510 past operators, played", defines("PREV #", 510), WON + "g=true\n", 0, "run", "e=true r=0\n", STACK),
    Hostile("510 past operators, audited", defines("PREV #", 510), "audit ok 1\n", 0, "audit", "e=true r=0 g=true\n", STACK),
    *(won(f"500 times {body}", defines(body, 500), STACK) for body in ("# & g", "g | #", "# -> g", "g -> #", "g <-> #", "g SINCE #")),
    won("508 sums", defines("# + 0", 508, "r", "gar alw g | d# = 0;\n"), STACK),
    *(won(f"{n:,} defines in a bound", defines("#", n, "1", "sys Int(0..d#) y;\n"), STACK) for n in (3_000, 30_000)),
    won("3,000 sums in a bound", defines("# + 0", 3_000, "1", "sys Int(0..d#) y;\n"), STACK),
    *(won(f"{n:,} predicates", predicates("#(x)", n), STACK) for n in (3_000, 15_000)),
    *(won(f"{n:,} predicates of predicates", handed(n), STACK) for n in (1_000, 15_000)),
    won("3,000 predicates of numbers", narrowed(3_000), STACK),
    refused("3,000 predicates negated", predicates("!#(x)", 3_000), behind(3_000), 1, "19 TooLarge", STACK),
    won("15,000 defines, used 76,000 times", defines("#", 15_000, "g", used("d#", 76_000)), TIME),
    won("10,000 predicates, used 40,000 times", predicates("#(x)", 10_000, "x | g", used("p#(e)", 40_000)), TIME),
    *(won(f"{n:,} types", types(n, "sys A# y;\n")) for n in (5_000, 40_000)),
    won("5,000 types of a parameter", types(5_000, "predicate p(A# n): n > 1;\ngar alw g | p(r);\n")),
    *(refused(f"a ring of {n:,} defines", ring(lambda k, j: f"define d{k} := d{j};\n", n), NEXT, 8, "15 Cycle", TIME) for n in (5_000, 30_000)),
    refused("a ring of 5,000 predicates", ring(lambda k, j: f"predicate p{k}(boolean x): p{j}(x);\n", 5_000), NEXT, 11, "15 Cycle", TIME),
    *(refused(f"a ring of {n:,} types", ring(lambda k, j: f"type A{k} = A{j};\n", n), NEXT, 6, "15 Cycle") for n in (5_000, 30_000)),
    refused("5,000 defines on a ring of one", defines("#", 5_000, "d0"), NEXT, 8, "15 Cycle"),
]

# ---- what doubles

DOUBLING = [
    won("25 predicates, each the one before of itself", predicates("#(#(x))", 25), TIME),
    won("40 predicates, each the one before of itself", predicates("#(#(x))", 40), TIME),
    won("40 predicates, each the one before of itself, the first constant", predicates("#(#(x))", 40, "true"), TIME),
    refused("25 predicates, each the one before of itself, the first a negation", predicates("#(#(x))", 25, "!x"), behind(25), 1, "19 TooLarge", TIME),
    won("25 predicates, each the one before of itself, beside an argument that isn't read", beside(25), TIME),
    *(refused(f"{n} defines, each the one before twice", defines("# & #", n), behind(n), 1, "19 TooLarge") for n in (25, 40)),
    won("40 doubled defines in an argument that isn't read", defines("# & #", 40, line="predicate q(boolean x): true;\ngar alw g | q(d#);\n")),
    won("40 doubled defines that aren't read", defines("# & #", 40, line="gar alw g;\n")),
    won("1,000 bounds by 19 doubled defines", doubled("".join(f"sys Int(0..d19) y{k};\n" for k in range(1_000))), TIME),
    *(refused(f"{n:,} bounds without a number by 16 doubled defines", unbounded(n), behind(16), 12, "9 WrongType", TIME) for n in (100, 1_000)),
    won("3,000 parameters with bounds by 19 doubled defines", doubled("".join(f"predicate p{k}(Int(0..d19) n): true;\n" for k in range(3_000))), TIME),
]


# ---- rows of operators

ROWS = [
    *(
        it
        for word, name in (("+", "sum"), ("-", "difference"), ("*", "product"))
        for n in (20_000, 200_000)
        for it in (
            refused(f"a {name} of {n:,}", HEAD + f"gar alw {row(word, n)} = 0;\n", NEXT, 1, "19 TooLarge"),
            won(f"a {name} of {n:,} in an argument that isn't read", HEAD + f"predicate q(Int(0..3) n): true;\ngar alw g | q({row(word, n)});\n"),
            won(f"a {name} of {n:,} in a define that isn't read", HEAD + f"define d := {row(word, n)};\ngar alw g;\n"),
            won(f"a {name} of {n:,} in a bound", HEAD + f"sys Int(0..{row(word, n)}) y;\n"),
            refused(f"a {name} of {n:,} in a trigger", HEAD + f"gar trig [{row(word, n)} = 0] |=> [true];\n", NEXT, 1, "19 TooLarge"),
        )
    ),
    won("200,000 conjuncts", HEAD + f"gar alw {row('&', 200_000, 'g')};\n"),
    won("200,000 disjuncts", HEAD + f"gar alw {row('|', 200_000, 'g')};\n"),
    refused("200,000 unknown names", HEAD + f"gar alw {row('&', 200_000, 'x')};\n", NEXT, BEHIND, "7 Unknown"),
    refused("a call with 300,000 arguments", HEAD + "predicate q(boolean x): x;\ngar alw q(" + "g," * 300_000 + "g);\n", NEXT + 1, BEHIND, "16 Arity"),
    refused("a number of 1,000,000 digits", HEAD + f"gar alw {'9' * 1_000_000} = 0;\n", NEXT, BEHIND, "14 WideInt"),
]

# ---- levels

NESTED = [
    won("128 parentheses", HEAD + f"gar alw {'(' * 128}g{')' * 128};\n"),
    *(refused(f"{n:,} parentheses", HEAD + f"gar alw {'(' * n}g{')' * n};\n", NEXT, BEHIND + 128, "5 TooDeep") for n in (129, 500_000)),
    won("128 negations before one another", HEAD + f"gar alw {'!' * 128}g;\n"),
    refused("1,000,000 negations before one another", HEAD + f"gar alw {'!' * 1_000_000}g;\n", NEXT, BEHIND + 128, "5 TooDeep"),
    won("128 past operators before one another", HEAD + f"gar alw g | {'PREV ' * 128}e;\n"),
    won("128 implications in one another", HEAD + f"gar alw {'(g -> ' * 128}g{')' * 128};\n"),
    won("128 sums in one another", HEAD + f"gar alw {'(0 + ' * 128}0{')' * 128} = 0;\n"),
    won("128 calls in one another", HEAD + f"predicate same(boolean x): x;\ngar alw {'same(' * 128}g{')' * 128};\n"),
    refused("128 nexts in one another", HEAD + f"gar alw {'next(' * 128}g{')' * 128};\n", NEXT, BEHIND + 5, "11 NextNested"),
    won("128 sums in one another in a bound", HEAD + f"sys Int(0..{'(0 + ' * 128}0{')' * 128}) y;\n"),
]

# ---- repeats


def trigger(cause, effect="[true]"):
    return HEAD + f"gar trig {cause} |=> {effect};\n"


TURNS = "realizable K=3\n"
EMPTY = "[e]{0}"

REPEATS = [
    *(won(f"{n:,} stars", trigger("[true]" + "*" * n), "", TURNS) for n in (10_000, 20_000, 200_000, 1_000_000)),
    won("200,000 times at most once", trigger("[true]", "[true]" + "?" * 200_000), "", TURNS),
    won("200,000 times once", trigger("[true]" + "{1}" * 200_000), "", TURNS),
    refused("200,000 plusses", trigger("[true]" + "+" * 200_000), NEXT, 5, "22 TriggerWide"),
    won("200,000 plusses behind nothing", trigger("[true]{0}" + "+" * 200_000 + "[true]"), "", TURNS),
    won("200,000 times no time", trigger("[true]" + "{0}" * 200_000 + "[true]"), "", TURNS),
    Hostile("200,000 stars in a core", trigger("[true]" + "*" * 200_000) + "gar ini false;\n", "unrealizable N=1 M=2\ncore 1\n#2\n", 0, "core"),
    won("127 starred parentheses", trigger("(" * 127 + "[true]" + ")*" * 127), "", TURNS),
    refused("128 starred parentheses", trigger("(" * 128 + "[true]" + ")*" * 128), NEXT, 10 + 128, "5 TooDeep"),
    won("160,000 brackets no time in 120 starred parentheses, 64 times", trigger("(" + "(" * 120 + EMPTY * 160_000 + "[true]" + ")*" * 120 + "){64}"), "", TURNS),
    won("160,000 brackets no time in 120 doubled parentheses, 64 times", trigger("(" + "(" * 120 + EMPTY * 160_000 + "){2}" * 120 + "[true]){64}"), "", TURNS),
    refused("a repeat of 1,000,000 digits", trigger("[true]{" + "9" * 1_000_000 + "}"), NEXT, 5, "22 TriggerWide"),
]

# ---- many bits, and long texts


def wide(kind, count, name, test, before=""):
    """So many variables in one line."""
    return "spec Wide\n" + before + "".join(f"{kind} {name}{k};\n" for k in range(count)) + f"gar alw {' & '.join(test.replace('#', f'{name}{k}') for k in range(count))};\n"


LONG = [
    won("1,024 bits in a line", wide("sys boolean", 1_024, "v", "#")),
    won("1,024 variables of 12 bits in a line", wide("sys Int(0..4095)", 1_024, "v", "# = 1")),
    won("1,024 variables of 16 bits in a line", wide("sys Wide", 1_024, "v", "# = N1", "type Wide = {" + ",".join(f"N{k}" for k in range(65_535)) + "};\n")),
    won("1,000,000 blanks", HEAD + " " * 1_000_000),
    refused("1,000,000 bytes of a comment", HEAD + "/*" + "*" * 1_000_000, NEXT, 1, "2 BadCharacter"),
    refused("1,000,000 semicolons", HEAD + ";" * 1_000_000, NEXT, 1, "4 Unexpected"),
    won("a name of 1,000,000 characters", HEAD + f"sys boolean {'v' * 1_000_000};\n"),
    refused("50,000 defines of one name", HEAD + "define d := true;\n" * 50_000, NEXT + 1, 8, "8 Twice"),
]

# ---- hidden tables at their limits, and what is no table of a strategy

BITS = "spec Tables\nsys boolean g;\n" + "".join(f"env boolean q{k};\n" for k in range(8))
PARAMETERS = ", ".join(f"q{k}" for k in range(8))


def counting(alternatives):
    """A pattern that counts to 64, with 8 parameters and so many alternatives in a line, and a use of it."""
    line = " & ".join(f"(q{k % 8} | !q{k % 8})" for k in range(alternatives))
    pattern = f"pattern p({PARAMETERS}) {{ var Int(0..63) s; ini s = 0; alw {line}; alw next(s) = (s + 1) mod 64; alwEv s = 0; }}\n"
    return Hostile(f"a pattern at its limits, with {alternatives} alternatives in a line", BITS + pattern + f"gar p({PARAMETERS});\n", "audit ok 0\n", 0, "audit")


def far(count):
    """So many triggers whose cause is 7 positions long, and one that is too wide."""
    brackets = ["".join(f" [q{(k >> j) % 8}]" for j in range(6)) for k in range(count)]
    triggers = "".join(f"gar trig [true]* [q{k % 8}] [true]{{6}} |=>{brackets[k]};\n" for k in range(count))
    return refused(f"{count} triggers of 128 sets, and one that is too wide", BITS + triggers + "gar trig [true]{65} |=> [g];\n", 11 + count, 5, "22 TriggerWide")


def no_table(name, given):
    return Hostile(f"{name} as a table", HEAD + "gar alw g;\n", "table refused\n", 13, "verify", given)


TABLES = [
    counting(3), counting(30), counting(300), far(10), far(500),
    no_table("16,000,000 open brackets", "[" * 16_000_000), no_table("3,000,000 names in one another", '{"a":' * 3_000_000),
    no_table("a number of 16,000,000 digits", '{"first":[0],"k":' + "9" * 16_000_000),
    no_table("8,000,000 numbers", '{"first":[' + "0," * 8_000_000 + "0]}"),
    no_table("500,000 names", "{" + ",".join(f'"k{k}":0' for k in range(500_000)) + "}"),
    no_table("16,777,217 blanks", " " * 16_777_217),
]  # fmt: skip

TEXTS = [*CHAINS, *DOUBLING, *ROWS, *NESTED, *REPEATS, *LONG, *TABLES]
