#!/usr/bin/env python3
"""patterns.py [PROGRAM]: tries the patterns of examples/patterns.spectra on plays.

Each row of patterns.txt, which was worked out by hand, is asked of PROGRAM, by a text that makes an output follow the play, so
that it is realizable where the play keeps the pattern; and of the pattern's formula in linear temporal logic. Then the table
that the plain program makes of each pattern is compared with that formula on all short plays, and on longer ones by chance.
It can't tell whether a formula says what its sentence says, which is for a reader; it ends with 1 where anything differs.
"""
import itertools
import random
import subprocess
import sys
import tempfile
from pathlib import Path

HERE = Path(__file__).resolve().parent
TOP = HERE.parent.parent
LIBRARY = TOP / "examples/patterns.spectra"
sys.path.insert(0, str(TOP / "bench"))

from reference.formulas import value  # noqa: E402
from reference.text import Shelf, Text  # noqa: E402

# ---- formulas: strings are letters, tuples an operator and its operands


def neg(a):
    return ("!", a)


def both(*some):
    return ("&", *some)


def implies(a, b):
    return ("|", neg(a), b)


def always(a):
    return neg(("U", "true", neg(a)))


def sometime(a):
    return ("U", "true", a)


def until(a, b):
    return ("U", a, b)


def weakly(a, b):
    return ("|", until(a, b), always(a))


OPENS = both("q", neg("r"))
CLOSES = both(OPENS, sometime("r"))
ANSWERED = implies("p", until(neg("r"), both("s", neg("r"))))


def scopes(p):
    """That p always holds, in each scope."""
    return {
        "globally": always(p),
        "before": implies(sometime("r"), until(p, "r")),
        "after": always(implies("q", always(p))),
        "between": always(implies(CLOSES, until(p, "r"))),
        "until": always(implies(OPENS, weakly(p, "r"))),
    }


# as published, but that precedence after q speaks of the first q, and not of some q
FORMULAS = {
    "absence": scopes(neg("p")),
    "universality": scopes("p"),
    "existence": {
        "globally": sometime("p"),
        "before": weakly(neg("r"), both("p", neg("r"))),
        "after": ("|", always(neg("q")), sometime(both("q", sometime("p")))),
        "between": always(implies(OPENS, weakly(neg("r"), both("p", neg("r"))))),
        "until": always(implies(OPENS, until(neg("r"), both("p", neg("r"))))),
    },
    "precedence": {
        "globally": weakly(neg("p"), "s"),
        "before": implies(sometime("r"), until(neg("p"), ("|", "s", "r"))),
        "after": weakly(neg("q"), both("q", weakly(neg("p"), "s"))),
        "between": always(implies(CLOSES, until(neg("p"), ("|", "s", "r")))),
        "until": always(implies(OPENS, weakly(neg("p"), ("|", "s", "r")))),
    },
    "response": {
        "globally": always(implies("p", sometime("s"))),
        "before": implies(sometime("r"), until(ANSWERED, "r")),
        "after": always(implies("q", always(implies("p", sometime("s"))))),
        "between": always(implies(CLOSES, until(ANSWERED, "r"))),
        "until": always(implies(OPENS, weakly(ANSWERED, "r"))),
    },
}


def truths(formula, play, again):
    """Where a formula holds, position by position, on a play whose positions from `again` on come for ever."""
    if isinstance(formula, str):
        return [formula == "true" or formula in here for here in play]
    values = [truths(operand, play, again) for operand in formula[1:]]
    if formula[0] == "!":
        return [not a for a in values[0]]
    if formula[0] == "&":
        return [all(row) for row in zip(*values)]
    if formula[0] == "|":
        return [any(row) for row in zip(*values)]
    held, found = values[1], None
    while held != found:
        found, later = held, [*held[1:], held[again]]
        held = [b or (a and c) for a, b, c in zip(values[0], values[1], later)]
    return held


# ---- patterns


def parameters():
    """The parameters of each pattern of the library, in order."""
    rows = [row.removeprefix("pattern ").rstrip(" {") for row in LIBRARY.read_text().splitlines() if row.startswith("pattern ")]
    return {row.split("(")[0]: row.split("(")[1].rstrip(")").split(", ") for row in rows}


def table_of(name, letters):
    """The plain program's table of a pattern, whose parameters are variables of these names."""
    source = 'import "l" spec X ' + " ".join(f"env boolean {a};" for a in letters) + f" gar {name}({', '.join(letters)});"
    line = Text("x", Shelf({"x": source.encode(), "l": LIBRARY.read_bytes()})).lines[0]
    return line.table(), line.pattern.goals


def kept(made, letters, play, again):
    """Whether a play keeps a pattern: each goal holds somewhere in what comes for ever."""
    table, goals = made
    own, at, seen, rows = table.first, 0, {}, []
    while (own, at) not in seen:
        seen[own, at] = len(rows)
        now = {("variable", a): a in play[at] for a in letters} | {table.key: own}
        rows.append([value(goal, table.known(now), None) for goal in goals])
        own, at = table.following(now), at + 1 if at + 1 < len(play) else again
    return all(any(goal) for goal in zip(*rows[seen[own, at] :]))


def short_plays(letters, chance):
    """All plays of few positions, and some longer ones by chance, with the position from which they come again."""
    here = [set(some) for k in range(len(letters) + 1) for some in itertools.combinations(letters, k)]
    for length in range(1, {1: 7, 2: 4, 3: 3, 4: 2}[len(letters)] + 1):
        for play in itertools.product(here, repeat=length):
            yield from ((play, again) for again in range(length))
    for _ in range(500):
        play = [{a for a in letters if chance.random() < 0.3} for _ in range(chance.randint(1, 9))]
        yield play, chance.randrange(len(play))


def compared():
    """How many plays on which a table and its formula differ, each said."""
    chance, count, differences = random.Random(1), 0, 0
    for name, letters in parameters().items():
        kind, scope = name.split("_")
        made = table_of(name, letters)
        for play, again in short_plays(letters, chance):
            count += 1
            if kept(made, letters, play, again) != truths(FORMULAS[kind][scope], play, again)[0]:
                differences += 1
                print(f"{name}: the formula says otherwise of {shown(play, again)}")
                break
    print(f"patterns: {len(parameters())} on {count} plays as their formulas, {differences} not")
    return differences


# ---- rows


def shown(play, again):
    words = ["".join(sorted(here)) or "-" for here in play]
    return " ".join([*words[:again], "/", *words[again:]])


def rows():
    """Each row of the list: a pattern, a play, where it comes again, and whether it keeps the pattern."""
    for row in (HERE / "patterns.txt").read_text().splitlines():
        if row and not row.startswith("#"):
            name, *words, result = row.split()
            assert result in ("keeps", "breaks") and words.count("/") == 1, row
            again = words.index("/")
            yield name, [set(word) - {"-"} for word in words if word != "/"], again, result == "keeps"


def text_of(name, letters, play, again):
    """A text whose only output follows a play, under the pattern."""
    last = len(play) - 1
    text = ['import "patterns.spectra"', "spec Play", f"sys Int(0..{last}) at;", "gar ini at = 0;"]
    text += [f"gar alw at = {k} -> next(at) = {k + 1 if k < last else again};" for k in range(last + 1)]
    for a in letters:
        at = " | ".join(f"at = {k}" for k, here in enumerate(play) if a in here)
        text.append(f"define {a} := {at or 'false'};")
    return "\n".join([*text, f"gar {name}({', '.join(letters)});", ""])


def tried(program):
    """How many rows are answered otherwise, by the program or by the formula, each said."""
    count = differences = 0
    known, used = parameters(), set()
    with tempfile.TemporaryDirectory() as folder:
        (Path(folder) / "patterns.spectra").write_bytes(LIBRARY.read_bytes())
        file = Path(folder) / "play.spectra"
        for name, play, again, keeps in rows():
            count += 1
            used.add((name, keeps))
            kind, scope = name.split("_")
            answers = {"the formula": truths(FORMULAS[kind][scope], play, again)[0]}
            if program:
                file.write_text(text_of(name, known[name], play, again))
                status = subprocess.run([program, "synth", file], capture_output=True, check=False).returncode
                answers[program] = {0: True, 1: False}.get(status, status)
            for who, answer in answers.items():
                if answer is not keeps:
                    differences += 1
                    print(f"{name} {shown(play, again)}: by hand {keeps}, by {who} {answer}")
    missing = [f"{name} {keeps}" for name in known for keeps in (True, False) if (name, keeps) not in used]
    print(f"patterns: {count} rows, {differences} answered otherwise, {len(missing)} missing {' '.join(missing)}".rstrip())
    return differences + len(missing)


def main():
    if len(sys.argv) > 2 or sys.argv[1:2] == ["--help"]:
        print(__doc__, file=sys.stderr)
        return 2
    return 1 if tried(sys.argv[1] if len(sys.argv) == 2 else None) + compared() else 0


if __name__ == "__main__":
    sys.exit(main())
