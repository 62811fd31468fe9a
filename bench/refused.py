#!/usr/bin/env python3
"""refused.py PROGRAM [COUNT [SEED]]: texts of examples/ and of this file with some tokens changed, most of them with faults:
what `audit` writes for an empty log is compared with the plain program (reference/).

It works in a temporary folder. At the first difference it stops, and says where the text is left.
"""
import random
import shutil
import subprocess
import sys
import tempfile
from pathlib import Path

TOP = Path(__file__).resolve().parent
sys.path.insert(0, str(TOP))

from reference.text import NoText, Shelf, Text  # noqa: E402
from reference.tokens import RESERVED, SIGNS, tokens_of  # noqa: E402

LIBRARY = (TOP.parent / "examples/response.spectra").read_text()
RICH = """import "response.spectra"
spec Rich
type Small = Int(0..N - 1);
type Colour = {RED, GREEN};
env Small x;
env Colour light;
env boolean[3] req;
sys boolean g;
sys boolean[3] grant;
sys Small[2] slot;
aux {GREEN, RED} sign;
define N := 4; twice := x * 2; later := next(g); busy := exists i in 0..2: req[i] & grant[i];
predicate alone(Int(0..2) k): forall i in 0..2: i = k | !grant[i];
predicate upto(Int(0..3) n): exists i in 0..n: i < 3 & slot[i mod 2] <= i;
predicate near(Small a, Int(-3..3) b): a - b <= 1 & b - a <= 1;
predicate was(boolean b): PREV b;
predicate shown(Colour c): light = c;
pattern toggles(c) {
  var boolean s;
  var Int(0..2) n;
  ini !s & n = 0;
  alw next(s) <-> s != c;
  alw c -> next(n) = (n + 1) mod 3;
  alw !c -> next(n) = n;
  alwEv s;
}
monitor Small last {
  ini last = 0;
  alw next(last) = x;
}
asm ini x = 0;
asm alw near(next(x), x) & (light = RED -> next(light) = GREEN);
asm alwEv shown(GREEN);
gar ini !g;
gar alw later -> near(last, 2) | was(g & twice > 3);
gar alw (g SINCE (x = 1)) -> sign = RED;
gar toggles(shown(RED));
gar responds(x = 3, g & HISTORICALLY (x >= 0));
gar trig [true]* [x = 2] |=> [true]{0,2} [g]+;
gar alw forall i in 0..N - 2: grant[i] -> req[i];
gar alw alone(x mod 3) | busy & next(slot[x mod 2]) <= slot[0] + x;
gar alw exists i in 0..1: forall j in i..2: grant[j] | slot[i] = j | upto(j) | next(req[2 - j]);
gar named: alwEv x + twice < 12;
"""


def texts():
    """The texts that are changed: the one above, and the short ones of examples/."""
    files = sorted((TOP.parent / "examples").glob("*.spectra"))
    return [RICH] * len(files) + [file.read_text() for file in files]


# tokens that may stand for one another in the grammar, most of the time
ALIKE = [
    ["&", "|", "->", "<->"], ["=", "!=", "<", "<=", ">", ">="], ["+", "-", "*"], ["!", "PREV", "ONCE", "HISTORICALLY", "next"],
    ["SINCE", "TRIGGERED"], ["ini", "alw", "alwEv"], ["asm", "gar"], ["env", "sys", "aux"],
    ["forall", "exists"],
]  # fmt: skip
ELEMENTS = ["req[0]", "slot[x]", "grant[i]", "(forall i in 0..x: g)", "(exists k in 0..1: grant[k])"]
NUMBERS = ["0", "1", "2", "3", "64", "100", "257", "4096", "1000000000001"]


def in_place_of(token, tokens, some):
    """What stands in the place of a token: most of the time one that may stand there."""
    if some.random() < 0.15:
        words = [t.text for t in tokens] + sorted(RESERVED) + SIGNS
        return some.choice(["", f"{token.text} {token.text}", some.choice(words)])
    if token.kind == "name":
        return some.choice([t.text for t in tokens if t.kind == "name"] + ["true", "nope", "next(g)", "(PREV g)", "x + 1", *ELEMENTS])
    if token.kind == "number":
        return some.choice(NUMBERS)
    alike = next((group for group in ALIKE if token.text in group), None)
    return some.choice(alike) if alike else token.text


def changed(text, some):
    """The text with some of its tokens left out, doubled, or in the place of one another."""
    lines = text.splitlines()
    tokens = tokens_of(text.encode())[:-1]
    for _ in range(some.randint(1, 4)):
        token = some.choice(tokens)
        new = in_place_of(token, tokens, some)
        row = lines[token.line - 1]
        if row[token.column - 1 :].startswith(token.text):
            lines[token.line - 1] = row[: token.column - 1] + f" {new} " + row[token.column - 1 + len(token.text) :]
    return "\n".join(lines) + "\n"


def wanted(text):
    """What `audit` should write for an empty log, and its status."""
    shelf = Shelf({"t.spectra": text.encode(), "response.spectra": LIBRARY.encode()})
    try:
        Text("t.spectra", shelf)
    except NoText as refused:
        return refused.line, refused.status
    return "audit ok 0", 0


def compare(program, count, some, folder):
    """1 at the first difference, whose text is left in the folder; else 0."""
    (folder / "response.spectra").write_text(LIBRARY)
    begun, told = texts(), {}
    for number in range(count):
        text = changed(some.choice(begun), some)
        (folder / "t.spectra").write_text(text)
        line, status = wanted(text)
        done = subprocess.run([program, "audit", "t.spectra"], stdin=subprocess.DEVNULL, capture_output=True, cwd=folder)
        if done.stdout.decode() != line + "\n" or done.returncode != status:
            print(f"text {number}: wrote {done.stdout.decode()!r}, with status {done.returncode}, and not {line!r}, with {status}")
            return 1
        word = line.split()[-1] if status == 3 else f"status {status}"
        told[word] = told.get(word, 0) + 1
    print(f"{count} texts as the plain program: " + ", ".join(f"{word} {n}" for word, n in sorted(told.items())))
    return 0


def main():
    if len(sys.argv) not in (2, 3, 4):
        sys.exit("usage: refused.py PROGRAM [COUNT [SEED]]")
    folder = Path(tempfile.mkdtemp(prefix="spectra-refused-"))
    count = int(sys.argv[2]) if len(sys.argv) > 2 else 1000
    some = random.Random(int(sys.argv[3]) if len(sys.argv) > 3 else 1)
    status = compare(Path(sys.argv[1]).resolve(), count, some, folder)
    if status == 0:
        shutil.rmtree(folder)
    else:
        print(f"The text is in {folder}.")
    return status


if __name__ == "__main__":
    sys.exit(main())
