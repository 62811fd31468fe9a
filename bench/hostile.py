"""Hostile plays for fuzz.py: words, files and inputs, each made by chance from a seed, a number, and what examples/ has."""
import functools
import random
import re
from collections import namedtuple
from pathlib import Path

from compare import PATTERN, Maker
from reference.grammar import EXPRESSIONS, PRODUCTIONS, TERMINALS
from reference.talks import shown
from reference.text import Shelf, Text
from reference.tokens import MOST_BYTES, RESERVED, SIGNS
from refused import NUMBERS, RICH, changed

EXAMPLES = Path(__file__).resolve().parent.parent / "examples"

# A play: its kind, the words behind the program's name, the files by name, and the input.
Play = namedtuple("Play", "kind words files input")

MAIN = "t.spectra"
TALKS = ("run", "counter", "audit")
COMMANDS = (*TALKS, "audit", "synth", "core", "separate", "order")
ODD = [
    *(bytes([byte]) for byte in (0, 9, 13, 26, 27, 127, 128, 255)),
    *(b"\xc0\x80", b"\xe2\x82", b"\xed\xa0\x80", b"\xf4\x90\x80\x80", b"\xf0\x9d\x94"),
    *(text.encode() for text in ("\ufeff", "é", "\u0301", "١", "\u2028", "\u00a0", "𝔸", "ſ", "℘", "\u200d")),
    *(b"/*", b"*/", b"//", b"--", b'"', b"\n", b"\r\n", b"=", b" " * 70_000),
]
NAMES = "a b light g n both later p responds RED GREEN x s nope true1 É _".split()
QUOTED = ['"response.spectra"', '"t.spectra"', '"none.spectra"', '""', '"."', '"/"', '"response.spectra/"', '"a\0"', f'"{"x" * 300}"']
SMALL = """import "response.spectra"
spec Small
type Colour = {RED, GREEN};
env boolean a;
env Colour light;
sys boolean g;
sys Int(-1..2) n;
define both := a & g; later := next(g);
predicate p(boolean b): b | light = GREEN;
"""
# What stands again and again, with the next number for # and the one before it for #-; and what stands behind it once.
NUMBERED = [
    ("define d# := d#-;\n", "gar alw d#;"), ("define d# := !d#-;\n", "gar alw d#;"), ("define d# := d#- & d#-;\n", "gar alw d#;"),
    ("define m# := m#- + 0;\n", "sys Int(0..m#) z;"), ("type t# = t#-;\n", "env t# e;"), ("predicate p#(boolean x): p#-(x);\n", "gar alw p#(g);"),
    ("predicate p#(boolean x): p#-(!x) | x;\n", "gar alw p#(g);"), ("predicate p#(boolean x): p#-(p#-(x));\n", "gar alw p#(g);"),
    ("env boolean v#;\n", ""), ("gar alw g;\n", ""), ("gar l#: alwEv !g;\n", ""), ("sys Int(0..#) w#;\n", "gar alw w1 = 1;"),
    ("sys {A#, B#, A} c#;\n", ""), ("gar alw PREV (n = #);\n", ""), ("gar trig [g] |=> [true] [g];\n", ""), ("asm responds(a, p(g));\n", ""),
    ("pattern r#(x) { var boolean s; ini s; alw next(s) <-> x; alwEv s; }\n", "gar r#(g);"), ("monitor boolean k# { alw next(k#) = g; }\n", ""),
]  # fmt: skip
FIRST = "define d0 := g; m0 := 1;\npredicate p0(boolean x): x;\ntype t0 = boolean;\n"
# What stands between « and » stands again and again.
REPEATED = [
    "gar alw «g & »g", "gar alw «g | »!g", "gar alw n = «1 + »1", "gar alw n = n« * 1»", "gar alw «!»g", "gar alw «(»g«)»", "gar alw «(g -> »g«)»",
    "gar alw «PREV »g", "gar alw «PREV (g & »g«)»", "gar alw «(»g« SINCE g)»", "gar alw p(«p(»g«)»)", "gar alw «p(»g«)»", "gar alw p(«g, »g)",
    "gar trig «[g] »|=> [g]", "gar trig [g]«*» |=> [g]", "gar trig [g]«{1,2}» |=> [g]", "gar trig «(»[g]«)*» |=> [g]", "gar trig [g]« | [g]» |=> [g]",
    "gar alw n = «9»", "gar alw «x»", "sys {«A, »B} z", "sys Int(0..1« + 0») z", "/*« *»*/ gar alw g",
]  # fmt: skip


class Stock:
    """What plays are made of: the files of examples/, and the inputs and logs that stand there."""

    def __init__(self):
        self.files = {file.name: file.read_bytes() for file in sorted(EXAMPLES.glob("*.spectra"))}
        self.names = list(self.files)
        self.libraries = {name: self.files[name] for name in ("response.spectra", "patterns.spectra")}
        self.libraries["responds.spectra"] = f"module Responds\n{PATTERN}\n".encode()
        self.talks = {(file.name.split(".")[0] + ".spectra", file.suffixes[0][1:]): file.read_text().splitlines() for file in EXAMPLES.glob("*.in")}
        for name in self.names:
            played = EXAMPLES / name.replace(".spectra", ".run.out")
            if (name, "audit") not in self.talks and played.is_file():
                rows = zip(self.talks[name, "run"], played.read_text().splitlines()[1:])
                self.talks[name, "audit"] = [f"{given} {answer}" for given, answer in rows if "=" in answer]

    @functools.cache
    def says(self, name):
        """What an example says."""
        return Text(name, Shelf(self.files))


# ---- pieces


def noise(some, most=300):
    """Bytes by chance, or odd ones."""
    length = int(most ** some.random())
    return some.randbytes(length) if some.random() < 0.3 else b"".join(some.choice(ODD) for _ in range(min(length, 8)))


def cut(some, text):
    """Some bytes with a change at one place: others put in, some left out, or twice there, or all behind it left out."""
    at = some.randint(0, len(text))
    end = min(len(text), at + int(200 ** some.random()))
    way = some.randrange(5)
    if way == 0:
        return text[:at] + noise(some) + text[at:]
    if way == 1:
        return text[:at] + noise(some, end - at + 1) + text[end:]
    return [text[:at] + text[end:], text[:end] + text[at:], text[:at]][way - 2]


def token(some):
    """A token by chance."""
    way = some.random()
    if way < 0.45:
        return some.choice(NAMES)
    if way < 0.95:
        return some.choice(SIGNS) if way < 0.75 else some.choice(sorted(RESERVED))
    return some.choice(NUMBERS + QUOTED)


def height(least, row):
    return max((least.get(part, 1_000) for part in row if part in PRODUCTIONS.of), default=0)


def least_heights():
    """How high the lowest tree of each production is; those between an expression and its operands don't count."""
    least = {}
    for _ in PRODUCTIONS.of:
        for name, rows in PRODUCTIONS.of.items():
            least[name] = min(height(least, row) for row in rows) + (name not in EXPRESSIONS or name == "prim")
    return least


LEAST = least_heights()


def derived(some, symbol, levels):
    """The tokens of a text of this symbol of the grammar, as low as can be below so many expressions in one another."""
    if symbol in TERMINALS:
        own = {"NAME": NAMES, "NUMBER": NUMBERS, "TEXT": QUOTED}
        return [some.choice(own[symbol])] if symbol in own else []
    if symbol not in PRODUCTIONS.of:
        return [symbol[1:-1]]
    rows = PRODUCTIONS.of[symbol]
    if levels <= 0:
        lowest = min(height(LEAST, row) for row in rows)
        rows = [row for row in rows if height(LEAST, row) == lowest]
    row = () if rows[0] == () and some.random() < 0.6 else some.choice(rows)
    below = levels - (symbol in ("prim", "ratom"))
    return [token for part in row for token in derived(some, part, below)]


# ---- texts: each call gives the main file, and the example of whose variables its input may be


def of_bytes(some, stock):
    if some.random() < 0.3:
        return noise(some, 5_000), None
    name = some.choice(stock.names)
    text = stock.files[name]
    for _ in range(some.randint(1, 3)):
        text = cut(some, text)
    return text, name


def of_tokens(some, _):
    tokens = [token(some) for _ in range(int(120 ** some.random()))]
    return ("spec X\n" + some.choice(["", " ", " ", "\n"]).join(tokens)).encode(), None


def of_grammar(some, _):
    if some.random() < 0.2:
        return " ".join(derived(some, "text", 3)).encode(), None
    items = [" ".join(derived(some, some.choice(["item", "line", "line"]), 3)) for _ in range(some.randint(1, 4))]
    return (some.choice([SMALL, SMALL, RICH]) + "\n".join(items) + "\n").encode(), None


def of_meaning(some, _):
    maker = Maker(0)
    maker.random = some
    return maker.text().encode(), None


def of_examples(some, stock):
    name = some.choice(stock.names)
    text = stock.files[name].decode()
    if some.random() < 0.6:
        return changed(text, some).encode(), name
    lines = text.splitlines()
    for _ in range(some.randint(1, 4)):
        other = some.choice(stock.files[some.choice(stock.names)].decode().splitlines())
        at = some.randrange(len(lines))
        lines[at : at + some.randrange(2)] = some.choice([[], [lines[at], lines[at]], [other], [some.choice(lines)]])
        lines = lines or [""]
    return ("\n".join(lines) + "\n").encode(), name


def of_many(some, stock):
    """A text in which something stands very often."""
    count = int(30_000 ** some.random())
    way = some.random()
    if way < 0.4:
        piece, last = some.choice(NUMBERED)
        text = SMALL + FIRST + "".join(piece.replace("#-", str(k - 1)).replace("#", str(k)) for k in range(1, count + 1))
        text += last.replace("#", str(count)) + "\n"
    elif way < 0.8:
        text = SMALL + re.sub("«(.*?)»", lambda piece: piece[1] * count, some.choice(REPEATED)) + ";\n"
    else:
        whole = stock.files[some.choice(stock.names)].decode()
        at = some.randrange(len(whole))
        end = at + int(80 ** some.random())
        text = whole[:end] + whole[at:end] * count + whole[end:]
    return text.encode()[: MOST_BYTES + some.randrange(2)], None


# ---- inputs


def proper(some, says, command):
    """A line that assigns what the command reads."""
    system = ("sys", "aux", "monitor")
    wanted = {"run": ("env",), "many": ("env",), "counter": system, "audit": ("env", *system)}.get(command, ())
    items = [f"{name}={shown(some.choice(list(domain)))}" for name, owner, domain in says.variables if owner in wanted]
    return " ".join(([str(some.randrange(6))] if command == "many" else []) + items)


def spoiled(some, line):
    """A line in which something is changed, as bytes: often it can't be read then."""
    items = line.split(" ")
    at = some.randrange(len(items))
    way = some.randrange(8)
    if way == 0:
        some.shuffle(items)
    elif way == 1:
        items[at] = some.choice(["", items[at] + " " + items[at], some.choice(items), items[at].upper(), "z=1"])
    elif way == 2:
        name, _, value = items[at].partition("=")
        items[at] = name + some.choice(["=", " = ", ":", "", "=="]) + some.choice([value, "true", "0", "01", "+1", "-0", "9" * 40, "RED", ""])
    elif way == 3:
        return some.choice([b" ", b"\t", b"  \t ", b"\r"]).join(item.encode() for item in items) + some.choice([b"", b" ", b"\t", b"\r"])
    elif way == 4:
        return line.encode() + b" " * (65_536 - len(line) + some.randint(-1, 1))
    elif way == 5:
        return noise(some)
    else:
        return cut(some, line.encode())
    return " ".join(items).encode()


def given(some, stock, name, command):
    """An input for a command on an example: lines that stand there, and some by chance, most of them as the one before."""
    begun = stock.talks.get((name, command), [])
    rows = begun[: some.randint(0, len(begun))]
    says = stock.says(name)
    for _ in range(int(40 ** some.random())):
        anew = not rows or some.random() < 0.6
        rows.append(proper(some, says, command) if anew else rows[-1])
    often = some.choice([0, 0, 0.02, 0.3])
    lines = [spoiled(some, row) if some.random() < often else row.encode() for row in rows]
    end = some.choice([b"\n", b"\n", b"\n", b"\r\n", b"\n\n"])
    text = end.join(lines) + some.choice([b"", end])
    return cut(some, text) if some.random() < 0.1 else text


# ---- plays

KINDS = [(of_bytes, 12), (of_tokens, 10), (of_grammar, 17), (of_meaning, 10), (of_examples, 25), (of_many, 1)]
WORDS = [
    *("synth", "run", "counter", "core", "separate", "audit", "gen", "help", "Run", "", "-", "--", "---", "-n", "-V", "--help", "--node"),
    *("--nodes", "--nodes", "--nodes=5", "--nodes=", "--nodes=+5", "--nodes=134217728", "--nodes=134217729", "--NODES", "-5", "0", "1", "2"),
    *("64", "65", "007", "+2", "٥", "5000", "0x5", "4294967298", "18446744073709551618", "9" * 5_000, MAIN, MAIN, "none", "response.spectra"),
    *(".", "/", "./t.spectra", "t.spectra/", "é", "a\nb", "x" * 300, "x" * 70_000, b"\xff", b"t\xff.spectra", "run t.spectra", "NODES=2"),
]
PROPER = [["gen", "2"], ["gen", "1", "--nodes", "5000"]] + [[command, MAIN] for command in ("synth", "run", "counter", "core", "separate", "audit")]


def of_words(some, stock):
    """A play whose words are by chance, or those of a command with a change or two."""
    words = list(some.choice(PROPER)) if some.random() < 0.6 else []
    for _ in range(int(6 ** some.random())):
        at = some.randint(0, len(words))
        words[at : at + some.randrange(2)] = [some.choice(WORDS) for _ in range(some.choice([0, 1, 1, 1, 2]))]
    name = some.choice(["stuck.spectra", "realizable.spectra", "crossing.spectra"])
    return Play("words", words, {**stock.libraries, MAIN: stock.files[name]}, some.choice([b"", b"\n", noise(some)]))


def of_lines(some, stock):
    """A play of an example whose input is by chance."""
    name, command = some.choice(stock.names), some.choice(TALKS)
    if some.random() < 0.5:
        name, command = some.choice(sorted(stock.talks))
    return Play("lines", [command, name], {name: stock.files[name], **stock.libraries}, given(some, stock, name, command))


def of_text(some, stock):
    """A play of a text by chance."""
    make = some.choices([kind for kind, _ in KINDS], [often for _, often in KINDS])[0]
    text, name = make(some, stock)
    words = [some.choice(COMMANDS), MAIN]
    if some.random() < 0.4:
        words += ["--nodes", str(int(200_000 ** some.random()) + 1)]
    talk = given(some, stock, name, words[0]) if name and words[0] in TALKS else noise(some)
    return Play(make.__name__.removeprefix("of_"), words, {**stock.libraries, MAIN: text}, talk)


def play_of(seed, number, stock):
    """The play of a number: the same one for the same seed."""
    some = random.Random(f"{seed} {number}")
    make = some.choices([of_words, of_lines, of_text], [8, 17, 75])[0]
    return make(some, stock)
