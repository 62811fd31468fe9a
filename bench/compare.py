#!/usr/bin/env python3
"""compare.py PROGRAM [COUNT [SEED]]: random texts and inputs, each command of the program against the plain one (reference/).

It works in a temporary folder. At the first difference it stops, and says where the text and the input are left.
"""
import random
import shutil
import subprocess
import sys
import tempfile
from pathlib import Path

sys.path.insert(0, str(Path(__file__).resolve().parent))

from reference.game import Game  # noqa: E402
from reference.talks import answer, lines_of, show  # noqa: E402
from reference.text import Shelf, Text  # noqa: E402

COMMANDS = ("synth", "run", "order", "counter", "core", "separate", "audit")
DOMAINS = ("boolean", "boolean", "boolean", "Int(0..2)", "Int(-1..1)", "{RED, GREEN, BLUE}")
ROWS = ("asm ini", "asm alw", "asm alw", "asm alwEv", "gar ini", "gar alw", "gar alw", "gar alw", "gar alwEv", "gar alwEv")
PATTERN = """pattern responds(cause, effect) {
  var {IDLE, WAITING} state;
  ini state = IDLE;
  alw next(state) = WAITING <-> !effect & (state = WAITING | cause);
  alwEv state = IDLE;
}"""
MOST_STATES = 2000


class Maker:
    """Makes random texts."""

    def __init__(self, seed):
        self.random = random.Random(seed)

    def declared(self, owner, most):
        """Variables, each with how many elements it has; 0 for what is no array."""
        names = "ab" if owner == "env" else "gh"
        count = self.random.randint(0 if owner == "env" else 1, most)
        return [(name, owner, self.random.choice(DOMAINS), self.random.choice((0, 0, 0, 2))) for name in names[:count]]

    def read(self, declared, others):
        """What may be read of variables: themselves, or elements, and quantifiers of these. An index may read one of the others."""
        whole = [name for name, _, kind, count in others if kind.startswith("Int") and not count]
        found = []
        for name, _, kind, count in declared:
            if not count:
                found.append((name, kind))
                continue
            indexes = ["0", "1"] + [f"{other} mod {count}" for other in whole]
            found += [(f"{name}[{index}]", kind) for index in indexes]
            word = self.random.choice(("forall", "exists"))
            body = {"b": f"{name}[i]", "I": f"{name}[i] <= i", "{": f"{name}[1 - i] = RED"}[kind[0]]
            found.append((f"({word} i in 0..{count - 1}: {body})", "boolean"))
        return found

    def number(self, variables):
        some = [name for name, kind in variables if kind.startswith("Int")]
        if some and self.random.random() < 0.7:
            return self.random.choice(some)
        return str(self.random.randint(-1, 2)) if self.random.random() < 0.8 else "1 + 1"

    def atom(self, variables):
        """A Boolean expression over these."""
        if not variables or self.random.random() < 0.05:
            return self.random.choice(("true", "false"))
        name, kind = self.random.choice(variables)
        if kind == "boolean":
            return name
        if kind.startswith("Int"):
            sign = self.random.choice(("=", "!=", "<", "<=", ">", ">="))
            return f"({name} {sign} {self.number(variables)})"
        return f"({name} {self.random.choice(('=', '!='))} {self.random.choice(('RED', 'GREEN', 'BLUE'))})"

    def formula(self, now, later, depth, past=True):
        """A Boolean expression over these at present, and those at the next position; None: there is no next."""
        if later is not None and self.random.random() < 0.35:
            return f"next({self.formula(later, None, depth - 1, past=False)})"
        if depth <= 0 or self.random.random() < 0.25:
            return self.atom(now)
        if past and self.random.random() < 0.12:
            return self.past(now, depth)
        if self.random.random() < 0.25:
            return f"!({self.formula(now, later, depth - 1, past)})"
        sign = self.random.choice(("&", "|", "->", "<->"))
        return f"({self.formula(now, later, depth - 1, past)}) {sign} ({self.formula(now, later, depth - 1, past)})"

    def past(self, now, depth):
        """A past operator over these, or one more in another one."""
        word = self.random.choice(("PREV", "ONCE", "HISTORICALLY", "SINCE", "TRIGGERED"))
        first, second = (self.formula(now, None, depth - 2) for _ in range(2))
        return f"({first}) {word} ({second})" if word in ("SINCE", "TRIGGERED") else f"{word} ({first})"

    def monitor(self, both):
        """A monitor that follows some formula."""
        return f"monitor boolean m {{ ini {self.random.choice(('m', '!m'))}; alw next(m) <-> ({self.formula(both, None, 2)}); }}"

    def owed(self, both):
        """A use of the pattern, or a trigger, of either player."""
        role = self.random.choice(("asm", "gar", "gar"))
        cause, effect = (self.formula(both, None, 1) for _ in range(2))
        if self.random.random() < 0.5:
            return f"{role} responds({cause}, {effect});"
        begin = self.random.choice(("", "[true]* ", "([true] [true])* "))
        repeat = self.random.choice(("", "?", "+", "*", "{2}", "{0,2}"))
        return f"{role} trig {begin}[{cause}] |=> [true]{repeat} [{effect}];"

    def line(self, inputs, outputs):
        row = self.random.choice(ROWS)
        both = inputs + outputs
        if row == "asm ini":
            says = self.formula(inputs, None, 2)
        elif row == "asm alw":
            says = self.formula(self.random.choice((inputs, both)), self.random.choice((None, inputs)), 2)
        elif row == "gar alw":
            says = self.formula(both, self.random.choice((None, both)), 3)
        else:
            says = self.formula(both, None, 2)
        return f"{row} {says};"

    def text(self):
        declared = self.declared("env", 2) + self.declared("sys", 2)
        own = {who: [one for one in declared if one[1] == who] for who in ("env", "sys")}
        inputs, outputs = self.read(own["env"], own["env"]), self.read(own["sys"], declared)
        more = []
        if self.random.random() < 0.25:
            more.append(self.monitor(inputs + outputs))
            outputs.append(("m", "boolean"))
        lines = [self.line(inputs, outputs) for _ in range(self.random.randint(1, 6))]
        if self.random.random() < 0.35:
            lines.insert(self.random.randint(0, len(lines)), self.owed(inputs + outputs))
        self.random.shuffle(lines)
        variables = [f"{owner} {kind}{f'[{count}]' if count else ''} {name};" for name, owner, kind, count in declared]
        return "\n".join(["import \"responds.spectra\"", "spec X"] + variables + more + lines) + "\n"

    def given(self, variables, count):
        """Lines for some variables, now and then a bad one."""
        lines = []
        for _ in range(self.random.randint(0, count)):
            line = show(variables, [self.random.choice(domain) for _, domain in variables])
            if self.random.random() < 0.02:
                line += self.random.choice((" z=1", " a=true", "=", "x"))
            lines.append(line)
        return "\n".join(lines) + ("\n" if self.random.random() < 0.8 else "")


def reads(command, game):
    """The variables that the lines of a command's input assign."""
    if command == "run":
        return game.inputs
    return game.outputs if command == "counter" else game.inputs + game.outputs


def main():
    if len(sys.argv) not in (2, 3, 4):
        sys.exit("usage: compare.py PROGRAM [COUNT [SEED]]")
    program = Path(sys.argv[1]).resolve()
    count = int(sys.argv[2]) if len(sys.argv) > 2 else 200
    maker = Maker(int(sys.argv[3]) if len(sys.argv) > 3 else 1)
    folder = Path(tempfile.mkdtemp(prefix="spectra-compare-"))
    status = compare(program, maker, count, folder)
    if status == 0:
        shutil.rmtree(folder)
    else:
        print(f"The text and the input are in {folder}.")
    return status


def compare(program, maker, count, folder):
    """1 at the first difference, whose text and input are left in the folder; else 0."""
    said = dict.fromkeys(COMMANDS, 0)
    library = f"module Responds\n{PATTERN}\n"
    (folder / "responds.spectra").write_text(library)
    for number in range(count):
        source = maker.text()
        (folder / "compare.spectra").write_text(source)
        text = Text("compare.spectra", Shelf({"compare.spectra": source.encode(), "responds.spectra": library.encode()}))
        game = Game(text)
        if len(game.states) > MOST_STATES:
            continue
        for command in COMMANDS:
            given = maker.given(reads(command, game), 12)
            lines, status = answer(command, text, lines_of(given))
            (folder / "compare.in").write_text(given)
            done = subprocess.run([program, command, "compare.spectra"], input=given.encode(), capture_output=True, cwd=folder)
            written = done.stdout.decode()
            if written != "\n".join(lines) + "\n" or done.returncode != status:
                print(f"text {number}, {command}: wrote, with status {done.returncode}\n{written}wanted, with status {status}")
                print("\n".join(lines))
                return 1
            said[command] += status == 0
    print(f"{count} texts, each command as the plain program: status 0 in " + ", ".join(f"{c} {n}" for c, n in said.items()))
    return 0


if __name__ == "__main__":
    sys.exit(main())
