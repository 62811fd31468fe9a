#!/usr/bin/env python3
"""tabled.py [PROGRAM [COUNT [SEED]]]: tables of the examples and of COUNT random texts, and such tables with one number changed.

By the plain program (reference/) each exported table is verified; and of a changed one that is verified the numbers hold for all
plays in it, by a search that looks at no rank (reference/bounds.py). Of those that rules 5 and 10 alone refuse it counts those whose
numbers don't hold. Where PROGRAM is named, and isn't `-`, its `export` and `verify` write what the plain program does.
At the first difference it stops, and says where the text and the table are left.
"""
import json
import random
import shutil
import subprocess
import sys
import tempfile
from math import prod
from pathlib import Path

from compare import PATTERN, Maker
from plain import Disk, deep
from reference.bounds import holds
from reference.game import Game
from reference.jsons import json_of
from reference.tables import NoTable, table_of
from reference.talks import answer
from reference.text import Text

EXAMPLES = Path(__file__).resolve().parent.parent / "examples"
MOST_STATES = 1_000
CHANGES = 30


class Differs(Exception):
    """What is otherwise than it should be."""


def places(value, path=()):
    """The paths to all numbers in a value, and to the truth values of `in`, `out` and `move`."""
    if isinstance(value, int):
        return [path]
    pairs = value.items() if isinstance(value, dict) else enumerate(value) if isinstance(value, list) else ()
    return [found for key, one in pairs for found in places(one, (*path, key))]


def changed(whole, some):
    """A table's text with one number changed, by one or to any small one, or a truth value turned."""
    copy = json.loads(json.dumps(whole))
    *path, last = some.choice(places(copy))
    at = copy
    for key in path:
        at = at[key]
    at[last] = not at[last] if isinstance(at[last], bool) else some.choice([at[last] - 1, at[last] + 1, some.randint(0, 3)])
    return json.dumps(copy, sort_keys=True, separators=(",", ":"), ensure_ascii=False).encode()


class Trial:
    """Compares what is written, in a folder; counts what came."""

    def __init__(self, program, some, folder):
        self.program, self.some, self.folder = program, some, folder
        self.said = dict.fromkeys(("exported", "verified", "not verified", "refused", "of k or m too small for their plays"), 0)

    def written(self, command, text, name, given):
        """What the plain program writes, which is what the program writes."""
        lines, status = answer(command, text, given)
        if self.program:
            (self.folder / "table.json").write_bytes(given)
            done = subprocess.run([self.program, command, name], input=given, capture_output=True, cwd=self.folder)
            if (done.stdout, done.returncode) != ("".join(line + "\n" for line in lines).encode(), status):
                raise Differs(f"{name}: {command} wrote {done.stdout!r}, {done.returncode}, wanted {lines}, {status}")
        return lines[0], status

    def table(self, text, name):
        """Exports a table, verifies it, and then changed ones."""
        line, status = self.written("export", text, name, b"")
        if status != 0:
            return
        self.said["exported"] += 1
        game = Game(text)
        self.verified(game, text, name, line.encode(), always=True)
        whole = json_of(line.encode())
        for _ in range(CHANGES):
            self.verified(game, text, name, changed(whole, self.some))

    def verified(self, game, text, name, given, always=False):
        line, status = self.written("verify", text, name, given)
        self.said["verified" if status == 0 else "not verified" if status == 1 else "refused"] += 1
        if always and status != 0:
            raise Differs(f"{name}: an exported table: {line}")
        if status == 0 and not holds(game, table_of(game, given)):
            (self.folder / "table.json").write_bytes(given)
            raise Differs(f"{name}: {line}, but a play in it doesn't keep that")
        # of those that only the last rule refuses some go past their numbers, and others don't
        if line.split()[2:4] in (["rule", "5"], ["rule", "10"]):
            self.said["of k or m too small for their plays"] += not holds(game, table_of(game, given))


def state_count(game):
    domains = [domain for _, domain in game.inputs + game.outputs] + [table.values for table in game.tables]
    return prod(len(domain) for domain in domains)


def tried(trial, count, maker):
    """Tries the examples that aren't too large, and random texts."""
    shutil.copytree(EXAMPLES, trial.folder, dirs_exist_ok=True)
    (trial.folder / "responds.spectra").write_text(f"module Responds\n{PATTERN}\n")
    names = sorted({row.split()[1] for row in (EXAMPLES / "list.txt").read_text().splitlines()})
    names = [f"{name}.spectra" for name in names] + [None] * count
    left_out = []
    for name in names:
        if name is None:
            name = "tabled.spectra"
            (trial.folder / name).write_text(maker.text())
        text = Text(str(trial.folder / name), Disk())
        if state_count(Game(text)) <= MOST_STATES:
            trial.table(text, name)
        elif name != "tabled.spectra":
            left_out.append(name)
    return left_out


def main():
    words = sys.argv[1:]
    if len(words) > 3 or not all(word.isdigit() for word in words[1:]):
        print("usage: tabled.py [PROGRAM [COUNT [SEED]]]", file=sys.stderr)
        return 2
    program = str(Path(words[0]).resolve()) if words and words[0] != "-" else None
    count = int(words[1]) if len(words) > 1 else 100
    seed = int(words[2]) if len(words) > 2 else 1
    folder = Path(tempfile.mkdtemp(prefix="spectra-tabled-"))
    trial = Trial(program, random.Random(seed), folder)
    try:
        left_out = tried(trial, count, Maker(seed))
    except (Differs, NoTable) as difference:
        print(f"{difference}\nThe text and the table are in {folder}.")
        return 1
    shutil.rmtree(folder)
    told = ", ".join(f"{number} {word}" for word, number in trial.said.items())
    print("the program as the plain program" if program else "the plain program alone", end=": ")
    print(f"{told}; too large: {' '.join(left_out) or 'none'}")
    return 0


if __name__ == "__main__":
    sys.exit(deep(main))
