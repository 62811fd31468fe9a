#!/usr/bin/env python3
"""cases.py [PROGRAM [WORD]]: the plain program (reference/), and PROGRAM where one is named, on the rows of crates/worked_rows/data,
or on those in whose sentence WORD stands. It says where one of them writes something else than the row has, or has another status,
how many rows it compared, and how many it left out and why.
"""
import subprocess
import sys
import tempfile
from collections import Counter
from math import prod
from pathlib import Path

TOP = Path(__file__).resolve().parent
sys.path.insert(0, str(TOP))

from plain import COMMANDS, deep  # noqa: E402
from reference.game import Game  # noqa: E402
from reference.talks import answer, input_of  # noqa: E402
from reference.text import NoText, Shelf, Text  # noqa: E402
from rows import rows  # noqa: E402

MOST_STATES = 1_000
MOST_BYTES = 20_000


class LeftOut(Exception):
    """Why a row isn't compared."""


def state_count(game):
    domains = [domain for _, domain in game.inputs + game.outputs] + [table.values for table in game.tables]
    return prod(len(domain) for domain in domains)


def plain(row):
    """What the plain program writes for a row, and its status."""
    if len(row.words) != 2 or row.words[0] not in COMMANDS or row.words[1].startswith("-"):
        raise LeftOut("the words are no command of the plain program")
    if any(len(text.replace(b" ", b"")) > MOST_BYTES for text in row.files.values()):
        raise LeftOut("a text is too long for the plain program")
    command, name = row.words
    try:
        text = Text(name, Shelf(row.files))
    except NoText as refused:
        return (refused.line + "\n").encode(), refused.status
    except RuntimeError:
        raise LeftOut("bodies are put in too often for the plain program") from None
    if command not in ("audit", "verify", "order") and state_count(Game(text)) > MOST_STATES:
        raise LeftOut("there are too many states for the plain program")
    lines, status = answer(command, text, input_of(command, row.input))
    return "".join(line + "\n" for line in lines).encode(), status


def built(program, row):
    """What a built program writes for a row, in a folder with its files, and its status."""
    if any(name.startswith("/") or name.endswith("/") for name in row.files) or row.written.endswith(b"/\n"):
        raise LeftOut("a file lies outside of the folder, or has a folder's name")
    with tempfile.TemporaryDirectory() as folder:
        for name, text in row.files.items():
            file = Path(folder, name)
            file.parent.mkdir(parents=True, exist_ok=True)
            file.write_bytes(text)
        run = subprocess.run([program, *row.words], input=row.input, capture_output=True, cwd=folder)
    return run.stdout, run.returncode


def compare(name, play, chosen):
    """Plays the rows in one way; says how many differ."""
    compared = differences = 0
    out = Counter()
    for row in chosen:
        try:
            if row.fails():
                raise LeftOut("a device fails")
            got = play(row)
        except LeftOut as why:
            out[str(why)] += 1
            continue
        compared += 1
        if got != (row.written, row.status):
            differences += 1
            print(f"{row.place}: {row.shows}\n  the row {row.written!r}, {row.status}\n  {name} {got[0]!r}, {got[1]}", flush=True)
    print(f"{name}: {compared} rows compared, {differences} differ, {sum(out.values())} left out")
    for why, count in out.most_common():
        print(f"  {count}: {why}")
    return differences


def main():
    program, word = [*sys.argv[1:], "", ""][:2]
    chosen = [row for row in rows() if word in row.shows]
    differ = compare("the plain program", plain, chosen)
    if program:
        path = str(Path(program).resolve())
        differ += compare("the program", lambda row: built(path, row), chosen)
    return 1 if differ else 0


if __name__ == "__main__":
    sys.exit(deep(main))
