#!/usr/bin/env python3
"""drawn.py [PROGRAM]: tries tools/draw.py: the graphs of two examples, the facts in the pages of some, and words that are refused.

It ends with 1 where anything is otherwise. What a page does once it is open no test tells.
"""
import json
import re
import subprocess
import sys
import tempfile
from pathlib import Path

from exported import TOP, Exporter

NAMES = "arbiter coffee crossing gate stuck tank thermostat trapped unrealizable".split()
GRAPHS = {"tank": "pump", "trapped": "gate"}
DRAW = str(TOP / "tools/draw.py")
# what would make a page ask the network
ASKS = re.compile(r"https?:|\bsrc=|\bhref=|@import|url\(|fetch\(|XMLHttp|import\(")


def drawn(*words):
    """What is written, and the status."""
    done = subprocess.run([sys.executable, DRAW, *map(str, words)], capture_output=True, text=True, encoding="utf-8", cwd=TOP)
    return done.stdout, done.returncode


def wrong_facts(game, table, page):
    """What a page has otherwise than the table, and than the sets of states of the goals."""
    facts = json.loads(page.split('<script type="application/json" id="strategy">')[1].split("</script>")[0])
    if facts["first"] != table["first"] or facts["claim"].lower() != " ".join(f"{n}={table[n]}" for n in "knm" if n in table):
        yield "its first nodes or its claim"
    if len(facts["nodes"]) != len(table["nodes"]):
        yield "how many nodes it has"
    for at, (fact, node) in enumerate(zip(facts["nodes"], table["nodes"])):
        if any(fact.get(key) != node.get(key) for key in ("in", "out", "hidden", "next", "rank", "layer", "move")):
            yield f"node {at}"
        if (fact["goal"] + 1, fact["asm"] + 1) != (node["goal"], node["asm"]):
            yield f"the goal of node {at}, or its assumption"
        hidden = tuple(table.values[k] for table, k in zip(game.tables, node["hidden"]))
        state = hidden, tuple(node["in"]), tuple(node["out"])
        for key, sets in (("goals", game.goals), ("asms", game.assumptions)):
            if fact[key] != "".join("1" if state in one else "0" for one in sets):
                yield f"the {key} that hold at node {at}"


def tried(name, exporter, folder):
    """What is otherwise of an example."""
    file = f"examples/{name}.spectra"
    opened = exporter.open(TOP / file)
    table = folder / "table.json"
    table.write_bytes(exporter.table(str(TOP / file), opened))
    page, status = drawn(file, table)
    if status != 0 or ASKS.search(page):
        yield f"status {status}, or it asks the network"
        return
    yield from wrong_facts(opened[0], json.loads(table.read_text()), page)
    if name in GRAPHS:
        wanted = (TOP / f"tools/tests/drawn-{name}.dot").read_text()
        if (found := drawn(file, table, GRAPHS[name])) != (wanted, 0):
            yield f"the graph: {found[0]}"
    if drawn(file, table, "nothing") != ("", 2) or drawn("examples/hotel.spectra", table) != ("", 2):
        yield "an unknown variable, or another specification's table, isn't refused"


def main():
    exporter, differ = Exporter(*sys.argv[1:2]), 0
    with tempfile.TemporaryDirectory() as made:
        for name in NAMES:
            for difference in tried(name, exporter, Path(made)):
                differ += 1
                print(f"drawn: {name}: {difference}")
    for words in ([], ["examples/lift.spectra"], ["examples/none.spectra", "-"], ["examples/lift.spectra", "none.json"]):
        if drawn(*words) != ("", 2):
            differ += 1
            print(f"drawn: {words} aren't refused")
    print(f"drawn: {len(NAMES)} pages, {len(GRAPHS)} graphs, {differ} differ; {exporter.said()}")
    return 1 if differ else 0


if __name__ == "__main__":
    sys.exit(main())
