#!/usr/bin/env python3
"""draw.py FILE TABLE [VARIABLE..]: a page that plays an exported strategy, or where variables are named, a graph of it.

FILE is the specification, and TABLE what `spectra export FILE` wrote (`-`: the standard input). The page needs no network: who
opens it chooses each input, or against a counterstrategy each reply, and sees which goal is aimed at, how far it is, and what is
waited for. The graph is a Graphviz text, in which all nodes that agree in these variables, in the goal and in the layer are one box.

    spectra export examples/robot.spectra | tools/draw.py examples/robot.spectra - > robot.html
    spectra export examples/robot.spectra | tools/draw.py examples/robot.spectra - place | dot -Tsvg > robot.svg

It ends with 2 where a file can't be read or a name is none of FILE's variables. It doesn't check that the strategy wins.
"""
import json
import sys
from pathlib import Path

from strategy import Strategy, item, items
from texts import Unreadable

TEMPLATE = Path(__file__).resolve().parent / "draw.html"
COLOURS = {"turn": "forestgreen", "nearer": "royalblue", "waits": "darkorange", "shift": "forestgreen", "denies": "firebrick"}


# ---- the page


def promise(strategy):
    """What the table claims, in words."""
    numbers = strategy.table.numbers
    if not strategy.is_controller:
        if numbers["n"] == 0:
            return "The system has no legal reply to the first input."
        met = "each denial meets" if numbers["m"] == 1 else f"any {numbers['m']} denials in a row meet"
        return (
            f"Whatever the system does, at all positions but at most {numbers['n']} a recurring guarantee is denied, and {met} each "
            "recurring assumption; or the system has no legal reply left."
        )
    if not strategy.goal_labels:
        return "Each guarantee is kept, whatever the environment does within its assumptions."
    a_round = "A round is a position." if not strategy.asm_labels else "In a round each recurring assumption holds somewhere."
    stretch = "each round meets" if numbers["k"] == 1 else f"any {numbers['k']} rounds in a row meet"
    return f"Whatever the environment does within its assumptions, {stretch} each recurring guarantee. {a_round}"


def bits(truths):
    return "".join("1" if it else "0" for it in truths)


def node_facts(strategy, node):
    """What the page shows of a node."""
    hidden, x, y = node.state
    facts = {
        "in": x, "out": y, "goal": node.goal - 1, "asm": node.asm - 1, "rank": node.rank, "next": node.follows,
        "hidden": [table.values.index(value) for table, value in zip(strategy.game.tables, hidden)],
        "goals": bits(strategy.holds(strategy.goal_tests, node)), "asms": bits(strategy.holds(strategy.asm_tests, node)),
    }  # fmt: skip
    return facts if strategy.is_controller else facts | {"layer": node.layer, "move": node.reply}


def facts_of(strategy):
    """All that the page shows."""
    whole = {
        "file": strategy.file, "controller": strategy.is_controller, "claim": strategy.claim(), "promise": promise(strategy),
        "inputs": [name for name, _ in strategy.inputs], "outputs": [name for name, _ in strategy.outputs],
        "goals": strategy.goals("gar"), "asms": strategy.goals("asm"), "first": strategy.table.first,
        "nodes": [node_facts(strategy, node) for node in strategy.nodes],
    }  # fmt: skip
    return whole if strategy.is_controller else whole | {"move": strategy.table.reply}


def page(strategy):
    """The page, with the strategy in it as JSON, in which no sign can end the element that it stands in."""
    facts = json.dumps(facts_of(strategy), separators=(",", ":"), ensure_ascii=False).replace("<", "\\u003c")
    return TEMPLATE.read_text(encoding="utf-8").replace("@STRATEGY@", facts)


# ---- the graph


class Graph:
    """Boxes of nodes that agree in some variables, in the goal and in the layer, and the kinds of moves between them."""

    def __init__(self, strategy, shown):
        self.strategy, self.boxes, self.moves = strategy, {}, {}
        names = [name for name, _ in strategy.inputs + strategy.outputs]
        self.places = [(name, names.index(name)) for name in shown]
        for node in strategy.nodes:
            self.boxes.setdefault(self.key(node), []).append(node)
        for node in strategy.nodes:
            for number in node.follows:
                target = strategy.nodes[number]
                kind = strategy.kind(node, target)
                self.moves.setdefault((self.key(node), self.key(target), kind), []).append(self.chosen(target))

    def key(self, node):
        """What the nodes of one box share; a layer comes first, the greatest one leftmost."""
        values = node.state[1] + node.state[2]
        return -node.layer, node.goal, tuple(values[at] for _, at in self.places)

    def chosen(self, target):
        """What the other player chose on the way to a node."""
        return target.state[1 if self.strategy.is_controller else 2]

    def aim(self, key):
        """What the nodes of a box do about their goal."""
        name = self.strategy.name_of(key[1])
        if self.strategy.is_controller:
            return f"to {name}"
        holds = {self.strategy.goal_holds(node) for node in self.boxes[key]}
        return f"{name} holds" if holds == {True} else f"denies {name}" if holds == {False} else f"{name}: denied, or holds"

    def box(self, key):
        """The label of a box: the values, the goal, and whether no move is left there."""
        rows = [" ".join(item(name, value) for (name, _), value in zip(self.places, key[2])), self.aim(key)]
        if any(not node.follows for node in self.boxes[key]):
            rows.append("no input is legal" if self.strategy.is_controller else "the system is stuck")
        return rows

    def edge(self, choices):
        """What all choices of an edge have in common."""
        variables = self.strategy.inputs if self.strategy.is_controller else self.strategy.outputs
        shared = [all(one[at] == choices[0][at] for one in choices) for at in range(len(variables))]
        return [text for text, same in zip(items(variables, choices[0]), shared) if same]


def quoted(rows):
    """Rows as a text of Graphviz."""
    return '"' + "\\n".join(row.replace("\\", "\\\\").replace('"', '\\"') for row in rows) + '"'


def box_lines(graph, numbers, first):
    """The boxes; those of one layer stand together where there are layers."""
    for layer in sorted({key[0] for key in numbers}):
        keys = [key for key in numbers if key[0] == layer]
        boxes = [f"n{numbers[key]} [label={quoted(graph.box(key))}{', penwidth=2' if key in first else ''}];" for key in keys]
        if graph.strategy.is_controller:
            yield from (f"  {box}" for box in boxes)
        else:
            yield f"  subgraph cluster{-layer} {{ label={quoted([f'layer {-layer}'])}; {' '.join(boxes)} }}"


def edge_line(graph, numbers, move, choices):
    source, target, kind = move
    style = f"color={COLOURS[kind]}, " + ("style=dashed, " if kind == "waits" else "")
    return f"  n{numbers[source]} -> n{numbers[target]} [label={quoted(graph.edge(choices))}, {style}tooltip={kind}];"


def graph_text(strategy, shown):
    """The lines of the Graphviz text; the boxes in which a play begins have thicker lines."""
    graph = Graph(strategy, shown)
    numbers = {key: at for at, key in enumerate(sorted(graph.boxes, key=repr))}
    first = {graph.key(strategy.nodes[number]) for number in strategy.table.first}
    used = sorted({kind for _, _, kind in graph.moves}, key=list(COLOURS).index)
    yield f"digraph {quoted([strategy.file])} {{"
    yield "  rankdir=LR; node [shape=box, style=rounded, fontname=Helvetica]; edge [fontname=Helvetica, fontsize=10];"
    yield f"  label={quoted(['; '.join([strategy.claim(), *(f'{COLOURS[kind]}: {kind}' for kind in used)])])}; fontname=Helvetica;"
    yield from box_lines(graph, numbers, first)
    for move, choices in graph.moves.items():
        yield edge_line(graph, numbers, move, choices)
    yield "}"


def main():
    words = sys.argv[1:]
    if len(words) < 2 or words[0].startswith("--"):
        print(__doc__, file=sys.stderr)
        return 2
    try:
        strategy = Strategy(words[0], words[1])
    except Unreadable as why:
        print(why, file=sys.stderr)
        return 2
    names = [name for name, _ in strategy.inputs + strategy.outputs]
    for word in words[2:]:
        if word not in names:
            print(f"{word}: no variable of {words[0]}, which has {' '.join(names)}", file=sys.stderr)
            return 2
    if words[2:]:
        print("\n".join(graph_text(strategy, words[2:])))
    else:
        print(page(strategy), end="")
    return 0


if __name__ == "__main__":
    sys.exit(main())
