"""Strategies as tables: the nodes that a strategy's plays meet, and the JSON text that a table is.

In a table goals, assumptions, ranks and layers count from 1, and nodes from 0.
"""
import json
from math import prod

from .choices import FRESH, answered, begun, noted
from .jsons import NoJson, json_of
from .layers import denial_count, round_count

MOST_BYTES, MOST_NODES, MOST_LISTED = 16_777_216, 1_024, 1_024
WORD, WIDE = 2**32, 2**64
SYSTEM, ENVIRONMENT = "controller", "counterstrategy"
NUMBERS = {SYSTEM: ("k",), ENVIRONMENT: ("n", "m")}


class TooLarge(Exception):
    """There are more assignments, nodes or bytes than a table may have."""


class NoTable(Exception):
    """The bytes are no table of the specification."""


class Node:
    """A state with what is remembered there, the next input of the environment's strategy, and the nodes that may come next."""

    def __init__(self, state, asm, goal, rank, layer=0, reply=(), follows=()):
        self.state, self.asm, self.goal, self.rank, self.layer, self.reply = state, asm, goal, rank, layer, reply
        self.follows = follows


class Table:
    """Whose strategy it is, what it claims (k, or n and m), the environment's first input, the first nodes, and all nodes."""

    def __init__(self, kind, numbers, first, nodes, reply=()):
        self.kind, self.numbers, self.first, self.nodes, self.reply = kind, numbers, first, nodes, reply


def is_listed(game, kind):
    """Whether the moves of the other player are few enough to be listed."""
    return prod(len(domain) for _, domain in (game.inputs if kind == SYSTEM else game.outputs)) <= MOST_LISTED


# ---- of a strategy


def explored(start, follow, spot):
    """The plays that are met, one for each spot, in the order in which they are first met; and the numbers of those that follow
    the start and each play."""
    met, plays = {}, []

    def numbers(play):
        found = follow(play)
        for one in found:
            if spot(one) not in met:
                met[spot(one)] = len(plays)
                plays.append(one)
        if len(plays) > MOST_NODES:
            raise TooLarge
        return [met[spot(one)] for one in found]

    first = numbers(start)
    return first, [(play, numbers(play)) for play in plays]


def system_table(game, verdict):
    """The controller's table: a node for each state with what is remembered there."""
    first, plays = explored(FRESH, lambda p: [answered(game, verdict.goals, p, x) for x in game.moves(p.state)], lambda p: p)
    nodes = [Node(p.state, p.index + 1, p.goal + 1, p.rank, follows=row) for p, row in plays]
    return Table(SYSTEM, {"k": round_count(verdict.goals)}, first, nodes)


def environment_table(game, verdict):
    """The counterstrategy's table: a node for each state with its layer, goal, assumption and rank."""
    layers = verdict.layers
    start = begun(game, layers)

    def follow(here):
        return [noted(game, layers, here, state[2]) for state in game.moves(here.state)[here.input]]

    first, plays = explored(start, follow, lambda p: (p.state, p.layer, p.goal, p.asm, p.rank))
    nodes = [Node(p.state, p.asm + 1, p.goal + 1, p.rank, p.layer, p.input, row) for p, row in plays]
    return Table(ENVIRONMENT, {"n": len(layers), "m": denial_count(layers)}, first, nodes, start.input)


def table_for(game, verdict):
    """The table of the winner's strategy."""
    if not is_listed(game, SYSTEM if verdict.realizable else ENVIRONMENT):
        raise TooLarge
    return (system_table if verdict.realizable else environment_table)(game, verdict)


# ---- as a text


def node_members(game, kind, node):
    hidden, x, y = node.state
    members = {
        "asm": node.asm, "goal": node.goal, "rank": node.rank, "in": list(x), "out": list(y), "next": list(node.follows),
        "hidden": [table.values.index(value) for table, value in zip(game.tables, hidden)],
    }  # fmt: skip
    return members if kind == SYSTEM else members | {"layer": node.layer, "move": list(node.reply)}


def text_of(game, table):
    """The JSON text: without blanks, and with rising keys."""
    whole = {"kind": table.kind, "first": table.first, "nodes": [node_members(game, table.kind, node) for node in table.nodes]}
    whole |= table.numbers if table.kind == SYSTEM else table.numbers | {"move": list(table.reply)}
    text = json.dumps(whole, sort_keys=True, separators=(",", ":"), ensure_ascii=False)
    if len(text.encode()) > MOST_BYTES:
        raise TooLarge
    return text


# ---- of a text


def need(holds):
    if not holds:
        raise NoTable


def members_of(given, names):
    """The values of an object that has exactly these keys."""
    need(type(given) is dict and sorted(given) == sorted(names))
    return given


def number_of(given, end):
    need(type(given) is int and 0 <= given < end)
    return given


def row_of(given):
    """The numbers of some nodes, which need not be there."""
    need(type(given) is list)
    return [number_of(one, WORD) for one in given]


def values_of(given, domains):
    """One value of each domain, in order."""
    need(type(given) is list and len(given) == len(domains))
    for value, domain in zip(given, domains):
        need(any(type(one) is type(value) and one == value for one in domain))
    return tuple(given)


def node_of(game, kind, given):
    inputs, outputs = ([domain for _, domain in variables] for variables in (game.inputs, game.outputs))
    names = ["asm", "goal", "hidden", "in", "next", "out", "rank"] + (["layer", "move"] if kind == ENVIRONMENT else [])
    one = members_of(given, names)
    hidden = values_of(one["hidden"], [range(len(table.values)) for table in game.tables])
    values = tuple(table.values[k] for table, k in zip(game.tables, hidden))
    state = values, values_of(one["in"], inputs), values_of(one["out"], outputs)
    asm, goal, rank = number_of(one["asm"], WORD), number_of(one["goal"], WORD), number_of(one["rank"], WIDE)
    node = Node(state, asm, goal, rank, follows=row_of(one["next"]))
    if kind == ENVIRONMENT:
        node.layer, node.reply = number_of(one["layer"], WIDE), values_of(one["move"], inputs)
    return node


def table_of(game, given):
    """The table that the bytes are."""
    try:
        need(len(given) <= MOST_BYTES)
        whole = json_of(given)
    except NoJson:
        raise NoTable from None
    kind = whole.get("kind") if type(whole) is dict else None
    need(kind in (SYSTEM, ENVIRONMENT))
    members_of(whole, ["kind", "first", "nodes", *NUMBERS[kind]] + (["move"] if kind == ENVIRONMENT else []))
    need(type(whole["nodes"]) is list and len(whole["nodes"]) <= MOST_NODES)
    nodes = [node_of(game, kind, node) for node in whole["nodes"]]
    numbers = {name: number_of(whole[name], WIDE) for name in NUMBERS[kind]}
    table = Table(kind, numbers, row_of(whole["first"]), nodes)
    if kind == ENVIRONMENT:
        table.reply = values_of(whole["move"], [domain for _, domain in game.inputs])
    return table
