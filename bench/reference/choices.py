"""What the two strategies choose, and what they remember of a play.

Goals, assumptions and layers count from 0 in lists; ranks and iterates count from 1.
"""
from typing import NamedTuple

# ---- the controller


class Play(NamedTuple):
    """Where a controller stands: its state, the goal aimed at, the rank of the state for it, and the assumption waited for."""

    state: tuple
    goal: int
    rank: int
    index: int


FRESH = Play(None, 0, 0, 0)


def answered(game, goals, play, x):
    """Where the controller stands once it has answered an input: the reply leads to the least rank for the goal aimed at, and
    while goal and rank stay, into the part of the assumption that is waited for."""
    reached = game.moves(play.state)[x]
    met = play.state is not None and play.state in game.goals[play.goal]
    aim = (play.goal + 1) % len(goals) if met else play.goal
    rank = next(r for r, (layer, _) in enumerate(goals[aim], 1) if any(s in layer for s in reached))
    layer, parts = goals[aim][rank - 1]
    if play.state is not None and not met and rank == play.rank:
        return Play(next(s for s in reached if s in parts[play.index]), aim, rank, play.index)
    state = next(s for s in reached if s in layer)
    return Play(state, aim, rank, next(i for i, part in enumerate(parts) if state in part))


# ---- the counterstrategy


class Noted(NamedTuple):
    """Where a counterstrategy stands: its state, whether it denies the goal there, the layer, the goal, the assumption aimed at
    when the state came and the one aimed at from there on, the number of the set into which the next state is forced (0 behind
    a shift), and the next input."""

    state: tuple
    denying: bool
    layer: int
    goal: int
    asm: int
    index: int
    rank: int
    input: tuple


def forced(game, state, sets):
    """The number of the first set into which the next state can be forced, from 0, and the first input that forces it."""
    return next((r, x) for r, x in ((r, game.env_input(state, target)) for r, target in enumerate(sets)) if x is not None)


def layers_from_nothing(layers):
    return [set()] + [layer for layer, _ in layers]


def begun(game, layers):
    """Where the counterstrategy stands before the first position."""
    _, x = forced(game, None, layers_from_nothing(layers))
    return Noted(None, False, 0, 0, 0, 0, 0, x)


def noted(game, layers, before, y):
    """Where it stands behind a reply: its next input forces the state into the least layer, or while a goal is denied into the
    least iterate of the hold for the assumption aimed at."""
    state = (game.hidden_after(before.state), before.input, y)
    a, j, i = before.layer, before.goal, before.index
    if not before.denying:
        a = next(a for a, (layer, _) in enumerate(layers, 1) if state in layer)
        j = next(j for j, (hold, _) in enumerate(layers[a - 1][1]) if state in hold)
        i = 0
    if state in game.goals[j]:
        _, x = forced(game, state, layers_from_nothing(layers))
        return Noted(state, False, a, j, i, i, 0, x)
    index = (i + 1) % len(game.assumptions) if state in game.assumptions[i] else i
    rank, x = forced(game, state, [set()] + layers[a - 1][1][j][1][index])
    return Noted(state, True, a, j, i, index, rank, x)
