"""The layers of both sides, by going on until nothing changes."""

# ---- the system's


def part(game, base, lapse):
    """The greatest set of states that are in the base, or can wait in the set while the assumption is false."""
    x = set(game.states)
    while True:
        smaller = base | (lapse & game.pre_sys(x))
        if smaller == x:
            return x
        x = smaller


def layers_of(game, goal, z):
    """The layers of a goal for z, from rank 1 on, each with its parts."""
    layers, below = [], set()
    while True:
        base = (goal & game.pre_sys(z)) | game.pre_sys(below)
        parts = [part(game, base, set(game.states) - a) for a in game.assumptions]
        layer = set().union(*parts)
        if layer == below:
            return layers
        layers.append((layer, parts))
        below = layer


def winning(game):
    """Z with the layers of each goal: the greatest set whose states are in some layer of each goal."""
    z = set(game.states)
    while True:
        goals = [layers_of(game, goal, z) for goal in game.goals]
        following = set.intersection(*(layers[-1][0] if layers else set() for layers in goals))
        if following == z:
            return z, goals
        z = following


def round_count(goals):
    return 1 + sum(len(layers) for layers in goals)


# ---- the environment's


def delays_of(game, base, hold, assumption):
    """The iterates from nothing up, from rank 1 on, for a hold and one assumption."""
    cover = base & game.pre_env(hold)
    iterates, t = [], set()
    while True:
        larger = cover & (assumption | game.pre_env(t))
        if larger == t:
            return iterates
        iterates.append(larger)
        t = larger


def hold_of(game, goal, lower):
    """The greatest set of the states that are in some iterate for each assumption, with these iterates."""
    base = (set(game.states) - goal) | game.pre_env(lower)
    hold = set(game.states)
    while True:
        delays = [delays_of(game, base, hold, a) for a in game.assumptions]
        following = set.intersection(*(iterates[-1] if iterates else set() for iterates in delays))
        if following == hold:
            return hold, delays
        hold = following


def env_layers(game):
    """The layers from 1 on, each with the holds of the goals, up to the last that is new."""
    layers, lower = [], set()
    while True:
        holds = [hold_of(game, goal, lower) for goal in game.goals]
        layer = set().union(*(hold for hold, _ in holds))
        if layer == lower:
            return layers
        layers.append((layer, holds))
        lower = layer


def denial_count(layers):
    return 1 + max((sum(map(len, delays)) for _, holds in layers for _, delays in holds), default=0)


# ---- who wins


class Verdict:
    """Who wins a game, with its layers and the line that says so."""

    def __init__(self, game):
        z, self.goals = winning(game)
        self.realizable = game.forces(None, z)
        if self.realizable:
            self.numbers = f"K={round_count(self.goals)}"
            return
        self.layers = env_layers(game)
        last = self.layers[-1][0] if self.layers else set()
        assert last == set(game.states) - z and game.env_input(None, last) is not None
        self.numbers = f"N={len(self.layers)} M={denial_count(self.layers)}"

    def line(self):
        return ("realizable " if self.realizable else "unrealizable ") + self.numbers
