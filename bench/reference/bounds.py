"""What the plays of a table can do at most, by search among its nodes. Ranks and layers are no part of it."""

NEVER_ENDS = float("inf")


def most(starts, follow, weight):
    """The greatest sum of weights along a way; endless where some way comes round with a weight above 0.

    A way begins at a start; `follow` gives what comes next, and `weight` what it counts.
    """
    best, colour, order = {}, {}, []
    for start in starts:
        if start not in colour:
            visit(start, follow, colour, order)
    # those behind come first in the order, but for ways that come round
    for _ in range(len(order) + 1):
        changed = False
        for at in order:
            value = weight(at) + max((best.get(to, 0) for to in follow(at)), default=0)
            changed, best[at] = changed or best.get(at) != value, value
        if not changed:
            return max((best[start] for start in starts), default=0)
    return NEVER_ENDS


def visit(start, follow, colour, order):
    """All that is reached from a start, what is reached last first."""
    colour[start] = True
    path = [(start, iter(follow(start)))]
    while path:
        at, left = path[-1]
        to = next((one for one in left if one not in colour), None)
        if to is None:
            order.append(at)
            path.pop()
        else:
            colour[to] = True
            path.append((to, iter(follow(to))))


class Plays:
    """The nodes that plays of a table reach, and which goals and assumptions hold there."""

    def __init__(self, game, table):
        self.table, self.reached = table, []
        visited = {}
        for number in table.first:
            if number not in visited:
                visit(number, self.follow, visited, self.reached)
        now = {number: game.named(table.nodes[number].state) for number in self.reached}
        self.goals = [{t for t in self.reached if test(now[t])} for test in game.recurring("gar")[1]]
        self.assumptions = [{t for t in self.reached if test(now[t])} for test in game.recurring("asm")[1]]

    def follow(self, number):
        return self.table.nodes[number].follows

    def k(self):
        """One more than the most rounds of a stretch that doesn't meet some goal."""
        return 1 + max(self.rounds_without(goal) for goal in self.goals)

    def rounds_without(self, goal):
        """The most rounds of a stretch in which a goal never holds. On a way stands which assumptions were met in the round."""
        everything = frozenset(range(len(self.assumptions)))

        def met(number, before):
            some = before | {i for i, states in enumerate(self.assumptions) if number in states}
            return number, frozenset(some)

        def follow(place):
            number, some = place
            before = frozenset() if some == everything else some
            return [met(to, before) for to in self.follow(number) if to not in goal]

        starts = [met(number, frozenset()) for number in self.reached if number not in goal]
        return most(starts, follow, lambda place: place[1] == everything)

    def denies(self, number):
        return number not in self.goals[self.table.nodes[number].goal - 1]

    def n(self):
        """The most shifts of a play."""
        return most(list(self.table.first), self.follow, lambda number: not self.denies(number))

    def m(self):
        """One more than the most denials in a row in which some assumption never holds."""

        def denied(states):
            def follow(number):
                return [to for to in self.follow(number) if self.denies(to) and to not in states]

            return most([t for t in self.reached if self.denies(t) and t not in states], follow, lambda number: 1)

        return 1 + max(map(denied, self.assumptions))

    def is_steady(self):
        """Whether neighbouring denials deny one goal."""
        goal = lambda number: self.table.nodes[number].goal
        return all(
            goal(to) == goal(number) for number in self.reached if self.denies(number) for to in self.follow(number) if self.denies(to)
        )


def holds(game, table):
    """Whether the numbers of a table hold for all plays in it."""
    plays = Plays(game, table)
    if "k" in table.numbers:
        return plays.k() <= table.numbers["k"]
    return plays.is_steady() and plays.n() <= table.numbers["n"] and plays.m() <= table.numbers["m"]
