"""The ten rules by which a table is checked, five for a system's table and five for an environment's. No strategy is made here."""
from .tables import SYSTEM


class Rules:
    """What the rules ask of a table's nodes."""

    def __init__(self, game, table):
        self.game, self.table = game, table
        self.goals, self.assumptions = game.recurring("gar")[1], game.recurring("asm")[1]

    def is_there(self, number):
        return number < len(self.table.nodes)

    def targets(self, node):
        """The nodes that a node names."""
        return [self.table.nodes[number] for number in node.follows if self.is_there(number)]

    def names(self, numbers, wanted):
        """Whether the numbers name one node for each set of states, in order, with a state of it."""
        return len(numbers) == len(wanted) and all(
            self.is_there(number) and self.table.nodes[number].state in states for number, states in zip(numbers, wanted)
        )

    def is_numbered(self, node):
        return 1 <= node.goal <= len(self.goals) and 1 <= node.asm <= len(self.assumptions)

    def goal_holds(self, goal, state):
        return self.goals[goal - 1](self.game.named(state))

    def asm_holds(self, asm, state):
        return self.assumptions[asm - 1](self.game.named(state))

    def first_flaw(self):
        """The first rule that fails, and at which node; None where all hold."""
        if not self.first():
            return self.numbers[0], 0
        for at, node in enumerate(self.table.nodes):
            for number, rule in zip(self.numbers[1:], (self.counts, self.moves, self.leads)):
                if not rule(node):
                    return number, at
        return None if self.last() else (self.numbers[4], 0)


class SystemRules(Rules):
    numbers = (1, 2, 3, 4, 5)

    def first(self):
        """1: `first` names, for each legal first input in order, a node with it, the first hidden values and a legal output."""
        return self.names(self.table.first, list(self.game.moves(None).values()))

    def counts(self, node):
        """2: goal and assumption are there, and the rank is at least 1."""
        return self.is_numbered(node) and node.rank >= 1

    def moves(self, node):
        """3: `next` names, for each legal next input in order, a node with it, the next hidden values and a legal output."""
        return self.names(node.follows, list(self.game.moves(node.state).values()))

    def leads(self, node):
        """4: where the goal holds the next one is aimed at; else the goal stays, and the rank falls, or rank and assumption stay
        and the assumption is false."""
        if self.goal_holds(node.goal, node.state):
            return all(target.goal == node.goal % len(self.goals) + 1 for target in self.targets(node))
        waits = not self.asm_holds(node.asm, node.state)
        return all(
            t.goal == node.goal and (t.rank < node.rank or (t.rank == node.rank and t.asm == node.asm and waits))
            for t in self.targets(node)
        )

    def last(self):
        """5: k is at least 1 and the greatest rank of each goal together."""
        ranks = [[node.rank for node in self.table.nodes if node.goal == j] for j in range(1, len(self.goals) + 1)]
        return self.table.numbers["k"] >= 1 + sum(max(some, default=0) for some in ranks)


class EnvironmentRules(Rules):
    numbers = (6, 7, 8, 9, 10)

    def answers(self, before, x, numbers):
        """Whether an input is legal, and for each legal output to it in order a node with these and the hidden values is named."""
        moves = self.game.moves(before)
        return x in moves and self.names(numbers, [{state} for state in moves[x]])

    def first(self):
        """6: the first input is legal, and `first` names a node for each legal first output."""
        return self.answers(None, self.table.reply, self.table.first)

    def counts(self, node):
        """7: layer, goal and assumption are there."""
        return 1 <= node.layer <= self.table.numbers["n"] and self.is_numbered(node)

    def moves(self, node):
        """8: the next input is legal, and `next` names a node for each legal output to it."""
        return self.answers(node.state, node.reply, node.follows)

    def updated(self, node):
        """The assumption waited for from the node on."""
        return node.asm % len(self.assumptions) + 1 if self.asm_holds(node.asm, node.state) else node.asm

    def leads(self, node):
        """9: where the goal holds the layer falls; else layer and goal stay and the updated assumption is waited for, the rank is
        at least 1, and it falls where neither the goal nor that assumption holds next."""
        targets = self.targets(node)
        if self.goal_holds(node.goal, node.state):
            return all(target.layer < node.layer for target in targets)
        u = self.updated(node)
        if any((t.layer, t.goal, t.asm) != (node.layer, node.goal, u) for t in targets) or (targets and node.rank < 1):
            return False
        short = [t for t in targets if not self.goal_holds(node.goal, t.state) and not self.asm_holds(u, t.state)]
        return all(t.rank < node.rank for t in short)

    def bound(self, denying, i):
        """The greatest number that a denying node of a layer and goal gives for an assumption."""
        given = [node.rank + (not self.asm_holds(node.asm, node.state)) for node in denying if self.updated(node) == i]
        return max(given + [1 for node in denying if node.asm == i], default=0)

    def last(self):
        """10: m is at least 1, and more than the bounds of all assumptions together, for each layer and goal."""
        m, nodes = self.table.numbers["m"], self.table.nodes
        for layer, goal in {(node.layer, node.goal) for node in nodes}:
            denying = [v for v in nodes if (v.layer, v.goal) == (layer, goal) and not self.goal_holds(v.goal, v.state)]
            if m < 1 + sum(self.bound(denying, i) for i in range(1, len(self.assumptions) + 1)):
                return False
        return m >= 1


def first_flaw(game, table):
    """The first rule that fails, and at which node; None for a sound table."""
    return (SystemRules if table.kind == SYSTEM else EnvironmentRules)(game, table).first_flaw()
