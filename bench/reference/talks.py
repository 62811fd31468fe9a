"""What each command writes, line by line, and the status at its end."""
import re

from .choices import FRESH, answered, begun, noted
from .game import Game
from .layers import Verdict
from .orders import order
from .rules import first_flaw
from .tables import NoTable, TooLarge, is_listed, table_for, table_of, text_of
from .text import Line

# ---- lines

MOST_BYTES = 65_536


def shown(value):
    return str(value).lower() if isinstance(value, bool) else str(value)


def show(variables, values):
    return " ".join(f"{name}={shown(v)}" for (name, _), v in zip(variables, values))


def read(variables, line):
    """The values that a line gives the variables, or None."""
    if len(line.encode()) > MOST_BYTES:
        return None
    items = [item.split("=") for item in line.replace("\t", " ").split(" ") if item]
    if any(len(item) != 2 for item in items) or sorted(i[0] for i in items) != sorted(name for name, _ in variables):
        return None
    given = dict(items)
    values = [next((v for v in domain if shown(v) == given[name]), None) for name, domain in variables]
    return None if any(v is None for v in values) else tuple(values)


def lines_of(text):
    """The lines of an input; a last piece that isn't empty is one too."""
    pieces = text.split("\n")
    whole = [piece if len(piece.encode()) > MOST_BYTES else piece.removesuffix("\r") for piece in pieces[:-1]]
    return whole + ([pieces[-1]] if pieces[-1] else [])


# ---- talks


def run(game, verdict, lines):
    """Each input is answered by the controller."""
    yield verdict.line()
    if not verdict.realizable:
        return 1
    play = FRESH
    for p, line in enumerate(lines, 1):
        x = read(game.inputs, line)
        if x is None:
            yield f"line {p} refused"
            return 6
        broken = game.broken_by_input(play.state, x)
        if broken is not None:
            yield f"assumption broken #{broken}"
            return 4
        play = answered(game, verdict.goals, play, x)
        yield show(game.outputs, play.state[2])
    return 0


def many(game, verdict, lines):
    """Each line is answered for the session whose number it begins with; a session is a play, or None once it is over."""
    yield verdict.line()
    if not verdict.realizable:
        return 1
    plays = {str(n): FRESH for n in range(1, 1_025)}
    for p, line in enumerate(lines, 1):
        number = re.match(r"[^ \t]*", line)[0]
        if number not in plays or len(line.encode()) > MOST_BYTES:
            yield f"line {p} refused"
            return 6
        plays[number], reply = replied(game, verdict, plays[number], line[len(number) :])
        yield f"{number} {reply}"
    return 0


def replied(game, verdict, play, text):
    """One session after a text, and what it is told."""
    if play is None:
        return None, "ended"
    x = read(game.inputs, text)
    if x is None:
        return None, "refused"
    broken = game.broken_by_input(play.state, x)
    if broken is not None:
        return None, f"assumption broken #{broken}"
    play = answered(game, verdict.goals, play, x)
    return play, show(game.outputs, play.state[2])


def counter(game, verdict, lines):
    """Each reply is noted by the counterstrategy, which gives the next input."""
    yield verdict.line()
    if verdict.realizable:
        return 1
    here = begun(game, verdict.layers)
    yield show(game.inputs, here.input)
    for p, line in enumerate(lines, 1):
        y = read(game.outputs, line)
        if y is None:
            yield f"line {p} refused"
            return 6
        broken = game.broken_by_output(here.state, here.input, y)
        if broken is not None:
            yield f"guarantee broken #{broken}"
            return 0
        here = noted(game, verdict.layers, here, y)
        yield f"deny #{game.labels[here.goal]}" if here.denying else "shift"
        yield show(game.inputs, here.input)
    return 0


def audit(game, lines):
    state, p = None, 0
    for p, line in enumerate(lines, 1):
        values = read(game.inputs + game.outputs, line)
        if values is None:
            yield f"line {p} refused"
            return 6
        x, y = values[: len(game.inputs)], values[len(game.inputs) :]
        broken = game.broken_by_input(state, x)
        if broken is None:
            broken = game.broken_by_output(state, x, y)
        if broken is not None:
            yield f"audit broken #{broken} line {p}"
            return 1
        state = (game.hidden_after(state), x, y)
    yield f"audit ok {p}"
    return 0


# ---- cores and separation


def core(text, verdict):
    """Each guarantee is dropped in text order where the rest without it is unrealizable."""
    yield verdict.line()
    if verdict.realizable:
        return 1
    kept = list(text.lines)
    for line in text.lines:
        rest = [other for other in kept if other is not line]
        if line.role == "gar" and not Verdict(Game(text, rest)).realizable:
            kept = rest
    numbers = [line.number for line in kept if line.role == "gar"]
    yield f"core {len(numbers)}"
    yield from (f"#{n}" for n in numbers)
    return 0


def separate(text):
    last = max((line.number for line in text.lines), default=0)
    lines = [line for line in text.lines if line.role != "gar"]
    verdict = Verdict(Game(text, lines + [Line(last + 1, "gar", "alwEv", ("truth", False))]))
    yield ("not separated " if verdict.realizable else "separated ") + verdict.numbers
    return 1 if verdict.realizable else 0


def synth(verdict):
    yield verdict.line()
    return 0 if verdict.realizable else 1


# ---- tables


def export(game, verdict):
    """The table of the winner's strategy."""
    try:
        yield text_of(game, table_for(game, verdict))
        return 0
    except TooLarge:
        yield "size limit reached"
        return 14


def verify(game, given):
    """Whether the bytes are a table of the specification, and the first rule that it breaks; nothing is solved."""
    try:
        table = table_of(game, given)
    except NoTable:
        yield "table refused"
        return 13
    if not is_listed(game, table.kind):
        yield "size limit reached"
        return 14
    flaw = first_flaw(game, table)
    if flaw is not None:
        yield f"not verified rule {flaw[0]} node {flaw[1]}"
        return 1
    yield "verified " + " ".join(f"{name.upper()}={number}" for name, number in table.numbers.items())
    return 0


# ---- all commands


def input_of(command, given):
    """What a command takes of the bytes of its input: all of them, or their lines."""
    return given if command == "verify" else lines_of(given.decode("utf-8", "replace"))


def talk(command, text, given):
    """What a command writes for a text and the lines of its input, or its bytes: gives each line before the next input is read,
    then the status."""
    if command == "separate":
        return separate(text)
    if command == "order":
        return order(text)
    game = Game(text)
    if command in ("audit", "verify"):
        return (audit if command == "audit" else verify)(game, given)
    verdict = Verdict(game)
    if command in ("run", "counter", "many"):
        return {"run": run, "counter": counter, "many": many}[command](game, verdict, given)
    return core(text, verdict) if command == "core" else export(game, verdict) if command == "export" else synth(verdict)


def answer(command, text, given):
    """All that a command writes, and its status."""
    written, lines = [], talk(command, text, given)
    while True:
        try:
            written.append(next(lines))
        except StopIteration as end:
            return written, end.value
