"""Files as a specification: its variables with domains, and its numbered lines, with everything put in; or why it is refused."""
import sys

from .faults import Faults, values_of
from .formulas import regex_of, value
from .grammar import check
from .hidden import PatternTable, TriggerTable
from .names import Declared
from .tokens import MOST_BYTES, Refused, tokens_of
from .trees import Reader

WORDS = {
    1: "NotUtf8", 2: "BadCharacter", 3: "TooLong", 4: "Unexpected", 5: "TooDeep", 6: "Parentheses", 7: "Unknown", 8: "Twice",
    9: "WrongType", 10: "NextHere", 11: "NextNested", 12: "NextOfSystem", 13: "SystemInInitial", 14: "WideInt", 15: "Cycle",
    16: "Arity", 17: "ImportedLine", 18: "TooMany", 19: "TooLarge", 20: "PatternOpen", 21: "PatternWide", 22: "TriggerWide",
    25: "OutOfBounds", 26: "WideArray",
}  # fmt: skip
sys.setrecursionlimit(400_000)
sys.set_int_max_str_digits(0)


class NoText(Exception):
    """Why there is no specification: the line that says so, and the status."""

    def __init__(self, line, status):
        super().__init__(line, status)
        self.line, self.status = line, status


class Shelf:
    """Files by name, as bytes. Each is read by two calls, of which the second finds its end; those of these numbers fail."""

    def __init__(self, files=None, fails=()):
        self.files, self.fails, self.calls = files or {}, set(fails), 0

    def bytes_of(self, name):
        """The bytes of a file; None where there is no such file."""
        return self.files.get(name)

    def call(self, name):
        self.calls += 1
        if self.calls in self.fails:
            raise NoText(f"file fault: {name}", 7)

    def read(self, name):
        self.call(name)
        found = self.bytes_of(name)
        if found is None:
            raise NoText(f"no such file: {name}", 11)
        if len(found) <= MOST_BYTES:
            self.call(name)
        return found


class Line:
    """A line: its number, whose it is, when it is judged, and what it says."""

    def __init__(self, number, role, time, says=None):
        self.number, self.role, self.time, self.says = number, role, time, says

    def formulas(self):
        """Its formulas in text order: the arguments of a pattern, or the brackets of a trigger."""
        if self.time == "pattern":
            return self.arguments
        return self.atoms if self.time == "trig" else [self.says]

    def table(self):
        """The hidden table of a pattern or trigger."""
        if self.time == "pattern":
            return PatternTable(self)
        return TriggerTable(("line", self.number), self.cause, self.effect)

    def goals(self, table):
        """What is to hold again and again, each a test of what is known at a position."""
        if self.time == "alwEv":
            return [lambda now: value(self.says, now, None)]
        if self.time == "trig":
            return [lambda now: not table.is_pending(now)]
        if self.time == "pattern":
            return [lambda now, e=e: value(e, table.known(now), None) for e in self.pattern.goals]
        return []


class SpecPattern:
    """A pattern: how many parameters it has, the domains of its own variables, and its lines of each kind."""

    def __init__(self, pattern, kinds):
        self.arity, self.domains = pattern.arity, [values_of(kind) for kind in kinds]
        says = {time: [line.formula for line in pattern.lines if line.time == time] for time in ("ini", "alw", "alwEv")}
        self.first, self.step, self.goals = says["ini"], says["alw"], says["alwEv"]


class Text:
    """What files say, the main one of this name. `variables` has a name, an owner and a domain each, in text order."""

    def __init__(self, name, shelf):
        names, trees = self.files(name, shelf)
        declared = Declared(trees)
        faults = Faults(declared)
        if faults.found:
            (file, line, column), number = min(faults.found)
            raise refusal(names[file], number, line, column)
        kinds = faults.facts
        self.variables = [(v.name.text, v.owner, values_of(kinds.variable_kind(v))) for v in declared.variables]
        patterns = {id(p): SpecPattern(p, kinds.inside_pattern(p)["own"]) for p in declared.all_patterns}
        self.lines = [self.line(line, faults.put[id(line)], patterns) for line in declared.lines]

    @staticmethod
    def files(main, shelf):
        """The names and trees of all files, the main one last."""
        folder = main[: main.rfind("/") + 1]
        main_tokens = read_tokens(main, shelf)
        wanted = [folder + named.text for named in Reader(main_tokens, 0).tree().imports]
        trees = [Reader(read_tokens(name, shelf), k).tree() for k, name in enumerate(wanted)]
        return [*wanted, main], [*trees, Reader(main_tokens, len(wanted)).tree()]

    @staticmethod
    def line(line, formulas, patterns):
        made = Line(line.number, line.role, line.time)
        if line.time == "pattern":
            made.pattern, made.arguments = patterns[id(line.pattern)], formulas
        elif line.time == "trig":
            brackets = iter(formulas)
            made.atoms, made.cause, made.effect = formulas, regex_of(line.cause, brackets), regex_of(line.effect, brackets)
        else:
            made.says = formulas[0]
        return made


def text_of(source):
    """One file that imports nothing."""
    return Text("t.spectra", Shelf({"t.spectra": source.encode()}))


def refusal(name, number, line, column):
    return NoText(f"{name}:{line}:{column}: fault {number} {WORDS[number]}", 3)


def read_tokens(name, shelf):
    """The tokens of a file, which are a text of the grammar."""
    try:
        tokens = tokens_of(shelf.read(name))
        check(tokens)
        return tokens
    except Refused as fault:
        raise refusal(name, fault.number, fault.line, fault.column) from None
