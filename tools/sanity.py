#!/usr/bin/env python3
"""sanity.py FILE [SECONDS]: asks the program by changed texts of FILE whether it says what was meant, within a time (60 s).

It tells whether the assumptions can be kept at all and for ever; whether a controller can win by cornering its environment; what
can never come true: the left side of an arrow, the cause of a trigger, an argument of a pattern; and which guarantees follow from
the other lines. It looks into numbered lines alone, not into the bodies of defines, predicates and patterns, and can't tell
whether what is said is what you want: each of its answers is a verdict of the program on a text of which one thing was changed.

It ends with 0 where there is nothing to warn of; with 1 where there is a warning; with 2 at wrong words; with 3 where a question is
open, since time or nodes ran out, and there is no warning; and with the program's status where FILE is refused. $SPECTRA names
the program, if it isn't `spectra` on the path.
"""
import os
import subprocess
import sys
import tempfile
import time
from pathlib import Path

from texts import CLOSED, OPEN, Source, Unreadable, joined, program

SECONDS = 60


class Open(Exception):
    """A question that isn't answered: time or nodes ran out."""


class Asking:
    """Writes changed texts of a specification, and asks the program for their verdicts."""

    def __init__(self, source, folder, seconds):
        self.source, self.folder, self.until = source, Path(folder), time.monotonic() + seconds
        self.asked, taken = 0, source.words()
        self.flag = next(name for name in ("came", "came_", "came__", "came___") if name not in taken)

    def ask(self, command, text):
        """Whether the first word of the answer is the command's own: realizable, separated."""
        left = self.until - time.monotonic()
        if left <= 0:
            raise Open
        file = self.folder / "changed.spectra"
        file.write_text(text, encoding="utf-8")
        try:
            done = subprocess.run([program(), command, str(file)], capture_output=True, text=True, encoding="utf-8", timeout=left)
        except subprocess.TimeoutExpired:
            raise Open from None
        self.asked += 1
        if done.returncode not in (0, 1):
            if done.returncode == 5:
                raise Open
            said = done.stdout.strip() or "nothing"
            raise Unreadable(f"the changed text was answered by {said}, status {done.returncode}:\n{text}")
        return done.returncode == 0

    # ---- texts

    def imported(self, item):
        """An import, told from the folder of the changed text."""
        there = Path(self.source.file).parent / item.tokens[1].text.strip('"')
        return f'import "{os.path.relpath(os.path.realpath(there), os.path.realpath(self.folder))}"'

    def as_written(self, lines, extra=""):
        """The text with these lines alone, and all monitors as they are; then some more."""
        rows = []
        for item in self.source.items:
            if item.word == "import":
                rows.append(self.imported(item))
            elif item.word == "monitor" or not item.lines or item.lines[0] in lines:
                rows.append(joined(item.tokens))
        return "\n".join([*rows, extra, ""])

    def together(self, lines, extra):
        """The text in which the environment moves everything, keeping these lines and monitors; then guarantees. So they
        can be had unless there is a play that keeps the lines and fails them."""
        rows = []
        for item in self.source.items:
            if item.word == "import":
                rows.append(self.imported(item))
            elif item.word in ("env", "sys", "aux"):
                rows.append("env " + joined(item.tokens[1:]))
            elif item.word == "monitor":
                rows.append(f"env {joined(item.declared)};")
                rows += [f"asm {line.body()};" for line in item.lines]
            elif not item.lines:
                rows.append(joined(item.tokens))
            elif item.lines[0] in lines:
                rows.append(f"asm {item.lines[0].body()};")
        return "\n".join([*rows, extra, ""])

    def watched(self, form, condition):
        """A flag that comes up once a condition held, at first or at any time, and a guarantee that it never does."""
        flag = self.flag
        start, grows = (f"{flag} <-> ({condition})", flag) if form == "ini" else (f"!{flag}", f"{flag} | ({condition})")
        return f"env boolean {flag};\nasm ini {start};\nasm alw next({flag}) <-> ({grows});\ngar alwEv !{flag};"

    # ---- questions: each is answered by the program's verdict on one text

    def no_play(self, lines):
        return self.ask("synth", self.together(lines, "gar alwEv false;"))

    def no_first(self, lines):
        return self.ask("synth", self.together(lines, "gar ini false;"))

    def never(self, lines, form, condition):
        return self.ask("synth", self.together(lines, self.watched(form, condition)))

    def never_caused(self, lines, cause):
        return self.ask("synth", self.together(lines, f"gar trig {joined(cause)} |=> [false];"))

    def follows(self, lines, line):
        if line.form in ("ini", "alw"):
            return self.never(lines, line.form, f"!({joined(line.says)})")
        return self.ask("synth", self.together(lines, f"gar {line.body()};"))

    def separated(self, lines):
        return self.ask("separate", self.as_written(lines))

    def cornered_lawfully(self, lines):
        return self.ask("synth", self.as_written(lines, "gar alwEv false;"))


def fewest(lines, holds):
    """Some of the lines for which something still holds, though for none of them it does without one: each is tried once."""
    kept = list(lines)
    for line in lines:
        rest = [other for other in kept if other is not line]
        if holds(rest):
            kept = rest
    return kept


def operands(tokens):
    """The left side of each arrow."""
    starts = [0]
    for at, t in enumerate(tokens):
        if t.text in OPEN:
            starts.append(at + 1)
        elif t.text in CLOSED:
            starts.pop()
        elif t.text == ",":
            starts[-1] = at + 1
        elif t.text in ("->", "implies") and t.kind in ("sign", "word"):
            yield tokens[starts[-1] : at]


def arguments(tokens):
    """The arguments of a pattern's use."""
    found, depth = [[]], 0
    for t in tokens[2:-1]:
        if t.text == "," and depth == 0:
            found.append([])
            continue
        depth += (t.text in OPEN) - (t.text in CLOSED)
        found[-1].append(t)
    return [argument for argument in found if argument]


class Report:
    """Asks one question after another, and tells what is to be told."""

    def __init__(self, source, asking):
        self.source, self.asking, self.warnings, self.unanswered = source, asking, 0, 0
        self.assumed = [line for line in source.lines if line.role == "asm"]
        self.guaranteed = [line for line in source.lines if line.role == "gar"]

    def warn(self, line, token, text):
        self.warnings += 1
        at = self.source.place(token) if token else self.source.file
        print(f"{at}: warning:{f' #{line.number}' if line else ''} {text}", flush=True)

    def answered(self, what, question, *words):
        """The answer to a question; None where it is open, which is said."""
        try:
            return question(*words)
        except Open:
            self.unanswered += 1
            print(f"{self.source.file}: open: {what}", flush=True)
            return None

    def blamed(self, text, holds):
        """A warning with the fewest assumptions that it needs."""
        self.warn(None, None, text)
        lines = self.answered("which assumptions are to blame", fewest, self.assumed, holds)
        for line in lines or []:
            print(f"  #{line.number}\t{self.source.shown(line.number)}", flush=True)

    def assumptions(self):
        """Whether the assumptions can be kept; true where they can, or it is open."""
        asking = self.asking
        if self.answered("can the assumptions be kept at first?", asking.no_first, self.assumed):
            self.blamed("the assumptions can't be kept even at the first position", asking.no_first)
            return False
        if self.answered("can the assumptions be kept for ever?", asking.no_play, self.assumed):
            self.blamed("the assumptions can't be kept for ever, whatever both players do", asking.no_play)
            return False
        return True

    def cornering(self):
        """Whether a controller can win by making the environment fail."""
        asking = self.asking
        if self.answered("can the environment keep its assumptions?", asking.separated, self.assumed) is not False:
            return
        safe = [line for line in self.source.lines if line.role == "asm" or line.form in ("ini", "alw")]
        lawful = self.answered("can it be cornered lawfully?", asking.cornered_lawfully, safe)
        how = {True: ", and keep its own lines", False: ", though not without breaking a line of its own", None: ""}[lawful]
        self.blamed(
            f"a controller can make the environment break its assumptions{how}", lambda lines: not asking.separated(lines)
        )

    def dead_parts(self):
        """What can never come true in a play that keeps all lines."""
        lines = self.source.lines
        for line in lines:
            for left in operands(line.says):
                if self.answered(f"#{line.number} left side", self.asking.never, lines, line.form, joined(left)):
                    self.warn(line, left[0], f"the left side `{joined(left)}` never comes true")
            if line.form == "trig":
                cut = next(at for at, t in enumerate(line.says) if t.text == "|=>")
                if self.answered(f"#{line.number} cause", self.asking.never_caused, lines, line.says[:cut]):
                    self.warn(line, line.says[0], f"the cause `{joined(line.says[:cut])}` never happens")
            for argument in arguments(line.says) if line.form == "pattern" else []:
                if self.answered(f"#{line.number} argument", self.asking.never, lines, "alw", joined(argument)):
                    self.warn(line, argument[0], f"the argument `{joined(argument)}` never comes true")

    def followers(self):
        """Which guarantees follow from the others."""
        for line in self.guaranteed:
            others = [other for other in self.source.lines if other is not line]
            if self.answered(f"does #{line.number} follow?", self.asking.follows, others, line):
                self.warn(line, line.first, f"follows from the other lines: {self.source.text(line)}")

    def all(self):
        kept = self.assumptions()
        if kept:
            self.cornering()
            if self.answered("can all lines be kept?", self.asking.no_play, self.source.lines):
                self.warn(None, None, "no play keeps all lines, whatever both players do; nothing else was asked")
            else:
                self.dead_parts()
                self.followers()


def main():
    words = sys.argv[1:]
    if not 1 <= len(words) <= 2 or words[0].startswith("--") or not all(word.isdigit() for word in words[1:]):
        print(__doc__, file=sys.stderr)
        return 2
    began = time.monotonic()
    try:
        first = subprocess.run([program(), "audit", words[0]], input="", capture_output=True, text=True, encoding="utf-8")
        if first.returncode != 0:
            print(first.stdout.strip())
            return first.returncode
        source = Source(words[0])
        with tempfile.TemporaryDirectory() as folder:
            asking = Asking(source, folder, int(words[1]) if len(words) == 2 else SECONDS)
            report = Report(source, asking)
            report.all()
    except (Unreadable, OSError) as why:
        print(why, file=sys.stderr)
        return 2
    took = time.monotonic() - began
    print(f"{report.warnings} warnings, {report.unanswered} questions open; {asking.asked} texts asked about in {took:.1f} s")
    return 1 if report.warnings else 3 if report.unanswered else 0


if __name__ == "__main__":
    sys.exit(main())
