"""What the tools read of a specification: its items, and its numbered lines with their places, as the program numbers them.

It reads tokens alone, for a text that the program takes; what is wrong with any other text only the program tells.
"""
import os
import shutil
import sys
from pathlib import Path

TOP = Path(__file__).resolve().parent.parent
sys.path.insert(0, str(TOP / "bench"))

from reference.tokens import Refused, characters, tokens_of  # noqa: E402

ASSUMED, GUARANTEED = ("asm", "assumption"), ("gar", "guarantee")
FORMS = {"ini": "ini", "initially": "ini", "alw": "alw", "always": "alw", "G": "alw", "trans": "alw"} | dict.fromkeys(
    ("alwEv", "alwaysEventually", "GF"), "alwEv"
)
OPEN, CLOSED = ("(", "[", "{"), (")", "]", "}")


class Unreadable(Exception):
    """Why a file has no lines: a text to show."""


def program():
    """The program to ask: $SPECTRA, else `spectra` on the path, else where the scripts of this repository put it."""
    if "SPECTRA" in os.environ:
        return os.environ["SPECTRA"]
    places = (TOP / "bin/spectra", TOP / "crates/spectra/out/spectra")
    return shutil.which("spectra") or next((str(p) for p in places if p.exists()), "spectra")


def joined(tokens):
    """The text of some tokens."""
    return " ".join(t.text for t in tokens)


class Line:
    """A numbered line: `role` is asm, gar or monitor; `form` is ini, alw, alwEv, trig or pattern; `says` are the tokens behind
    its form, or of the whole use of a pattern; `first` and `last` are its first and last tokens."""

    def __init__(self, role, tokens, owner=None):
        self.role, self.owner, self.number = role, owner, 0
        self.first, self.last = tokens[0], tokens[-1]
        body = tokens[:-1] if role == "monitor" else tokens[1:-1]
        self.name = None
        if body[1].text == ":":
            self.name, body = body[0].text, body[2:]
        if body[0].kind == "word":
            self.form, self.says = FORMS.get(body[0].text, "trig"), body[1:]
        else:
            self.form, self.says = "pattern", body

    def body(self):
        """What it says, as the text of a line without role and name."""
        return joined(self.says) if self.form == "pattern" else f"{self.form} {joined(self.says)}"


class Item:
    """An item: its first word, its tokens, and the lines in it."""

    def __init__(self, word, tokens):
        self.word, self.tokens, self.lines = word, tokens, []
        if word in ASSUMED + GUARANTEED:
            self.lines = [Line("asm" if word in ASSUMED else "gar", tokens)]
        elif word == "monitor":
            self.declared, inside = tokens[1 : self.body_start()], tokens[self.body_start() + 1 : -1]
            for part in split(inside):
                self.lines.append(Line("monitor", part, self.declared[-1].text))

    def body_start(self):
        """Where the brace stands that opens a monitor's lines: the second one, where its type is a list of names."""
        braces = [at for at, t in enumerate(self.tokens) if t.text == "{"]
        return braces[1 if self.tokens[1].text == "{" else 0]


def split(tokens):
    """Pieces that end with a semicolon outside braces."""
    pieces, start, depth = [], 0, 0
    for at, t in enumerate(tokens):
        depth += (t.text == "{") - (t.text == "}")
        if t.text == ";" and depth == 0:
            pieces.append(tokens[start : at + 1])
            start = at + 1
    return pieces


def item_end(tokens, start):
    """Where the item that begins here ends: behind its name, its last brace or its semicolon."""
    word = tokens[start].text
    if word in ("spec", "module"):
        return start + 2
    if word == "import":
        return start + 3 if tokens[start + 2].text == ";" else start + 2
    depth, blocks, wanted = 0, 0, 1
    if word == "monitor" and tokens[start + 1].text == "{":
        wanted = 2
    for at in range(start, len(tokens)):
        depth += (tokens[at].text == "{") - (tokens[at].text == "}")
        if word in ("monitor", "pattern"):
            blocks += tokens[at].text == "}" and depth == 0
            if blocks == wanted:
                return at + 1
        elif tokens[at].text == ";" and depth == 0:
            return at + 1
    raise Unreadable("an item has no end")


class Source:
    """A specification's items and lines."""

    def __init__(self, file):
        self.file = str(file)
        try:
            source = Path(file).read_bytes()
            self.rows = characters(source).split("\n")
            tokens = tokens_of(source)[:-1]
            self.items = list(self.cut(tokens))
        except OSError as failed:
            raise Unreadable(f"{file}: {failed.strerror}") from None
        except Refused as fault:
            raise Unreadable(f"{file}:{fault.line}:{fault.column}: fault {fault.number}") from None
        except (IndexError, Unreadable):
            raise Unreadable(f"{file}: no text of the grammar; `spectra synth {file}` tells the fault") from None
        self.lines = [line for item in self.items for line in item.lines]
        for number, line in enumerate(self.lines, 1):
            line.number = number

    @staticmethod
    def cut(tokens):
        at, before = 0, ""
        while at < len(tokens):
            end = item_end(tokens, at)
            word = tokens[at].text if tokens[at].kind == "word" else before
            yield Item(word, tokens[at:end])
            at, before = end, word

    def name(self):
        """The specification's name."""
        return next(item.tokens[1].text for item in self.items if item.word == "spec")

    def words(self):
        """Every token's text, to find a name that isn't taken."""
        return {t.text for item in self.items for t in item.tokens}

    def text(self, line):
        """A line as it is written, in one row, without what follows it."""
        first, last = line.first, line.last
        rows = self.rows[first.line - 1 : last.line]
        rows[-1] = rows[-1][: last.column]
        rows[0] = rows[0][first.column - 1 :]
        if len(rows) > 1:
            rows = [row.split("//")[0].split("--")[0] for row in rows]
        shown = " ".join(" ".join(rows).split())
        return f"monitor {line.owner}: {shown}" if line.owner else shown

    def place(self, token):
        return f"{self.file}:{token.line}:{token.column}"

    def shown(self, number):
        """The place and the text of a numbered line; None where there is no such line."""
        if not 1 <= number <= len(self.lines):
            return None
        line = self.lines[number - 1]
        return f"{self.file}:{line.first.line}: {self.text(line)}"
