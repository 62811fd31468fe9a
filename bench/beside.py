"""The plain program beside a play of hostile.py: what should be written, and the status."""
import multiprocessing
import re
import unicodedata

from cases import MOST_BYTES, LeftOut, state_count
from plain import COMMANDS, deep
from reference import talks
from reference.text import NoText, Shelf, Text

MOST_STATES = 300
USAGE = "usage: spectra COMMAND FILE [--nodes N]"
FAILS = "the plain program fails"
PLAIN_NAME = re.compile(r"\w[\w-]{0,99}(\.\w{1,99})*")


def asked(words):
    """The command, the file and the budget that words ask for; None where they are no command."""
    given, nodes, left = [], [], [word if isinstance(word, str) else None for word in words]
    if None in left:
        return None
    while left:
        word, *left = left
        if word == "--":
            given, left = given + left, []
        elif word == "--nodes" and left and (left[0] == "-" or not left[0].startswith("-")):
            nodes, left = nodes + left[:1], left[1:]
        elif word.startswith("--nodes="):
            nodes.append(word.removeprefix("--nodes="))
        elif word.startswith("-") and word != "-":
            return None
        else:
            given.append(word)
    if len(given) != 2 or len(nodes) > 1 or not all(is_number(word, 2, 134_217_728) for word in nodes):
        return None
    command, file = given
    known = is_number(file, 1, 64) if command == "gen" else command in COMMANDS and command != "layers"
    return (command, file, nodes) if known else None


def is_number(word, least, most):
    return re.fullmatch("[0-9]+", word) is not None and least <= int(word) <= most


class Folder(Shelf):
    """The files of a play. What the system makes of other names isn't known here."""

    def bytes_of(self, name):
        if name not in self.files and not PLAIN_NAME.fullmatch(name):
            raise LeftOut("a file's name that only the system knows")
        return self.files.get(name)


def is_newer(character):
    """Whether names may have a character by a later Unicode than Python's: it isn't there, or goes on with a name since 15.1."""
    return unicodedata.category(character) == "Cn" or character in "\u200c\u200d\u30fb\uff65"


def wanted(play):
    """What the plain program writes for a play, and its status."""
    asks = asked(play.words)
    if asks is None:
        return USAGE.encode() + b"\n", 2
    command, file, _ = asks
    if command == "gen":
        return f"arbiter {int(file)}\nrealizable K={1 + 2 * int(file)}\n".encode(), 0
    if any(len(text.replace(b" ", b"")) > MOST_BYTES for text in play.files.values()):
        raise LeftOut("a text is too long for the plain program")
    if any(is_newer(character) for character in set(play.files.get(file, b"").decode("utf-8", "ignore"))):
        raise LeftOut("a character that a later Unicode has changed")
    try:
        text = text_of(file, play.files)
    except NoText as refused:
        return (refused.line + "\n").encode(), refused.status
    if command != "audit" and state_count(talks.Game(text)) > MOST_STATES:
        raise LeftOut("there are too many states for the plain program")
    lines, status = talks.answer(command, text, talks.lines_of(play.input.decode("utf-8", "replace")))
    return "".join(line + "\n" for line in lines).encode(), status


def remembered(make, most=200):
    """A call whose results are kept for a while, by the first argument; with another argument none is."""
    kept = {}

    def made(key, *more):
        if more:
            return make(key, *more)
        if key not in kept:
            if len(kept) == most:
                del kept[next(iter(kept))]
            kept[key] = make(key)
        return kept[key]

    return made


# Most inputs are of texts that come again and again: each is read, and solved, once.
talks.Game, talks.Verdict = remembered(talks.Game), remembered(talks.Verdict)
TEXTS = remembered(lambda key: Text(key[0], Folder(dict(key[1]))))


def text_of(name, files):
    return TEXTS((name, tuple(files.items())))


def serve(pipe):
    """Answers plays as the plain program does."""
    while True:
        play = pipe.recv()
        try:
            pipe.send(wanted(play))
        except LeftOut as why:
            pipe.send(str(why))


class Plain:
    """The plain program, in a process that is ended where it takes longer than some seconds."""

    def __init__(self, seconds):
        self.seconds, self.process = seconds, None

    def wanted(self, play):
        """What it writes for a play, and its status; or why it is left out."""
        if self.process is None:
            self.pipe, other = multiprocessing.Pipe()
            self.process = multiprocessing.Process(target=deep, args=(lambda: serve(other),), daemon=True)
            self.process.start()
            other.close()
        try:
            self.pipe.send(play)
            if self.pipe.poll(self.seconds):
                return self.pipe.recv()
            why = "the plain program takes too long"
        except (EOFError, OSError):
            why = FAILS
        self.end()
        return why

    def end(self):
        if self.process is not None:
            self.process.kill()
            self.process.join()
            self.pipe.close()
            self.process = None
