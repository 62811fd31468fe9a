"""The tokens of a file with their places, or its first fault of bytes and characters."""
from collections import namedtuple

MOST_BYTES = 1_048_576
SIGNS = "<-> |=> -> := .. != <= >= < > = ! & | + - * ? : ; , ( ) [ ] { }".split()
RESERVED = set(
    "spec module import env sys aux boolean Int type define predicate pattern var monitor asm assumption gar guarantee "
    "ini initially alw always G trans alwEv alwaysEventually GF trig next true false not and or implies iff mod "
    "PREV Y ONCE O HISTORICALLY H SINCE S TRIGGERED T forall exists in".split()
)

# A token: "word", "name", "number", "text", "sign" or "end", its characters, and its line and column.
Token = namedtuple("Token", "kind text line column")


class Refused(Exception):
    """The fault of a text: its number, and where it stands in its file."""

    def __init__(self, number, line, column):
        super().__init__(number, line, column)
        self.number, self.line, self.column = number, line, column


def place_after(text):
    """The line and column behind some text."""
    return text.count("\n") + 1, len(text) - (text.rfind("\n") + 1) + 1


def characters(source):
    """The text of a file's bytes, without a byte order mark."""
    if len(source) > MOST_BYTES:
        raise Refused(3, 1, 1)
    try:
        text = source.decode("utf-8")
    except UnicodeDecodeError as broken:
        before = source[: broken.start].decode("utf-8").removeprefix("\ufeff")
        raise Refused(1, *place_after(before)) from None
    return text.removeprefix("\ufeff")


def end_of_comment(text, at):
    """Where a comment that begins here ends; None where none begins, -1 where it isn't closed."""
    if text.startswith(("//", "--"), at):
        end = text.find("\n", at)
        return len(text) if end < 0 else end
    if text.startswith("/*", at):
        end = text.find("*/", at + 2)
        return -1 if end < 0 else end + 2
    return None


def begins_name(character):
    return character == "_" or character.isidentifier()


def goes_on(character):
    return ("a" + character).isidentifier()


def run_end(text, at, test):
    while at < len(text) and test(text[at]):
        at += 1
    return at


def token_at(text, at):
    """The kind and the end of the token that begins here; None where none does."""
    first = text[at]
    if begins_name(first):
        end = run_end(text, at, goes_on)
        return "word" if text[at:end] in RESERVED else "name", end
    if first in "0123456789":
        return "number", run_end(text, at, lambda c: c in "0123456789")
    if first == '"':
        end = run_end(text, at + 1, lambda c: c not in '"\n')
        return ("text", end + 1) if text[end : end + 1] == '"' else None
    sign = next((sign for sign in SIGNS if text.startswith(sign, at)), None)
    return ("sign", at + len(sign)) if sign else None


def tokens_of(source):
    """The tokens of a file's bytes; the last one is its end."""
    text = characters(source)
    found, at, line, start = [], 0, 1, 0
    while at < len(text):
        end = at + 1 if text[at] in " \t\r\n" else end_of_comment(text, at)
        if end is None:
            token = token_at(text, at)
            end = token[1] if token else -1
            if token:
                found.append(Token(token[0], text[at:end], line, at - start + 1))
        if end < 0:
            raise Refused(2, line, at - start + 1)
        line += text.count("\n", at, end)
        if "\n" in text[at:end]:
            start = text.rfind("\n", at, end) + 1
        at = end
    found.append(Token("end", "", line, at - start + 1))
    return found
