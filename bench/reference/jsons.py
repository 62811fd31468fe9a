"""JSON texts as the program's library keeps them.

A number that is written as a whole one and fits into 64 bits is an int, and any other one a float, `-0` too; none is larger than a
float can be. Of a key that stands twice the last value counts. At most 127 lists and objects stand in one another.
"""
import json
import math
import re

DEEPEST = 127
STRING = re.compile(r'"(?:[^"\\]|\\.)*"', re.S)


class NoJson(Exception):
    """The bytes are no JSON text."""


def fraction(text):
    value = float(text)
    if math.isinf(value):
        raise NoJson
    return value


def whole(text):
    fits = len(text) <= 20 and text != "-0" and -(2**63) <= int(text) < 2**64
    return int(text) if fits else fraction(text)


def refused(_):
    raise NoJson


def members(pairs):
    """An object; a half of a character that takes two in UTF-16 can't be in its strings."""
    json.dumps(pairs, ensure_ascii=False).encode()
    return dict(pairs)


def is_deep(text):
    """Whether too many lists and objects stand in one another."""
    depth = 0
    for sign in re.findall(r"[\[\]{}]", STRING.sub("", text)):
        depth += 1 if sign in "[{" else -1
        if depth > DEEPEST:
            return True
    return False


def json_of(given):
    """The value that the bytes are."""
    try:
        text = given.decode("utf-8")
        if is_deep(text):
            raise NoJson
        return json.loads(text, parse_int=whole, parse_float=fraction, parse_constant=refused, object_pairs_hook=members)
    except (ValueError, RecursionError):
        raise NoJson from None
