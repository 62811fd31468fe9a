#!/usr/bin/env python3
"""reorder.py FILE: a specification with its variables declared in the order that `spectra order FILE` tells.

    spectra order FILE | tools/reorder.py FILE > NEW

Only whole `env`, `sys` and `aux` declarations are moved. One that stands alone on its lines takes its comments along: those right
above it, up to an empty line, and that behind it. All else stays at its place, monitors too, since their lines are numbered. Where
no better order is told, FILE is written as it is. It ends with 0; with 1 where no order is told, or its names aren't those that FILE
declares, or monitors would change places, or the elements of an array wouldn't stand together, since one declaration has them; with
2 at wrong words.
"""
import sys
from itertools import accumulate, zip_longest
from pathlib import Path

from texts import Source, Unreadable  # noqa: I001  (puts bench/ on the path)
from reference.tokens import end_of_comment, tokens_of

MARK = b"\xef\xbb\xbf"
MOVED = ("env", "sys", "aux")
DECLARING = (*MOVED, "monitor")


class Unfit(Exception):
    """Why an order can't be followed: a text to show."""


# ---- comments between two items


def comments_in(gap):
    """Where each comment begins and ends."""
    at = 0
    while at < len(gap):
        end = end_of_comment(gap, at)
        if end is not None:
            yield at, end
        at = end or at + 1


def end_behind(gap):
    """Where the comments end that begin on the line of the item before the gap."""
    end = 0
    for start, stop in comments_in(gap):
        if "\n" in gap[end:start]:
            break
        end = stop
    return end


def begin_above(gap, taken):
    """Where the comments begin that stand right above the item behind the gap; the first ones may be taken."""
    begin = len(gap)
    for start, stop in reversed(list(comments_in(gap))):
        if start < taken or gap[stop:begin].count("\n") > 1:
            break
        begin = start
    return begin


# ---- a text and its declarations


def variable_of(item):
    return (item.declared[-1] if item.word == "monitor" else item.tokens[-2]).text


class Block:
    """A variable's item with its comments: where it begins and ends, and whether the end of the line ends it."""

    def __init__(self, item, start, end, is_open):
        self.name, self.is_monitor = variable_of(item), item.word == "monitor"
        self.start, self.end, self.is_open = start, end, is_open


class Text:
    """A specification's text, and the blocks in it that declare variables."""

    def __init__(self, source):
        self.text, self.items = "\n".join(source.rows), source.items
        self.rows = list(accumulate((len(row) + 1 for row in source.rows), initial=0))
        self.blocks = [self.block(k) for k, item in enumerate(self.items) if item.word in DECLARING]

    def begin(self, k):
        """Where an item begins; behind the last one, where the text ends."""
        if k == len(self.items):
            return len(self.text)
        first = self.items[k].tokens[0]
        return self.rows[first.line - 1] + first.column - 1

    def end(self, k):
        last = self.items[k].tokens[-1]
        return self.rows[last.line - 1] + last.column - 1 + len(last.text)

    def block(self, k):
        begin, end = self.begin(k), self.end(k)
        before, behind = self.text[self.end(k - 1) : begin], self.text[end : self.begin(k + 1)]
        if "\n" not in before or "\n" not in behind and k + 1 < len(self.items):
            return Block(self.items[k], begin, end, False)
        tail = behind[: end_behind(behind)]
        is_open = any(tail.startswith(("//", "--"), start) for start, _ in comments_in(tail))
        return Block(self.items[k], begin - len(before) + begin_above(before, end_behind(before)), end + len(tail), is_open)

    def beside(self, start, end):
        """What stands on the line before a place, and behind it."""
        stop = self.text.find("\n", end)
        return self.text[self.text.rfind("\n", 0, start) + 1 : start], self.text[end : stop if stop >= 0 else len(self.text)]

    def joined(self, blocks, indent=""):
        return ("\n" + indent).join(self.text[block.start : block.end] for block in blocks)

    # ---- what is put where

    def put(self, blocks, place):
        """Blocks in the place of another one, on lines of their own where a comment would hide what stands beside."""
        left, right = self.beside(place.start, place.end)
        rows = self.joined(blocks, "" if left.strip() else left)
        return ("\n" if left.strip() and rows[0] in "/-" else "") + rows + ("\n" if right.strip() and blocks[-1].is_open else "")

    def without(self, place):
        """The edit that takes a block out, with its lines where nothing else stands on them."""
        left, right = self.beside(place.start, place.end)
        if left.strip() or right.strip():
            return place.start, place.end, ""
        return place.start - len(left), min(place.end + len(right) + 1, len(self.text)), ""

    def behind(self, monitor, blocks):
        """The edit that puts blocks behind a monitor."""
        right = self.beside(monitor.end, monitor.end)[1]
        return monitor.end, monitor.end, "\n" + self.joined(blocks) + ("\n" if right.strip() else "")

    def edits(self, places, blocks, before, behind):
        """The edits that put blocks at these places between two monitors."""
        if blocks and not places:
            yield self.behind(before, blocks) if before else (behind.start, behind.start, self.joined(blocks) + "\n")
        for k, place in enumerate(places):
            here = blocks[k : k + 1] if k + 1 < len(places) else blocks[k:]
            yield (place.start, place.end, self.put(here, place)) if here else self.without(place)

    def in_order(self, names):
        """The text with its variables declared in this order."""
        known = {block.name: block for block in self.blocks}
        if sorted(names) != sorted(known):
            raise Unfit("the names that are told aren't those of the variables that are declared")
        wanted, monitors = [known[name] for name in names], [block for block in self.blocks if block.is_monitor]
        if monitors != [block for block in wanted if block.is_monitor]:
            raise Unfit("monitors would change places, and with them the numbers of their lines")
        parts = zip(split(self.blocks), split(wanted), [None, *monitors], [*monitors, None])
        text = self.text
        for start, end, put in sorted((edit for part in parts for edit in self.edits(*part)), reverse=True):
            text = text[:start] + put + text[end:]
        return text


def split(blocks):
    """The blocks before, between and behind the monitors."""
    parts = [[]]
    for block in blocks:
        if block.is_monitor:
            parts.append([])
        else:
            parts[-1].append(block)
    return parts


# ---- words


def told(answer):
    """The names that an answer of `order` tells; None where there is no better order."""
    for row in answer:
        if row.startswith("order "):
            return declared(row.split()[1:])
        if row.strip() == "no better order":
            return None
    raise Unfit("no order is told")


def declared(names):
    """The names of declarations, for those of variables: an array's elements stand together, in their order."""
    made, count = [], 0
    for name in names:
        array, bracket, number = name.partition("[")
        count = count + 1 if bracket and number != "0]" else 0
        if count and (made[-1:] != [array] or number != f"{count}]"):
            raise Unfit(f"the elements of {array} don't stand together in their order")
        if not count:
            made.append(array)
    return made


def check(source, names, text):
    """The new text has the same items as before, and their order is the one that is told."""
    items = list(Source.cut(tokens_of(text.encode())[:-1]))
    old, new = ([[token.text for token in item.tokens] for item in them] for them in (source.items, items))
    kept = all(a == b for a, b in zip_longest(*([words for words in them if words[0] not in MOVED] for them in (old, new))))
    if sorted(old) != sorted(new) or not kept or [variable_of(item) for item in items if item.word in DECLARING] != names:
        raise Unfit("the text can't be rewritten")


def main():
    if len(sys.argv) != 2 or sys.argv[1].startswith("--"):
        print(__doc__, file=sys.stderr)
        return 2
    try:
        source, names = Source(sys.argv[1]), told(sys.stdin)
        text = Text(source)
        moved = text.text if names is None else text.in_order(names)
        if names is not None:
            check(source, names, moved)
    except (Unreadable, Unfit) as why:
        print(why, file=sys.stderr)
        return 1
    mark = MARK if Path(sys.argv[1]).read_bytes().startswith(MARK) else b""
    sys.stdout.buffer.write(mark + moved.encode())
    return 0


if __name__ == "__main__":
    sys.exit(main())
