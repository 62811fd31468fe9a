"""The rows of crates/worked_rows/data: worked examples, each with what is written and the status.

A file begins with a heading. A row begins with a line `@ ` and what it shows; the next line has the words behind `spectra`, and the
status. Behind it come marks and texts, up to the next row, before which stands one empty line.
"""
from pathlib import Path

FOLDER = Path(__file__).resolve().parent.parent / "crates/worked_rows/data"
# Lines that stand for text begin with these.
TEXT_MARKS = ("@times", "@blanks", "@bytes", "@end")


class Row:
    """A row: where it stands, the sentence that it shows, the words behind `spectra`, the status, the files, the main one first, the
    input, what is written, and the other marks."""

    def __init__(self, place, shows, words, status):
        self.place, self.shows, self.words, self.status = place, shows, words, status
        self.files, self.input, self.written, self.marks = {}, b"", b"", []

    def add(self, part, text):
        if part == "@in":
            self.input = text
        elif part == "@out":
            self.written = text
        elif part.startswith("@file "):
            self.files[part.removeprefix("@file ")] = text
        elif text:
            self.files["t.spectra"] = b"spec X\n" + text
            self.words.insert(1, "t.spectra")

    def fails(self):
        """Whether a device fails in it."""
        return any(mark.startswith("@fails") for mark in self.marks)


def open_line(line):
    """The bytes of a line: its line feed stands behind it, but where it ends with `@end`."""
    return line.removesuffix("@end").encode() if line.endswith("@end") else line.encode() + b"\n"


def bytes_of(line):
    """The bytes that a line of text stands for."""
    word, _, rest = line.partition(" ")
    if word == "@bytes":
        return bytes.fromhex(rest)
    if word == "@blanks":
        return b" " * int(rest)
    if word == "@times":
        span, _, text = rest.partition(" ")
        first, _, end = span.partition("..")
        return b"".join(open_line(text.replace("#-", str(k - 1)).replace("#", str(k))) for k in range(int(first), int(end)))
    return open_line(line)


def row_of(place, lines):
    """The row that the lines are; the first two have the sentence and the words."""
    words, _, status = lines[1].removeprefix("@").rpartition(" => ")
    row = Row(place, lines[0].removeprefix("@ "), words.split(" ")[1:], int(status))
    part, text = "", b""
    for line in lines[2:]:
        word = line.split(" ")[0]
        if word in ("@file", "@in", "@out"):
            row.add(part, text)
            part, text = line, b""
        elif line.startswith("@") and word not in TEXT_MARKS:
            row.marks.append(line)
        else:
            text += bytes_of(line)
    row.add(part, text)
    return row


def rows_of(file):
    """The rows of one file."""
    lines = file.read_text().split("\n")
    starts = [k for k, line in enumerate(lines) if line.startswith("@ ") and not (k and lines[k - 1].startswith("@ "))]
    for start, end in zip(starts, [*starts[1:], len(lines)]):
        assert lines[end - 1] == "", f"{file}:{end}: an empty line stands behind a row"
        yield row_of(f"{file.name}:{start + 1}", lines[start : end - 1])


def rows():
    """The rows of all files."""
    for file in sorted(FOLDER.iterdir()):
        yield from rows_of(file)
