#!/usr/bin/env python3
"""Writes into docs/PROVED.md which specification files the clauses of the top call reach, in reading order, with their lines
that aren't blank. With --check it writes nothing, and fails where the page has another list."""
import re
import sys
from pathlib import Path

TOP = Path(__file__).resolve().parent.parent
PAGE = TOP / "docs/PROVED.md"
MARKS = "<!-- written by tools/believed.py -->\n", "<!-- end -->\n"
USE = re.compile(r"^(?:ghost |unfoldable )*(?:pub )?use Rattle\.(\w+)\.specs\.([\w.]+?)\.?(?:\{(.*)\}|$| as )", re.M)


def crates():
    """The crates in the order of crates.txt."""
    return re.findall(r"^(\w+):", (TOP / "crates.txt").read_text(), re.M)


def reached_from(path, asked=None):
    """The files that a file's `use` lines name, or those that name something in the text that is asked about."""
    for crate, inside, names in USE.findall(path.read_text()):
        if asked is None or any(re.search(rf"\b{name.split()[0]}\b", asked) for name in names.split(",") if name.strip()):
            parts = inside.split(".")
            file = TOP / "crates" / crate / "specs" / ("/".join(parts) + ".antt")
            if parts[0] != "declared" and file.is_file():
                yield file


def reached():
    """All files that the clauses of the top call reach, each with those that it names."""
    top = TOP / "crates/spectra_top/src/top.rt"
    left, found = list(reached_from(top, top.read_text().split("pub fn spectra")[1])), {}
    while left:
        file = left.pop()
        if file not in found:
            found[file] = list(reached_from(file))
            left += found[file]
    return found


def in_order(names, below):
    """The names in their order, but each only behind those below it."""
    left, order = list(names), []
    while left:
        first = next(it for it in left if not any(other in left for other in below(it) if other != it))
        left.remove(first)
        order.append(first)
    return order


def section():
    """What the page has between its marks."""
    found = reached()
    crate_of = lambda file: file.relative_to(TOP).parts[1]
    known = [it for it in crates() if any(crate_of(file) == it for file in found)]
    above = {it: {crate_of(low) for file in found if crate_of(file) == it for low in found[file]} for it in known}
    rows, whole = [], 0
    for crate in in_order(known, above.get):
        listed = re.findall(r"^pub mod (\w+)", (TOP / "crates" / crate / "specs/Lib.antt").read_text(), re.M)
        files = sorted((it for it in found if crate_of(it) == crate), key=lambda it: listed.index(it.stem))
        counts = [(it.stem, sum(bool(line.strip()) for line in it.read_text().splitlines())) for it in in_order(files, found.get)]
        rows.append((crate, counts, sum(count for _, count in counts)))
        whole += rows[-1][2]
    lines = [f"{whole:,} lines that aren't blank, in {len(found)} files of {len(rows)} crates. Each stands only on those before it.", ""]
    lines += ["| Crate | Lines | Files of `specs/` |", "|---|---|---|"]
    lines += [f"| `{crate}` | {lines_in:,} | {', '.join(f'{name} {count}' for name, count in counts)} |" for crate, counts, lines_in in rows]
    return "\n".join(lines) + "\n"


def main():
    front, _, rest = PAGE.read_text().partition(MARKS[0])
    was, _, back = rest.partition(MARKS[1])
    now = section()
    if "--check" not in sys.argv:
        PAGE.write_text(front + MARKS[0] + now + MARKS[1] + back)
    elif was != now:
        print("believed: docs/PROVED.md has another list; tools/believed.py writes it")
        return 1
    print(f"believed: {now.splitlines()[0]}")
    return 0


if __name__ == "__main__":
    sys.exit(main())
