#!/usr/bin/env python3
"""Each wrong body of wrong/CRATE, and of the gate in crates/CRATE/must-fail, still applies: its old texts stand exactly once.
docs/PROVED.md says how many there are."""
import re
import sys
from pathlib import Path

TOP = Path(__file__).resolve().parent.parent
NAME = re.compile(r"[A-Za-z0-9_-][A-Za-z0-9_.-]*\.edit")


def misfit(edit, folder):
    """Why the edit doesn't apply to the crate in the folder, or None. Each pair is looked for in what the earlier ones made."""
    path, old, pairs, texts = "", None, 0, {}
    for line in edit.read_text().split("\n"):
        word, _, rest = line.partition(" ")
        if word == "file:":
            path = rest.strip()
            if not re.match(r"(src|specs|proofs)/", path) or not (folder / path).is_file():
                return f"there is no file {path}"
        elif word == "old:":
            old = rest
        elif word == "new:":
            if not path or not old:
                return "a new text stands before its file or its old one"
            text = texts.get(path) or (folder / path).read_text()
            if text.count(old) != 1:
                return f"an old text stands in {path} {text.count(old)} times: {old.strip()}"
            texts[path] = text.replace(old, rest)
            old, pairs = None, pairs + 1
        elif line.strip() and not line.startswith(("#", "--", "//")):
            return f"a line is neither file nor old nor new: {line}"
    same = all(text == (folder / file).read_text() for file, text in texts.items())
    return "it changes nothing" if not pairs or same else None


def why_not(edit):
    """What is wrong with a file among the edits, or None."""
    place, crate = edit.relative_to(TOP).parts[:2]
    folder = TOP / "crates" / crate
    if not NAME.fullmatch(edit.name):
        return "its name isn't one of an edit"
    if not folder.is_dir():
        return f"there is no crate {crate}"
    if place == "wrong" and (folder / "must-fail" / edit.name).exists():
        return "the gate has one of this name"
    return misfit(edit, folder)


def main():
    gate, kept = sorted(TOP.glob("crates/*/must-fail/*")), sorted(TOP.glob("wrong/*/*"))
    lost = 0
    for edit in gate + kept:
        why = why_not(edit)
        if why:
            print(f"{edit.relative_to(TOP)}: {why}")
            lost += 1
    told = re.search(r"The gate tries (\d+) of them.*? and (\d+) more stand in `wrong/`", (TOP / "docs/PROVED.md").read_text())
    if not told or [int(it) for it in told.groups()] != [len(gate), len(kept)]:
        print("docs/PROVED.md (Wrong bodies) has other numbers")
        lost += 1
    print(f"wrong bodies: {len(gate)} in the gate, {len(kept)} in wrong/; what is wrong: {lost}")
    return 1 if lost else 0


if __name__ == "__main__":
    sys.exit(main())
