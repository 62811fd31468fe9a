#!/usr/bin/env python3
"""Compares the words of the syntax files with the lexer's table of reserved words: each stands in each file, and no other. The files
that VS Code's package.json names are there, and its problem matcher takes a fault apart."""
import json
import re
import sys
from pathlib import Path

TOP = Path(__file__).resolve().parent.parent


def reserved_words():
    """The words of the table RESERVED of the lexer."""
    source = (TOP / "crates/spectra_lexer/src/words.rt").read_text()
    table = re.search(r"pub const RESERVED[^=]*= \[(.*?)\n\];", source, re.S).group(1)
    return set(re.findall(r'"(\w+)"', table))


def vim_words():
    """The keywords of the syntax file for Vim."""
    lines = (TOP / "editors/vim/syntax/spectra.vim").read_text().splitlines()
    return {word for line in lines if line.startswith("syntax keyword") for word in line.split()[3:]}


def textmate_words():
    """The words of the grammar for editors that read TextMate's."""
    grammar = json.loads((TOP / "editors/vscode/spectra.tmLanguage.json").read_text())
    rows = grammar["repository"]["words"]["patterns"]
    return {word for row in rows for word in re.fullmatch(r"\\b\((.*)\)\\b", row["match"]).group(1).split("|")}


def package_faults():
    """What is wrong with the folder for VS Code."""
    folder = TOP / "editors/vscode"
    given = json.loads((folder / "package.json").read_text())["contributes"]
    json.loads((folder / "language-configuration.json").read_text())
    named = [one["configuration"] for one in given["languages"]] + [one["path"] for one in given["grammars"]]
    yield from (f"no file {name}" for name in named if not (folder / name).is_file())
    pattern = given["problemMatchers"][0]["pattern"]
    found = re.fullmatch(pattern["regexp"], "a folder/door.spectra:3:17: fault 7 Unknown")
    parts = [found and found.group(pattern[part]) for part in ("file", "line", "column", "message")]
    if parts != ["a folder/door.spectra", "3", "17", "fault 7 Unknown"]:
        yield f"the problem matcher gives {parts}"


def main():
    reserved = reserved_words()
    status = 0
    for fault in package_faults():
        print(f"vscode: {fault}")
        status = 1
    for name, words in (("vim", vim_words()), ("textmate", textmate_words())):
        for what, some in (("missing", reserved - words), ("not reserved", words - reserved)):
            if some:
                print(f"{name}: {what}: {' '.join(sorted(some))}")
                status = 1
    if status == 0:
        print(f"editors: {len(reserved)} reserved words in each syntax file")
    return status


if __name__ == "__main__":
    sys.exit(main())
