#!/usr/bin/env python3
"""Compares crates.txt with the tables of docs/ARCHITECTURE.md: the same crates in the same order under the same headings, and in
each part a crate stands only on those before it."""
import re
import sys
from pathlib import Path

TOP = Path(__file__).resolve().parent.parent
listed, below = [], {}
for line in (TOP / "crates.txt").read_text().splitlines():
    if line.startswith("# "):
        listed.append((line[2:], []))
    elif ":" in line:
        name, _, deps = line.partition(":")
        listed[-1][1].append(name.split()[0])
        below[name.split()[0]] = deps.split()
section = (TOP / "docs/ARCHITECTURE.md").read_text().split("\n## The crates, in order\n")[1].split("\n## ")[0]
told = [
    (part.split("\n")[0].lower(), re.findall(r"`(\w+)`", "".join(re.findall(r"^\| `.*?\|", part, re.M))))
    for part in section.split("\n### ")[1:]
]
wrong = [f"{one} in crates.txt, {other} in ARCHITECTURE.md" for one, other in zip(listed, told) if one != other]
wrong += ["one of them has more parts"] * (len(listed) != len(told))
wrong += [f"{it} stands before {dep}" for _, part in listed for at, it in enumerate(part) for dep in below[it] if dep in part[at:]]
print("\n".join(f"map: {it}" for it in wrong or [f"{len(below)} crates in {len(listed)} parts, as ARCHITECTURE.md has them"]))
sys.exit(bool(wrong))
