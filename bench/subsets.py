#!/usr/bin/env python3
"""subsets.py PROGRAM: cores of the program, judged by trying every set of guarantees with the plain program (reference/).

Of each text below the core that the program prints has to be unrealizable, and each smaller part of it realizable; no set of
guarantees that is realizable may hold it. The sets are all those of the text's guarantees.
"""
import itertools
import subprocess
import sys
from pathlib import Path

sys.path.insert(0, str(Path(__file__).resolve().parent))

from reference.game import Game  # noqa: E402
from reference.layers import Verdict  # noqa: E402
from reference.text import text_of  # noqa: E402

FIVE_OF_TWELVE = """spec FiveOfTwelve
sys boolean p; sys boolean q; sys boolean r; sys boolean s;
gar alw p; gar alw p -> q; gar alw p | s; gar alw q -> r; gar alwEv p; gar alw r -> s;
gar alw s -> p; gar alw p; gar alw !s; gar alw s -> q; gar alw s -> r; gar alwEv s | !s;
"""

GOALS_ALONE = """spec GoalsAlone
env boolean a;
sys boolean g;
gar alw g | !g;
gar alwEv a | g;
gar alwEv !a & g;
gar alwEv a <-> g;
"""

MIXED = """spec Mixed
env boolean a;
env boolean b;
sys boolean g;
sys boolean h;
asm alwEv a;
asm alwEv b;
asm alw !(a & b);
gar alw g -> a;
gar alw h -> b;
gar alwEv g & h;
gar alw next(g) -> !h;
gar alwEv g;
"""


def core_of(program, source):
    Path("subsets.spectra").write_text(source)
    done = subprocess.run([program, "core", "subsets.spectra"], capture_output=True, check=True)
    lines = done.stdout.decode().split("\n")[:-1]
    numbers = [int(line[1:]) for line in lines[2:]]
    assert lines[1] == f"core {len(numbers)}", lines
    return set(numbers)


def judged(text):
    """For each set of guarantees, by their numbers, whether it is realizable."""
    others = [line for line in text.lines if line.role != "gar"]
    guarantees = [line for line in text.lines if line.role == "gar"]
    found = {}
    for size in range(len(guarantees) + 1):
        for some in itertools.combinations(guarantees, size):
            kept = sorted(others + list(some), key=lambda line: line.number)
            found[frozenset(line.number for line in some)] = Verdict(Game(text, kept)).realizable
    return found


def main():
    if len(sys.argv) != 2:
        sys.exit("usage: subsets.py PROGRAM")
    program = Path(sys.argv[1]).resolve()
    for source in (FIVE_OF_TWELVE, GOALS_ALONE, MIXED):
        core = core_of(program, source)
        found = judged(text_of(source))
        assert not found[frozenset(core)], core
        for some, realizable in found.items():
            assert realizable or not some < core, (core, some)
            assert not (realizable and core <= some), (core, some)
        least = min(len(some) for some, realizable in found.items() if not realizable)
        print(f"{source.split()[1]}: core {sorted(core)}, right among {len(found)} sets; the smallest has {least}")
    return 0


if __name__ == "__main__":
    sys.exit(main())
