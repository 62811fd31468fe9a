#!/usr/bin/env python3
"""talks.py: tries the class of tools/controller.py: the verdict, steps, what ends it, a broken assumption and a new start.

$SPECTRA names the program. It ends with 1 where anything is otherwise than is written here.
"""
import sys
from pathlib import Path

HERE = Path(__file__).resolve().parent
sys.path.insert(0, str(HERE.parent))

from controller import Broken, Controller, Ended, Refused, Unrealizable  # noqa: E402

EXAMPLES = HERE.parent.parent / "examples"
NOBODY, BOTH = {"request0": False, "request1": False}, {"request0": True, "request1": True}


def ending(call, *words, **more):
    """What ends it: the kind of the exception, its last line and its status; None where nothing does."""
    try:
        call(*words, **more)
    except Ended as end:
        return type(end), end.line, end.status
    return None


def tried():
    """Pairs of what was found and what is wanted."""
    arbiter = Controller(EXAMPLES / "arbiter.spectra")
    yield arbiter.verdict, "realizable K=2"
    yield arbiter.step(NOBODY), {"grant0": False, "grant1": False}
    # both ask: one of them has it, and the other one after that
    first, second = arbiter.step(BOTH), arbiter.step(**BOTH)
    yield sorted([first["grant0"], second["grant0"]]), [False, True]
    yield first["grant1"], second["grant0"]
    yield arbiter.steps, 3
    # one of them stops asking before it has it
    waits = "request1" if second["grant0"] else "request0"
    yield ending(arbiter.step, {**BOTH, waits: False}), (Broken, f"assumption broken #{3 if second['grant0'] else 2}", 4)
    yield ending(arbiter.step, NOBODY), (Ended, "", 4)
    arbiter.restart()
    # the initial assumption counts again
    yield ending(arbiter.step, BOTH), (Broken, "assumption broken #1", 4)
    arbiter.restart()
    yield arbiter.step(NOBODY), {"grant0": False, "grant1": False}
    yield ending(arbiter.step, request0=True), (Refused, "line 2 refused", 6)
    yield arbiter.close(), 6
    with Controller(EXAMPLES / "warehouse.spectra") as robot:
        yield robot.step(personAisle=1, personPlace=0), {"aisle": 0, "place": 0}
        yield robot.close(), 0
    with Controller(EXAMPLES / "crossing.spectra") as gate:
        yield gate.step(train="AWAY"), {"gate": "UP"}
    yield ending(Controller, EXAMPLES / "stuck.spectra"), (Unrealizable, "unrealizable N=2 M=2", 1)
    yield ending(Controller, "none.spectra"), (Ended, "no such file: none.spectra", 11)
    yield ending(Controller, EXAMPLES / "lift.spectra", nodes=2), (Ended, "node budget 2 reached", 5)


def main():
    count = differences = 0
    for found, wanted in tried():
        count += 1
        if found != wanted:
            differences += 1
            print(f"controller: found {found}, wanted {wanted}")
    print(f"controller: {count} answers, {differences} otherwise")
    return 1 if differences else 0


if __name__ == "__main__":
    sys.exit(main())
