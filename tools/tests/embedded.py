#!/usr/bin/env python3
"""embedded.py [PROGRAM]: compiles C files of tools/embed.py, and plays each through a thousand random positions.

At each it gives the step function a legal input, and now and then before it one that breaks an assumption or is no value; what
comes back is compared with the table, and the answers with those of `run`, of PROGRAM or else of the plain program. $CC names the
compiler, if it isn't gcc: one that is named and isn't there is a failure; where none is named and there is no gcc, nothing is
tried, and that is said. It ends with 1 where anything differs.
"""
import ctypes
import os
import random
import shutil
import subprocess
import sys
import tempfile
from pathlib import Path

from exported import TOP, Exporter

from embed import file_of, named
from reference.talks import show
from strategy import Strategy

NAMES = "arbiter coffee cornered crossing hotel lift robot stuck-mended tank-mended thermostat warehouse".split()
POSITIONS = 1000
COMPILER = os.environ.get("CC", "gcc")
FLAGS = ["-std=c99", "-pedantic", "-Wall", "-Wextra", "-Werror", "-O2"]
# names that C has for itself, or none; enums of one name in two variables; ranges of each width, and below 0; inputs of several
# sizes; names that the file has of its own; no inputs, no outputs, no node
TEXTS = {
    "words": "spec int env boolean default; env {case, a_b} linux; env {case, b} linux_a; sys {case, b} register; sys boolean bool;\n"
    "gar alw default <-> bool; gar alw linux_a = register;",
    "letters": "spec Größe env {rot, grün} früh; sys {rot, grün} spät; gar alw früh = spät;",
    "ranges": "spec Ranges env Int(110..127) a; sys Int(-129..-128) b; sys Int(70000..70001) c; sys Int(5000000000..5000000001) d;\n"
    "gar alw a < 120 <-> b = -128; gar alw a < 120 <-> c = 70001; gar alw a < 120 <-> d = 5000000000;",
    "mixed": "spec Mixed env Int(-2..0) a; env Int(3..4) b; env {x, y, z} c; sys boolean d; sys {x, y, z} e;\n"
    "gar alw d <-> a + b = 2; gar alw e = c;",
    "row": "spec X env {row, step} X; sys {row, step} X_row; gar alw X = X_row; asm alw X = row -> next(X = step);",
    "alone": "spec Alone sys Int(0..2) n; gar ini n = 0; gar alw next(n) = (n + 1) mod 3;",
    "silent": "spec Silent env boolean a; asm alw a -> next(!a);",
    "never": "spec Never env boolean a; sys boolean g; asm ini false; gar alwEv g;",
}


class Differs(Exception):
    """What the step function gives, and what it should."""


def compiled(code, folder):
    """The C file as a library, which wants no other."""
    source, made = folder / "it.c", folder / f"it{len(list(folder.iterdir()))}.so"
    source.write_text(code, encoding="utf-8")
    subprocess.run([COMPILER, *FLAGS, "-ffreestanding", "-c", source, "-o", folder / "it.o"], check=True)
    wanted = subprocess.run(["nm", "-u", folder / "it.o"], check=True, capture_output=True, text=True).stdout
    if wanted:
        raise Differs(f"it calls {wanted}")
    subprocess.run([COMPILER, *FLAGS, "-fPIC", "-shared", source, "-o", made], check=True)
    return ctypes.CDLL(str(made))


class Embedded:
    """The step function of a strategy, played."""

    def __init__(self, strategy, folder):
        self.strategy = strategy
        name, self.inputs, self.outputs = named(strategy)
        library = compiled(file_of(strategy), folder)
        self.step = getattr(library, f"{name}_step")
        self.at = ctypes.c_uint16(0)

    @staticmethod
    def structure(variables):
        fields = [(f"m{at}", getattr(ctypes, f"c_{variable.type.removesuffix('_t')}")) for at, variable in enumerate(variables)]
        return type("Structure", (ctypes.Structure,), {"_fields_": fields or [("none", ctypes.c_char)]})

    @staticmethod
    def coded(variable, value):
        """A value as the structure has it: an enum name by its number."""
        return variable.number(value) if variable.constants else value

    def given(self, values):
        """The status of a step and the outputs."""
        inputs, outputs = self.structure(self.inputs)(*values), self.structure(self.outputs)()
        status = self.step(ctypes.byref(self.at), ctypes.byref(inputs), ctypes.byref(outputs))
        found = [getattr(outputs, f"m{at}") for at in range(len(self.outputs))]
        return status, tuple(v.domain[one] if v.constants else one for v, one in zip(self.outputs, found))

    def refuses(self, values, status):
        """A step that isn't answered leaves the controller where it is."""
        before = self.at.value
        found, _ = self.given(values)
        if found != status or self.at.value != before:
            raise Differs(f"status {found} for {values}, and not {status}; at {self.at.value}, before at {before}")

    def answers(self, x, wanted):
        found = self.given([self.coded(variable, value) for variable, value in zip(self.inputs, x)])
        if found != (0, wanted):
            raise Differs(f"{found} for {x}, and not {(0, wanted)}")


def wrong_values(embedded, some):
    """An assignment of the inputs in which one is none of its variable's values; None where there is no such one."""
    values = [embedded.coded(variable, some.choice(variable.domain)) for variable in embedded.inputs]
    open_ones = [at for at, variable in enumerate(embedded.inputs) if variable.type != "bool"]
    if not open_ones:
        return None
    at = some.choice(open_ones)
    variable = embedded.inputs[at]
    values[at] = len(variable.domain) if variable.constants else some.choice([variable.domain[0] - 1, variable.domain[-1] + 1])
    return values


def tried_wrongly(embedded, row, some):
    """Gives inputs that aren't legal; how many were refused."""
    refused = 0
    if values := wrong_values(embedded, some):
        embedded.refuses(values, 2)
        refused += 1
    legal = {embedded.strategy.nodes[number].state[1] for number in row}
    x = tuple(some.choice(variable.domain) for variable in embedded.inputs)
    if x not in legal:
        embedded.refuses([embedded.coded(variable, value) for variable, value in zip(embedded.inputs, x)], 1)
        refused += 1
    return refused


def played(embedded, some):
    """The sessions that were played, each as lines of inputs and of outputs, and how many wrong inputs were refused."""
    strategy, sessions, refused = embedded.strategy, [([], [])], 0
    row = strategy.table.first
    for _ in range(POSITIONS):
        if some.random() < 0.2:
            refused += tried_wrongly(embedded, row, some)
        if not row:
            if not strategy.table.first:
                break
            embedded.at.value, row = 0, strategy.table.first
            sessions.append(([], []))
        node = strategy.nodes[some.choice(row)]
        _, x, y = node.state
        embedded.answers(x, y)
        sessions[-1][0].append(show(strategy.inputs, x))
        sessions[-1][1].append(show(strategy.outputs, y))
        row = node.follows
    return sessions, refused


def tried(file, exporter, folder, some):
    """How many positions were answered, and how many wrong inputs refused."""
    opened = exporter.open(file)
    (folder / "table.json").write_bytes(exporter.table(str(file), opened))
    sessions, refused = played(Embedded(Strategy(file, folder / "table.json"), folder), some)
    for given, wanted in sessions:
        if (found := exporter.run(str(file), opened, given)) != wanted:
            at = next((k for k, pair in enumerate(zip(found, wanted)) if pair[0] != pair[1]), len(found))
            raise Differs(f"run answers line {at + 1} of a session otherwise: {found[at:at + 1]}, the step {wanted[at:at + 1]}")
    return sum(len(given) for given, _ in sessions), refused


def is_taken(file, exporter):
    """Whether a counterstrategy, too, is made a C file: 0 if not."""
    words = [sys.executable, TOP / "tools/embed.py", file, "-"]
    done = subprocess.run(words, input=exporter.table(str(file), exporter.open(file)), capture_output=True)
    if done.returncode == 2 and done.stdout == b"":
        return 0
    print(f"embedded: {file.name}: a counterstrategy isn't refused")
    return 1


def main():
    if not shutil.which(COMPILER):
        print(f"embedded: skipped, since there is no compiler {COMPILER}; $CC names another one")
        return 1 if "CC" in os.environ else 0
    exporter, some, differ, positions, refused = Exporter(*sys.argv[1:2]), random.Random(1), 0, 0, 0
    with tempfile.TemporaryDirectory() as made:
        folder = Path(made)
        for name, text in TEXTS.items():
            (folder / f"{name}.spectra").write_text(text + "\n", encoding="utf-8")
        files = [TOP / f"examples/{name}.spectra" for name in NAMES] + [folder / f"{name}.spectra" for name in TEXTS]
        for file in files:
            try:
                more, others = tried(file, exporter, folder, some)
                positions, refused = positions + more, refused + others
            except (Differs, subprocess.CalledProcessError) as difference:
                differ += 1
                print(f"embedded: {file.name}: {difference}")
    differ += is_taken(TOP / "examples/tank.spectra", exporter)
    told = f"{positions} positions answered and {refused} wrong inputs refused, {differ} differ; {exporter.said()}"
    print(f"embedded: {len(files)} controllers in C, {told}")
    return 1 if differ else 0


if __name__ == "__main__":
    sys.exit(main())
