"""The ways to solve a specification of families.py that are timed side by side, each with its limits of time and of nodes."""
import resource
import signal
import subprocess
from pathlib import Path

from families import spec_of
from spec import flat, text

BUDGETS = [2**k for k in range(8, 23)]
MEMORY = 3 << 30  # bytes for a run


class Way:
    """The program, or a way of the solver. Its store begins with one of `starts`; the quicker one counts. The second is passed
    over where the first takes more than a quarter of the limit, unless the way is `fickle`."""

    def __init__(self, name, column, starts=(0,), fickle=False):
        self.name, self.column, self.starts, self.fickle = name, column, starts, fickle


PROGRAM = Way("program", "spectra")
WAYS = [
    PROGRAM,
    Way("verdict", "BuDDy, verdict", (1_000_000, 50_000)),
    Way("numbers", "BuDDy, numbers", (1_000_000, 50_000)),
    Way("sifting", "BuDDy, sifting", (10_000, 2_000), fickle=True),
]


class Bench:
    """Runs the ways on the specifications, each run within so many seconds of processor time."""

    def __init__(self, program, solver, folder, limit):
        self.program, self.solver, self.folder, self.limit = program, solver, Path(folder), limit

    def write(self, family, size):
        """The name of the specification's files, without their ends."""
        spec = spec_of(family, size)
        stem = self.folder / f"{family}{size}"
        stem.with_suffix(".spectra").write_text(text(spec))
        stem.with_suffix(".flat").write_text(flat(spec))
        return stem

    def command(self, way, stem, start, most):
        if way is PROGRAM:
            return [self.program, "synth", f"{stem}.spectra", *(["--nodes", str(most)] if most else [])]
        return [self.solver, way.name, str(min(start, most // 2 or start)), *([str(most)] if most else [])]

    def run(self, way, stem, start, most=0, limit=None):
        """The last line that is written, and the seconds of processor time; no line where the limit is passed."""
        def bounded():
            resource.setrlimit(resource.RLIMIT_CPU, (limit or self.limit, (limit or self.limit) + 1))
            resource.setrlimit(resource.RLIMIT_AS, (MEMORY, MEMORY))

        before = resource.getrusage(resource.RUSAGE_CHILDREN)
        with open(f"{stem}.flat", "rb") as given:
            command = self.command(way, stem, start, most)
            done = subprocess.run(command, stdin=given, capture_output=True, text=True, check=False, preexec_fn=bounded)
        after = resource.getrusage(resource.RUSAGE_CHILDREN)
        took = after.ru_utime + after.ru_stime - before.ru_utime - before.ru_stime
        said = done.stdout.splitlines()[-1] if done.stdout else f"status {done.returncode}"
        return "" if done.returncode == -signal.SIGXCPU else said, took

    def least(self, way, stem, rounds):
        """What is said by the quickest of some rounds of runs, with its seconds. No round follows a slow run."""
        runs, slow = [], False
        for start in way.starts * rounds:
            if slow and (not way.fickle or len(runs) >= len(way.starts)):
                break
            runs.append(self.run(way, stem, start))
            slow = slow or runs[-1][1] > self.limit / 4
        return min(runs, key=lambda run: (not is_verdict(run[0]), run[1]))

    def nodes(self, way, stem, limit):
        """The least of BUDGETS with which there still is a verdict within the limit; the greatest where there is none."""
        low, high = 0, len(BUDGETS) - 1
        while low < high:
            middle = (low + high) // 2
            said, _ = self.run(way, stem, way.starts[0], BUDGETS[middle], limit)
            low, high = (low, middle) if is_verdict(said) else (middle + 1, high)
        return BUDGETS[low]


def is_verdict(said):
    return said.startswith(("realizable", "unrealizable"))
