#!/usr/bin/env python3
"""refused_memory.py PROGRAM SHIM, or refused_memory.py --try STEP LAST: short runs in which each allocation is refused (refused_memory.sh).

A run is as it should be that ends with status 10, has written nothing (`gen` its line at most) and taken no byte of its input
(but `verify`); or that has written all that is due and has that status, since it gets by without what it was refused. It ends with
1 where one isn't.
"""
import os
import re
import subprocess
import sys
import tempfile
import time
from collections import Counter, namedtuple
from pathlib import Path

TOP = Path(__file__).resolve().parent.parent
EXAMPLES = TOP / "examples"
MEMORY, MOST_WRONG = 10, 100

# The words, the input, what is due, its status, and what may stand where memory is refused.
Run = namedtuple("Run", "words given due status fronts")
# What was written, the status, how many bytes of the input were taken, and how many allocations were asked for.
Ended = namedtuple("Ended", "written status taken asked")


def of_example(command, name, status=0):
    given = EXAMPLES / f"{name}.{command}.in"
    due = (EXAMPLES / f"{name}.{command}.out").read_bytes()
    return Run([command, f"{name}.spectra"], given.read_bytes() if given.is_file() else b"", due, status, (b"",))


def plain(command, name, given=b""):
    """What the plain program writes."""
    words = [sys.executable, str(TOP / "bench/plain.py"), command, f"{name}.spectra"]
    return subprocess.run(words, input=given, capture_output=True, cwd=EXAMPLES, check=True).stdout


def of_table(name):
    """A table is written, and read again."""
    table = plain("export", name)
    words = f"{name}.spectra"
    return [Run(["export", words], b"", table, 0, (b"",)), Run(["verify", words], table, plain("verify", name, table), 0, (b"",))]


RUNS = [
    of_example("synth", "door"), of_example("run", "robot"), of_example("counter", "stuck"), of_example("core", "gate"),
    of_example("separate", "crossing"), of_example("audit", "crossing", 1), of_example("many", "fleet"), *of_table("door"),
    Run(["gen", "2"], b"", b"arbiter 2\nrealizable K=5\n", 0, (b"", b"arbiter 2\n")),
    Run(["order", "door.spectra"], b"", b"nodes 10\norder open request\nnodes 9\n", 0, (b"",)),
]  # fmt: skip


def given_to(run):
    """A file with its input."""
    file = tempfile.TemporaryFile()
    file.write(run.given)
    file.seek(0)
    return file


def wrong(run, ended):
    """What is wrong with how it ended; None where nothing is."""
    if (ended.written, ended.status) == (run.due, run.status):
        return None
    if ended.status == MEMORY and ended.written in run.fronts and (run.words[0] == "verify" or not ended.taken):
        return None
    return f"status {ended.status}, {ended.taken} bytes taken, wrote {ended.written[-200:]!r}"


def played(program, shim, run, number):
    """How the program ends where the allocation of this number is refused."""
    env = {"LD_PRELOAD": shim, "REFUSE": str(number)}
    with given_to(run) as given:
        done = subprocess.run([program, *run.words], stdin=given, capture_output=True, cwd=EXAMPLES, env=env)
        taken = os.lseek(given.fileno(), 0, os.SEEK_CUR)
    told = re.fullmatch(rb"asked=(\d+)\n", done.stderr)
    return Ended(done.stdout, done.returncode, taken, int(told[1]) if told else None)


def all_played(program, shim):
    failed = 0
    for run in RUNS:
        begun, ways, number = time.perf_counter(), Counter(), 1
        while True:
            ended = played(program, shim, run, number)
            if ended.asked is not None and ended.asked < number:
                break
            why = wrong(run, ended) or (ended.asked is None and "something on the standard error")
            ways["wrong" if why else "refused" if ended.status == MEMORY else "whole"] += 1
            if why:
                print(f"{' '.join(run.words)}, allocation {number}: {why}")
            number += 1
            if ways["wrong"] == MOST_WRONG:
                return 1
        # the last run was refused nothing
        if wrong(run, ended._replace(taken=0)) or ended.status == MEMORY or number == 1:
            ways["wrong"] += 1
            print(f"{' '.join(run.words)}: status {ended.status}, where nothing is refused")
        failed += ways["wrong"]
        seconds = time.perf_counter() - begun
        print(f"{' '.join(run.words)}: {number - 1} allocations, {ways['refused']} ended it, {ways['whole']} didn't, {ways['wrong']} wrong; {seconds:.1f} s")
    return 1 if failed else 0


def tried(run, number):
    """The same by the program that `rt try` makes; how many allocations it asked for isn't told."""
    data = [] if run.words[0] == "gen" else ["--data", f"{run.words[1]}={EXAMPLES / run.words[1]}"]
    with given_to(run) as given:
        command = ["rt", "try", "--seconds", "60", "--fail-alloc", str(number), *data, "--", *run.words]
        done = subprocess.run(command, stdin=given, capture_output=True, cwd=TOP / "crates/spectra")
    return Ended(done.stdout, done.returncode, 0, None)


def all_tried(step, last):
    failed = 0
    for run in RUNS:
        for number in range(step, last + 1, step):
            ended = tried(run, number)
            why = wrong(run, ended)
            print(f"{' '.join(run.words)}, allocation {number}: {why or f'status {ended.status}'}", flush=True)
            failed += why is not None
    return 1 if failed else 0


def main():
    if sys.argv[1:2] == ["--try"] and len(sys.argv) == 4:
        return all_tried(int(sys.argv[2]), int(sys.argv[3]))
    if len(sys.argv) != 3:
        sys.exit(__doc__)
    return all_played(*sys.argv[1:])


if __name__ == "__main__":
    sys.exit(main())
