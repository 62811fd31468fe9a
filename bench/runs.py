"""How long a command runs."""
import subprocess
import sys
import time


def seconds(command, expected, rounds):
    """The least seconds of some runs, each of which is to write the expected line; the input is empty."""
    least = None
    for _ in range(rounds):
        before = time.perf_counter()
        run = subprocess.run(command, stdin=subprocess.DEVNULL, stdout=subprocess.PIPE, text=True, check=False)
        took = time.perf_counter() - before
        if run.stdout != expected:
            sys.exit(f"{command}: {run.stdout!r}")
        least = took if least is None else min(least, took)
    return least
