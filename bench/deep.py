#!/usr/bin/env python3
"""deep.py PROGRAM [WORD]: what PROGRAM does with the texts of deep_texts.py, or with those in whose name WORD stands.

Each is read by a process of its own with a stack of STACK bytes (as behind `ulimit -s 512`), which is ended after LIMIT
seconds of a processor. A row says the status, the seconds of a processor, and how it ended: answered as it should be, late
(after more than SECOND), by a signal, not within the limit, or with something else. Behind a text that isn't answered as it
should be stands what was known of it. The exit status is 1 where there is such a text.
"""
import resource
import signal
import subprocess
import sys
import tempfile
from pathlib import Path

from deep_texts import MOST_BYTES, TEXTS

STACK = 512 * 1024
LIMIT = 20
SECOND = 1.0


def narrow():
    """The stack and the time of the program that is begun."""
    resource.setrlimit(resource.RLIMIT_STACK, (STACK, resource.getrlimit(resource.RLIMIT_STACK)[1]))
    resource.setrlimit(resource.RLIMIT_CPU, (LIMIT, LIMIT + 1))


def spent():
    """The seconds of a processor that the programs took that ended."""
    used = resource.getrusage(resource.RUSAGE_CHILDREN)
    return used.ru_utime + used.ru_stime


def run(program, text, folder):
    """The status of a run, what it wrote, and its seconds."""
    Path(folder, "t.spectra").write_bytes(text.text.encode())
    command = [program, text.command, "t.spectra"]
    before = spent()
    done = subprocess.run(command, cwd=folder, input=text.given.encode(), capture_output=True, preexec_fn=narrow, check=False)
    return done.returncode, done.stdout, spent() - before


def ended(text, status, written, took):
    """How a run ended, and whether as it should."""
    if status == -signal.SIGXCPU:
        return f"not within {LIMIT} s", False
    if status < 0:
        return signal.Signals(-status).name, False
    if status > 128:
        return f"status {status}", False
    if (written.decode("utf-8", "replace"), status) != (text.written, text.status):
        return f"something else: {written[:60]!r}", False
    return ("as it should", True) if took <= SECOND else ("late", False)


def main():
    if len(sys.argv) not in (2, 3):
        sys.exit(__doc__)
    program = str(Path(sys.argv[1]).resolve())
    chosen = [it for it in TEXTS if len(sys.argv) == 2 or sys.argv[2] in it.name]
    print("| Text | Bytes | Status | s | Ended | Known |\n|---|---|---|---|---|---|", flush=True)
    wrong = known = 0
    with tempfile.TemporaryDirectory() as folder:
        for text in chosen:
            size = len(text.text.encode())
            assert size <= MOST_BYTES, text.name
            status, written, took = run(program, text, folder)
            how, right = ended(text, status, written, took)
            wrong += not right
            known += not right and text.known != ""
            shown = "none" if status < 0 else status
            print(f"| {text.name} | {size:,} | {shown} | {took:.3f} | {how} | {'' if right else text.known} |", flush=True)
    print(f"\n{len(chosen)} texts, {wrong} not answered as they should be, {known} of these known")
    return 1 if wrong else 0


sys.exit(main())
