#!/usr/bin/env python3
"""controller.py FILE [PROGRAM]: a controller beside a Python program; copy this file, which needs nothing else, and use the class.

`Controller` starts `spectra run FILE` and talks to it by lines: `step` gives it inputs and returns its outputs. It can't go
on after a broken assumption or a refused line, since the program has then ended: `restart` begins anew at the first position.

    robot = Controller("examples/warehouse.spectra")
    outputs = robot.step(personAisle=1, personPlace=0)      # {'aisle': 0, 'place': 0}

As a program it reads input lines and writes outputs as `spectra run` does, but starts anew after a broken assumption, with the
next line. It ends with 0 at the end of the input, with 2 at wrong words, and else with the program's status.
"""
import os
import subprocess
import sys


class Ended(Exception):
    """The controller has ended. `line` is the last line that it wrote, and `status` its status (docs/USING.md, How it ends)."""

    def __init__(self, line, status):
        super().__init__(f"{line} (status {status})")
        self.line, self.status = line, status


class Unrealizable(Ended):
    """There is no controller: the environment wins."""


class Broken(Ended):
    """The inputs broke an assumption. From here on nothing is promised; `number` is that of the line."""

    def __init__(self, line, status):
        super().__init__(line, status)
        self.number = int(line.rsplit("#", 1)[1])


class Refused(Ended):
    """The inputs can't be read: a name is missing, unknown or twice, or a value isn't one of its variable."""


KINDS = {1: Unrealizable, 4: Broken, 6: Refused}


def written(value):
    """A value as a line has it."""
    return str(value).lower() if isinstance(value, bool) else str(value)


def valued(text):
    """A value of a line: a truth value, a whole number, or the name of an enum as it is."""
    if text in ("true", "false"):
        return text == "true"
    return int(text) if text.lstrip("-").isdigit() else text


class Controller:
    """A controller of FILE. `verdict` is its first line; `steps` counts the positions since it was started."""

    def __init__(self, file, program=None, nodes=None):
        self.words = [program or os.environ.get("SPECTRA", "spectra"), "run", str(file)]
        self.words += ["--nodes", str(nodes)] if nodes else []
        self.process = None
        self.restart()

    def restart(self):
        """Begins anew at the first position: the specification is solved again, and initial assumptions count again."""
        self.close()
        self.process = subprocess.Popen(
            self.words, stdin=subprocess.PIPE, stdout=subprocess.PIPE, text=True, encoding="utf-8", bufsize=1
        )
        self.steps = 0
        # the verdict comes first, as soon as the specification is solved, and whatever else comes in its place ends the program
        self.verdict = self.line()
        if not (self.verdict or "").startswith("realizable "):
            raise self.ended(self.verdict)

    def step(self, inputs=None, **more):
        """Gives the inputs of one position, as a table or by name, and returns the outputs as a table."""
        items = {**(inputs or {}), **more}
        return self.answer(" ".join(f"{name}={written(value)}" for name, value in items.items()))

    def answer(self, inputs):
        """The same for a line as it is written."""
        try:
            self.process.stdin.write(inputs + "\n")
            self.process.stdin.flush()
        except (BrokenPipeError, ValueError):
            pass  # it has ended; what it wrote last says why
        line = self.line()
        # each item of outputs has a sign of equality, and no last line has one
        if line is None or not all("=" in item for item in line.split()):
            raise self.ended(line)
        self.steps += 1
        return {name: valued(value) for name, value in (item.split("=", 1) for item in line.split())}

    def line(self):
        """The next line that is written, which is empty where there are no outputs; None at the end."""
        if self.process.stdout.closed:
            return None
        line = self.process.stdout.readline()
        return line[:-1] if line.endswith("\n") else None

    def ended(self, line):
        status = self.close()
        return KINDS.get(status if line else None, Ended)(line or "", status)

    def close(self):
        """Ends the input, and returns the program's status."""
        if self.process is None:
            return 0
        try:
            self.process.stdin.close()
        except BrokenPipeError:
            pass
        if not self.process.stdout.closed:
            self.process.stdout.read()
            self.process.stdout.close()
        return self.process.wait()

    def __enter__(self):
        return self

    def __exit__(self, *_):
        self.close()


def main():
    if len(sys.argv) not in (2, 3) or sys.argv[1].startswith("--"):
        print(__doc__, file=sys.stderr)
        return 2
    try:
        with Controller(*sys.argv[1:]) as controller:
            print(controller.verdict, flush=True)
            for row in sys.stdin:
                try:
                    outputs = controller.answer(row.rstrip("\r\n"))
                    print(" ".join(f"{name}={written(value)}" for name, value in outputs.items()), flush=True)
                except Broken as broken:
                    print(f"{broken.line}; begun anew", flush=True)
                    controller.restart()
    except Ended as end:
        print(end.line, flush=True)
        return end.status
    except OSError as failed:
        print(f"{failed.filename}: {failed.strerror}", file=sys.stderr)
        return 2
    return 0


if __name__ == "__main__":
    sys.exit(main())
