"""Tables of strategies for the tests of tools: from the program where it exports them, else from the plain program."""
import subprocess
import sys
from pathlib import Path

TOP = Path(__file__).resolve().parent.parent.parent
sys.path[:0] = [str(TOP / "bench"), str(TOP / "tools")]

from plain import Disk  # noqa: E402
from reference.game import Game  # noqa: E402
from reference.layers import Verdict  # noqa: E402
from reference.tables import table_for, text_of  # noqa: E402
from reference.talks import run  # noqa: E402
from reference.text import Text  # noqa: E402


def written(program, command, file, given=b""):
    """What the program writes for a file and an input, as lines."""
    return subprocess.run([program, command, file], input=given, capture_output=True).stdout.decode().split("\n")[:-1]


class Exporter:
    """The program, if it exports tables, or the plain one."""

    def __init__(self, program=None):
        self.program = program
        # a program that has the command looks for the file
        self.exports = program is not None and written(program, "export", "none.spectra") == ["no such file: none.spectra"]

    def said(self):
        """Whose tables and lines are used."""
        if self.program is None:
            return "tables and lines of the plain program"
        return "lines of the program, tables of " + ("it too" if self.exports else "the plain program, since it has no export")

    def open(self, file):
        """A specification's game, and its verdict where it is solved here."""
        game = Game(Text(str(file), Disk()))
        return game, None if self.exports else Verdict(game)

    def table(self, file, opened):
        """The table's text, as bytes with a line feed."""
        if self.exports:
            return "\n".join([*written(self.program, "export", file), ""]).encode()
        game, verdict = opened
        return (text_of(game, table_for(game, verdict)) + "\n").encode()

    def run(self, file, opened, lines):
        """What `run` answers to these lines, without the verdict."""
        if self.program is not None:
            return written(self.program, "run", file, "".join(line + "\n" for line in lines).encode())[1:]
        return list(run(*opened, lines))[1:]
