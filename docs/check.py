#!/usr/bin/env python3
"""check.py [PROGRAM [DOCUMENT..]]: runs what the documents show, and compares; where no program is named and none built, nothing.

A block that begins ```LANGUAGE NAME is a file (in the man page a comment says its name). In a block of text that has
`$ COMMAND` the lines behind it are what is typed (behind `> `) and what is written; each is written before the next is typed.
In a table whose head is `Written | Told | ..` or `To say | Write` the first code of a row, or the second, is a text behind the
file `head.spectra`: it is refused as told, or it isn't refused; plays.txt has plays that are audited by it. The examples of the
table of faults have these faults. All is done in a folder of its own that has the examples; `spectra` is PROGRAM there.
"""
import html
import os
import re
import shutil
import signal
import subprocess
import sys
import tempfile
from pathlib import Path

TOP = Path(__file__).resolve().parent.parent
BUILT = TOP / "crates/spectra/out/spectra"
# for one command, also by a program that is built with checks, on a busy machine
SECONDS = 600
BLOCK = re.compile(r"^```(\w+)(?: (\S+))?\n(.*?)^```$", re.S | re.M)
ROFF = re.compile(r'^(?:\.\\" file (\S+)\n)?\.nf\n(.*?)^\.fi$', re.S | re.M)
CODE = re.compile(r"<code>(.*?)</code>|`([^`]+)`")


class Differs(Exception):
    """What the document shows and what is written."""


def prepared(folder, program):
    """The environment of commands that run in this folder."""
    shutil.copytree(TOP / "examples", folder / "examples")
    for name in ("bench", "tools"):
        if (TOP / name).is_dir():
            (folder / name).symlink_to(TOP / name)
    (folder / "bin").mkdir()
    (folder / "bin/spectra").symlink_to(program)
    return {**os.environ, "PATH": f"{folder / 'bin'}:{os.environ['PATH']}", "PYTHONDONTWRITEBYTECODE": "1"}


# ---- talks


def talks_of(block):
    """The commands of a block, each with the rows behind it."""
    talks = []
    for row in block.splitlines():
        if row.startswith("$ "):
            talks.append((row[2:], []))
        elif talks:
            talks[-1][1].append(row)
    return talks


def talk(command, rows, folder, env):
    """Runs a command, types what is typed, and compares what is written."""
    process = subprocess.Popen(
        ["bash", "-c", command], cwd=folder, env=env, text=True, stdin=subprocess.PIPE, stdout=subprocess.PIPE, stderr=subprocess.STDOUT
    )
    signal.alarm(SECONDS)
    try:
        for row in rows:
            if row.startswith("> "):
                process.stdin.write(row[2:] + "\n")
                process.stdin.flush()
            else:
                written = process.stdout.readline().rstrip()
                if written != row.rstrip():
                    raise Differs(f"shown {row!r}, written {written!r}")
        process.stdin.close()
        if rest := process.stdout.read():
            raise Differs(f"more is written: {rest!r}")
    except (BrokenPipeError, TimeoutError) as error:
        raise Differs(f"{error!r}") from None
    finally:
        signal.alarm(0)
        process.kill()
        process.wait()


# ---- tables


def codes_of(cell):
    """The pieces of code in a cell of a table."""
    return [html.unescape(one or two) for one, two in CODE.findall(cell)]


def tables_of(document):
    """The rows of each table, as cells; the first row is its head."""
    for table in re.findall(r"(?:^\|.*\n)+", document, re.M):
        rows = [re.split(r"(?<!\\)\|", row.strip())[1:-1] for row in table.splitlines()]
        yield [[cell.strip() for cell in row] for row in rows if not set(row[0]) <= set("- ")]


def answer_for(text, folder, env, head=None):
    """What `synth` writes for a text behind a head."""
    if head is None:
        head = "" if text.startswith(("spec ", "import ")) else (folder / "head.spectra").read_text()
    (folder / "row.spectra").write_text(head + text + "\n")
    done = subprocess.run(["spectra", "synth", "row.spectra"], cwd=folder, env=env, capture_output=True, text=True, timeout=SECONDS)
    return done.stdout.strip(), done.returncode


def refused_row(row, folder, env):
    """A text is refused as told, and what is to be written in its place isn't refused."""
    told = codes_of(row[1])[0]
    for text in codes_of(row[0]):
        answer, _ = answer_for(text, folder, env)
        if answer not in (told, f"row.spectra:{told}"):
            raise Differs(f"{text}: told {told!r}, written {answer!r}")
    for text in codes_of(row[2]):
        said_row(text, folder, env)


def fault_row(row, folder, env):
    """The example of a fault, behind `spec X`, has that fault at the place that is named."""
    place = re.fullmatch(r"(?:`[^`]+`|<code>.*</code>): (\d+:\d+)", row[3])
    if place:
        wanted = f"row.spectra:{place.group(1)}: fault {codes_of(row[0])[0]}"
        answer, _ = answer_for(codes_of(row[3])[0], folder, env, "spec X\n")
        if answer != wanted:
            raise Differs(f"wanted {wanted!r}, written {answer!r}")


def said_row(text, folder, env):
    answer, status = answer_for(text, folder, env)
    if status not in (0, 1):
        raise Differs(f"{text}: {answer}")


def checked_rows(document, folder, env):
    """Each row that is to be tried, with how."""
    for head, *rows in tables_of(document):
        if head[:2] == ["Written", "Told"]:
            yield from ((row[0], lambda row=row: refused_row(row, folder, env)) for row in rows)
        elif head[0] == "Fault" and head[-1] == "Example":
            yield from ((row[0], lambda row=row: fault_row(row, folder, env)) for row in rows)
        elif head[:2] == ["To say", "Write"]:
            texts = {row[0]: codes_of(row[1])[0] for row in rows if row[1]}
            yield from ((say, lambda text=text: said_row(text, folder, env)) for say, text in texts.items())
            yield from plays_of(texts, folder, env)


# ---- plays


def log_of(text, play):
    """The lines of a play, with a value for each variable that a text declares."""
    given, columns = dict(item.split("=") for item in play.split()), []
    length = max(len(row.split(",") if "," in row else row) for row in given.values())
    for kind, name in re.findall(r"(?:env|sys|monitor) (boolean|Int\(.*?\)|\{.*?\}) (\w+)", text):
        first = {"b": "0", "I": "0"}.get(kind[0]) or kind.strip("{}").split(",")[0]
        row = given.pop(name, None)
        values = [first] * length if row is None else row.split(",") if "," in row else list(row)
        if kind == "boolean":
            values = [("false", "true")[int(value)] for value in values]
        columns.append([f"{name}={value}" for value in values])
    if given or {len(column) for column in columns} != {length}:
        raise Differs(f"{play}: rows of several lengths, or of no variable")
    return "".join(" ".join(items) + "\n" for items in zip(*columns)), length


def played(text, how, play, folder, env):
    """Audits a play that keeps the lines of a text, or breaks one where it says."""
    play, _, at = play.partition(" @")
    log, length = log_of((folder / "head.spectra").read_text() + text, play)
    said_row(text, folder, env)
    done = subprocess.run(["spectra", "audit", "row.spectra"], cwd=folder, env=env, input=log, capture_output=True, text=True, timeout=SECONDS)
    wanted = rf"audit ok {length}" if how == "kept" else rf"audit broken #\d+ line {at}"
    if not re.fullmatch(wanted, done.stdout.strip()):
        raise Differs(f"{text}: {play}: wanted {wanted!r}, written {done.stdout.strip()!r}")


def plays_of(texts, folder, env):
    """Each play of plays.txt, of a row that is there."""
    say = None
    for row in (TOP / "docs/plays.txt").read_text().split("\n\n", 1)[1].splitlines():
        if not row.startswith("  "):
            say = row
            continue
        how, play = row.split(maxsplit=1)
        yield f"{say}: {play}", lambda text=texts[say], how=how, play=play: played(text, how, play, folder, env)


# ---- documents


def blocks_of(file, document):
    """The kind, the name and the text of each block."""
    if file.suffix == ".md":
        return BLOCK.findall(document)
    return [("text", name, block.replace("\\-", "-")) for name, block in ROFF.findall(document)]


def tried(file, program):
    """How many talks and rows of a document are as shown, and the others."""
    document, good, bad = file.read_text(), 0, []
    with tempfile.TemporaryDirectory() as made:
        folder = Path(made)
        env = prepared(folder, program)
        tries = []
        for kind, name, block in blocks_of(file, document):
            if name:
                tries.append((None, lambda name=name, block=block: (folder / name).write_text(block)))
            elif kind == "text":
                tries += [(command, lambda c=command, r=rows: talk(c, r, folder, env)) for command, rows in talks_of(block)]
        for what, call in [*tries, *checked_rows(document, folder, env)]:
            try:
                call()
                good += what is not None
            except Differs as difference:
                bad.append(f"{file.relative_to(TOP)}: {what}: {difference}")
    return good, bad


def shown():
    """All documents that may show answers."""
    return [*sorted(TOP.glob("*.md")), *sorted(TOP.glob("*/*.md")), TOP / "docs/spectra.1"]


def late(*_):
    raise TimeoutError(f"nothing is written for {SECONDS} s")


def main():
    program = shutil.which(sys.argv[1] if len(sys.argv) > 1 else BUILT)
    if program is None and len(sys.argv) > 1:
        print(f"documents: there is no program {sys.argv[1]}")
        return 1
    if program is None:
        print(f"documents: skipped, since there is no program at {BUILT.relative_to(TOP)}")
        return 0
    signal.signal(signal.SIGALRM, late)
    files = [Path(name).resolve() for name in sys.argv[2:]] or shown()
    good, bad = 0, []
    for file in files:
        some, others = tried(file, Path(program).resolve())
        good, bad = good + some, bad + others
    for one in bad:
        print(one)
    print(f"documents: {good} answers as shown, {len(bad)} not")
    return 1 if bad else 0


if __name__ == "__main__":
    sys.exit(main())
