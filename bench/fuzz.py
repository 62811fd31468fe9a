#!/usr/bin/env python3
"""fuzz.py [--alone] PROGRAM [COUNT [SEED [SECONDS [KIND..]]]]: COUNT hostile plays of PROGRAM, made by chance (hostile.py), the same for
the same SEED; where kinds are named, those of them that are of one.

A play is random bytes or tokens, sentences of the grammar, meaningful texts (`meaning`), changed examples, something that stands very
often (`many`), words of the command line, or input lines. It is found where PROGRAM is ended by a signal or with a status above 14,
takes more than SECONDS of a processor (10, if none are given) or six times as many by the clock, writes to the standard error, writes
what doesn't go with its status, fails where no device does, or differs from the plain program (reference/), where that one answers
within a second; and where the plain program fails. With --alone that one isn't asked, and there are some five times as many plays in
a minute. A found play is kept in a folder with its files, its input and `play.sh`, which plays it again.

fuzz.py --self-test: programs that are wrong in each of these ways are found each time, and one that is right isn't.
"""
import multiprocessing
import re
import resource
import shlex
import shutil
import subprocess
import sys
import tempfile
from collections import Counter, namedtuple
from pathlib import Path

sys.path.insert(0, str(Path(__file__).resolve().parent))

from beside import FAILS, USAGE, Plain  # noqa: E402
from hostile import MAIN, Play, Stock, play_of  # noqa: E402

SECONDS, CLOCK, PLAIN_SECONDS = 10, 6, 1
# Of all that is started from here, so that nothing takes the machine's memory.
MOST_MEMORY = 6 << 30
MOST_FOUND = 40
VERDICT = rb"(realizable K=\d+|unrealizable N=\d+ M=\d+)\n"
# What goes with a status, as a whole.
FORMS = {
    0: rb"(arbiter \d+\n)?" + VERDICT + rb"(.*\n)?|separated N=\d+ M=\d+\n|audit ok \d+\n|nodes \d+\n(no better order|order .+\nnodes \d+)\n",
    1: VERDICT + rb"|not separated K=\d+\n|audit broken #\d+ line \d+\n",
    2: re.escape(USAGE).encode() + rb"\n",
    3: rb".*:\d+:\d+: fault \d+ [A-Z][a-zA-Z0-9]+\n",
    4: VERDICT + rb"(.*\n)?assumption broken #\d+\n",
    5: rb"(arbiter \d+\n)?node budget \d+ reached\n",
    6: rb"(" + VERDICT + rb"(.*\n)?)?line \d+ refused\n",
    7: rb"file fault: .*\n",
    11: rb"no such file: .*\n",
    13: rb"table refused\n",
    14: rb"size limit reached\n",
}
NO_CAUSE = {8: "a fault of the input", 9: "a fault of the output", 10: "want of memory", 12: "too many positions"}

Ended = namedtuple("Ended", "status written errors seconds")


# ---- runs


def put(play, folder):
    """Makes a folder with the files of a play."""
    for name, text in play.files.items():
        file = folder / name
        file.parent.mkdir(parents=True, exist_ok=True)
        file.write_bytes(text)


def processor():
    """The seconds of a processor that ended runs took."""
    used = resource.getrusage(resource.RUSAGE_CHILDREN)
    return used.ru_utime + used.ru_stime


def run(program, play, seconds):
    """How the program ends on a play, and the seconds of a processor; without a status where it takes too long by the clock."""
    with tempfile.TemporaryDirectory(prefix="spectra-play-") as made:
        put(play, Path(made))
        before = processor()
        try:
            done = subprocess.run([program, *play.words], input=play.input, capture_output=True, cwd=made, timeout=CLOCK * seconds)
        except subprocess.TimeoutExpired:
            return Ended(None, b"", b"", processor() - before)
        return Ended(done.returncode, done.stdout, done.stderr, processor() - before)


def misbehaved(ended, most):
    """What is wrong with how a run ended, whatever it was asked; None where nothing is."""
    status, written, errors, seconds = ended
    if status is None:
        return f"no end within {CLOCK * most:g} s, {seconds:.1f} of them of a processor"
    if seconds > most:
        return f"took {seconds:.1f} s of a processor"
    if status < 0:
        return f"ended by signal {-status}"
    if status > 14:
        return f"status {status}"
    if errors:
        return f"on the standard error {errors[:200]!r}"
    if status in NO_CAUSE:
        return f"status {status}: {NO_CAUSE[status]}, without a cause"
    if not re.fullmatch(FORMS[status], written, re.S):
        return f"with status {status} wrote {written[-200:]!r}"
    return None


class Fuzzer:
    """Plays and what was found."""

    def __init__(self, program, seconds, folder, plain):
        self.program, self.seconds, self.folder, self.plain = program, seconds, folder, plain
        self.statuses, self.left_out = Counter(), Counter()
        self.found, self.played, self.compared, self.slowest = [], 0, 0, (0, None)

    def play(self, name, play):
        """Plays once; what is found is kept under the name."""
        ended = run(self.program, play, self.seconds)
        self.played += 1
        self.statuses[ended.status] += 1
        self.slowest = max(self.slowest, (ended.seconds, name), key=lambda slow: slow[0])
        why = misbehaved(ended, self.seconds) or self.differs(play, ended)
        if why:
            self.found.append((name, play.kind, why))
            keep(self.folder / name, name, play, why)
        return why

    def differs(self, play, ended):
        """Where the plain program writes something else, what; None where it doesn't, or where nothing is known."""
        want = self.plain.wanted(play) if self.plain else "the plain program isn't asked"
        if ended.status == 5 and b"--nodes" in b" ".join(word if isinstance(word, bytes) else word.encode() for word in play.words):
            want = "a small budget is reached"
        if isinstance(want, str):
            self.left_out[want] += 1
            return want if want == FAILS else None
        self.compared += 1
        if want == (ended.written, ended.status):
            return None
        return f"wrote {ended.written[-200:]!r}, status {ended.status}; the plain program {want[0][-200:]!r}, status {want[1]}"

    def say(self):
        for name, kind, why in self.found:
            print(f"{name} ({kind}): {why}")
        print(f"{self.played:,} plays, {len(self.found)} found; {self.compared:,} compared with the plain program, {self.left_out.total():,} not")
        print("  statuses: " + ", ".join(f"{status} {n:,}" for status, n in sorted(self.statuses.items(), key=str)))
        print(f"  the longest took {self.slowest[0]:.2f} s of a processor: {self.slowest[1]}")
        for why, count in self.left_out.most_common():
            print(f"  {count:,}: {why}")


# ---- what is kept


def quoted(word):
    """A word as bash reads it, whatever its bytes are."""
    if isinstance(word, str):
        return shlex.quote(word)
    return "$'" + "".join(f"\\x{byte:02x}" for byte in word) + "'"


def keep(folder, name, play, why):
    """Keeps a play in a folder: its files, its input, and how it is played again."""
    put(play, folder / "files")
    (folder / "files").mkdir(parents=True, exist_ok=True)
    (folder / "input").write_bytes(play.input)
    words = " ".join(map(quoted, play.words))
    says = "\n".join(f"# {line}" for line in why.splitlines())
    (folder / "play.sh").write_text(
        f'{says}\n# {name}; bash play.sh [PROGRAM]\nprogram=$(realpath "$(command -v "${{1:-spectra}}")")\n'
        f'cd "$(dirname "${{BASH_SOURCE[0]}}")/files" && "$program" {words} <../input\necho "status $?"\n'
    )


def fuzz(plain, program, count, seed, seconds, kinds):
    folder = Path(tempfile.mkdtemp(prefix="spectra-fuzz-"))
    fuzzer, stock = Fuzzer(program, seconds, folder, plain), Stock()
    for number in range(1, count + 1):
        play = play_of(seed, number, stock)
        if kinds and play.kind not in kinds:
            continue
        if fuzzer.play(f"{seed}-{number}", play):
            print(f"{seed}-{number}: {fuzzer.found[-1][2]}", file=sys.stderr, flush=True)
        if len(fuzzer.found) == MOST_FOUND:
            break
        if number % 10_000 == 0:
            print(f"{number:,} plays, {len(fuzzer.found)} found", file=sys.stderr, flush=True)
    fuzzer.say()
    if not fuzzer.found:
        shutil.rmtree(folder)
        return 0
    print(f"What was found is in {folder}.")
    return 1


# ---- that it can find

GOOD = "printf 'realizable K=2\\ng=true\\ng=false\\n'"
# A program's one line, and what it is found by.
WRONG = [
    ("kill -SEGV $$", "ended by signal 11"),
    (f"{GOOD}; kill -ABRT $$", "ended by signal 6"),
    (f"{GOOD}; exit 134", "status 134"),
    (f"{GOOD}; exec sleep 9", "no end within 0.3 s"),
    (f"for ((k = 0; k < 100000; k++)); do :; done; {GOOD}", "took|no end"),
    (f"{GOOD}; echo overflow >&2", "on the standard error b'overflow"),
    (f"{GOOD}; exit 10", "status 10: want of memory"),
    (f"{GOOD}; exit 4", "with status 4 wrote"),
    ("printf 'realizable K=2\\ng=true\\ng=false'", "with status 0 wrote"),
    ("printf 'realizable K=3\\ng=true\\ng=false\\n'", "the plain program b'realizable K=2"),
    ("printf 'realizable K=2\\ng=true\\ng=true\\n'", "the plain program b'realizable K=2"),
    (f"[ $1 = --nodes ] && exit 0; {GOOD}", "with status 0 wrote b''"),
]


def self_test():
    """1 where a wrong program isn't found by what is wrong, a found play isn't played again, or a right one is found; else 0."""
    text = b"spec X\nenv boolean r;\nsys boolean g;\ngar alw r <-> g;\n"
    plays = [Play("run", ["run", MAIN], {MAIN: text}, b"r=true\nr=false\n"), Play("words", ["--nodes", "9999", "run", MAIN], {MAIN: text}, b"r=true\nr=false")]
    failed, plain = 0, Plain(60)
    with tempfile.TemporaryDirectory(prefix="spectra-fuzz-") as made:
        for number, (line, wants) in enumerate([(GOOD, None), *WRONG]):
            program = Path(made, f"program{number}")
            program.write_text(f"#!/bin/bash\n{line}\n")
            program.chmod(0o755)
            fuzzer = Fuzzer(str(program), 0.05 if "sleep" in line or "for" in line else 60, Path(made, f"found{number}"), plain)
            whys = [fuzzer.play(f"play{k}", play) for k, play in enumerate(plays)]
            good = [False, True] if line.startswith("[") else [wants is not None] * 2
            if [why is not None for why in whys] != good or any(why and not re.search(wants, why) for why in whys) or not replays(fuzzer):
                failed += 1
                print(f"fuzz: {line}: found by {whys}, and not by {wants}")
    plain.end()
    print(f"fuzz: {len(WRONG) + 1 - failed} programs judged as they should be, {failed} not")
    return 1 if failed else 0


def replays(fuzzer):
    """Whether each found play that ends is played again as it was."""
    for name, _, why in fuzzer.found:
        if not why.startswith(("no end", "took")):
            done = subprocess.run(["bash", fuzzer.folder / name / "play.sh", fuzzer.program], capture_output=True, text=True)
            ended = re.search(r"signal (\d+)|status (\d+)", why)
            status = ended and (128 + int(ended[1]) if ended[1] else int(ended[2]))
            if not done.stdout.endswith("\n" if status is None else f"status {status}\n"):
                return False
    return True


def main():
    words = sys.argv[1:]
    if words == ["--self-test"]:
        return self_test()
    alone = words[:1] == ["--alone"]
    program, *words = words[alone:] or sys.exit("usage: fuzz.py [--alone] PROGRAM [COUNT [SEED [SECONDS [KIND..]]]], or fuzz.py --self-test")
    count, seed, seconds = (int(word) for word in words[:3] + ["1000", "1", str(SECONDS)][len(words[:3]) :])
    resource.setrlimit(resource.RLIMIT_AS, (MOST_MEMORY, resource.getrlimit(resource.RLIMIT_AS)[1]))
    plain = None if alone else Plain(PLAIN_SECONDS)
    try:
        return fuzz(plain, str(Path(program).resolve()), count, seed, seconds, words[3:])
    finally:
        if plain:
            plain.end()


if __name__ == "__main__":
    multiprocessing.set_start_method("fork")
    sys.exit(main())
