#!/usr/bin/env python3
"""table_times.py PROGRAM FOLDER: how long PROGRAM takes to export and to verify tables of 1,024 nodes, which are written to FOLDER.

Each command runs three times, and the least of its seconds of a processor counts. A table that isn't verified, or has another
number of nodes, is a failure.
"""
import json
import resource
import subprocess
import sys
from pathlib import Path

# name, text, what is written of its table
TABLES = [
    ("each of 512 inputs, with two goals", "env Int(0..511) x; sys boolean g; gar alwEv g; gar alwEv !g;", "verified K=5"),
    ("each of 1,024 inputs", "env Int(0..1023) x; sys boolean g; gar alw g <-> (x > 511);", "verified K=2"),
    ("five inputs, each kept by a past operator", "\n".join(f"env boolean a{i};" for i in range(5)) + "\n" + "\n".join(f"sys boolean g{i};\ngar alw g{i} <-> PREV a{i};" for i in range(5)), "verified K=2"),
    ("each of 1,024 replies is denied", "env boolean a; sys Int(0..1023) y; gar alwEv a;", "verified N=2 M=2"),
]
NODES = 1024


def seconds(command, given):
    """The least seconds of a processor of three runs, and what the last wrote."""
    least = None
    for _ in range(3):
        before = resource.getrusage(resource.RUSAGE_CHILDREN)
        run = subprocess.run(command, input=given, stdout=subprocess.PIPE, check=True)
        after = resource.getrusage(resource.RUSAGE_CHILDREN)
        took = after.ru_utime + after.ru_stime - before.ru_utime - before.ru_stime
        least = took if least is None else min(least, took)
    return least, run.stdout


def main():
    program, folder = sys.argv[1], Path(sys.argv[2])
    print("| Table | Nodes | Moves in all | Bytes | export, s | verify, s |\n|---|---|---|---|---|---|")
    for name, text, wanted in TABLES:
        file = folder / "t.spectra"
        file.write_text(f"spec Large\n{text}\n")
        exporting, table = seconds([program, "export", str(file)], b"")
        verifying, told = seconds([program, "verify", str(file)], table)
        nodes = json.loads(table)["nodes"]
        if told.decode() != wanted + "\n" or len(nodes) != NODES:
            sys.exit(f"{name}: {len(nodes)} nodes, {told.decode().strip()}")
        moves = sum(len(node["next"]) for node in nodes)
        print(f"| {name} | {len(nodes):,} | {moves:,} | {len(table):,} | {exporting:.2f} | {verifying:.2f} |")


main()
