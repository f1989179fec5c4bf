#!/usr/bin/env python3
"""Counts what `mixed report netlist` says of the decks of a folder, once deck_to_netlist.py has made netlists of them.

Usage: tools/tried_decks.py [--at-rest] FOLDER    (MIXED: the built program, or crates/mixed/out/mixed)

A deck is a file that ends with `.cir` or `.sp`, in the folder or below. For each that is not regular, refused or without devices a line
says so, with the note of deck_to_netlist.py on what it left out; the last lines have the counts, of all decks and of those of which
nothing was left out.
"""
import collections
import concurrent.futures
import os
import pathlib
import subprocess
import sys

TOP = pathlib.Path(__file__).resolve().parent.parent
PROGRAM = os.environ.get("MIXED", TOP / "crates/mixed/out/mixed")


def tried(deck, flags):
    """What is said of a deck, the first line that tells it, and the last note of deck_to_netlist.py."""
    made = subprocess.run([sys.executable, TOP / "tools/deck_to_netlist.py", *flags, deck], capture_output=True, check=True)
    notes = made.stderr.decode("latin-1").splitlines()
    if not made.stdout.strip():
        return "no devices", "", notes[-1]
    run = subprocess.run([PROGRAM, "report", "netlist"], input=made.stdout, capture_output=True)
    said = {0: "regular", 1: "not regular", 3: "refused"}.get(run.returncode, f"status {run.returncode}")
    return said, (run.stdout or run.stderr).decode("ascii").split("\n")[0], notes[-1]


def main():
    flags, folder = [it for it in sys.argv[1:] if it == "--at-rest"], pathlib.Path(sys.argv[-1])
    decks = sorted(it for it in folder.rglob("*") if it.suffix in (".cir", ".sp") and it.is_file())
    counts, whole = collections.Counter(), collections.Counter()
    with concurrent.futures.ThreadPoolExecutor() as pool:
        for deck, (said, line, note) in zip(decks, pool.map(lambda it: tried(it, flags), decks)):
            counts[said] += 1
            whole[said] += note.endswith(" 0 left out")
            if said != "regular":
                print(f"{deck.relative_to(folder)}: {said}; {line}; {note.partition(': ')[2]}")
    for name, found in (("all", counts), ("nothing left out", whole)):
        print(f"{name}: {sum(found.values())} decks, " + ", ".join(f"{found[it]} {it}" for it in sorted(found)))


main()
