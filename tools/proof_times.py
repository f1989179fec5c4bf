#!/usr/bin/env python3
"""How long the proof of each function of a crate takes.

usage: (cd crates/NAME; rm -rf out; rt check --jobs 1) 2>&1 | tools/proof_times.py [N]

It reads what the check says as it goes, and prints the N functions, 12 without N, before whose line most seconds went by, slowest
first. So the check has to begin from nothing, and with one job: with two, a line may wait for another function. What the first
function takes has the reading of the libraries in it."""

import re
import sys
import time


def main():
    shown = int(sys.argv[1]) if len(sys.argv) > 1 else 12
    begun = last = time.monotonic()
    times = []
    for line in sys.stdin:
        now = time.monotonic()
        found = re.match(r"checked (\S+), \d+ of \d+", line)
        if found:
            times.append((now - last, found[1]))
            last = now
        elif re.match(r"so far: 0 of", line):
            last = now
    for seconds, name in sorted(times, reverse=True)[:shown]:
        print(f"{seconds:8.1f} s  {name}")
    print(f"{last - begun:8.1f} s  in all, {len(times)} functions")


if __name__ == "__main__":
    main()
