#!/usr/bin/env python3
"""Proposes plans for both chairs of a dozen rule sheets and gives them to `reckon`.

    tools/propose.py [--rounds 200]

Needs crates/propose/out/propose and crates/reckon/out/reckon (`rt run -- --help` in the crate's folder makes them). A sheet fails where either
program ends with another status than 0, or where `reckon` does not take the two plans: it prints two worsts, or it says
which plan it turned away. The gap is what both best opponents together gain, in tokens a hand. The last line is
`N passed, M failed`.
"""

import argparse
import fractions
import pathlib
import struct
import subprocess
import sys
import tempfile
import time

CRATES = pathlib.Path(__file__).resolve().parent.parent / "crates"

# Rule sheets with an m that each of their deals and both chairs' counts of hands admit.
GAMES = [
    ((2, 1, 0, 1, 1, 1, 0, 0, 0), 2),
    ((2, 1, 0, 10, 10, 1, 3, 1, 0), 4),
    ((2, 2, 1, 1, 1, 1, 0, 0, 0), 12),
    ((3, 1, 0, 1, 1, 1, 0, 0, 0), 18),
    ((3, 1, 0, 1, 1, 1, 1, 1, 0), 30),
    ((3, 1, 1, 1, 1, 2, 0, 0, 0), 24),
    ((3, 2, 1, 1, 2, 4, 1, 0, 0), 60),
    ((3, 2, 1, 1, 2, 4, 1, 1, 0), 60),
    ((4, 1, 0, 2, 3, 1, 2, 0, 0), 24),
    ((4, 2, 1, 1, 2, 4, 0, 0, 0), 168),
    ((5, 2, 0, 1, 1, 1, 1, 1, 0), 90),
    ((13, 1, 0, 1, 1, 1, 1, 0, 0), 156),
]


def propose(chair, rounds, head):
    start = time.time()
    done = subprocess.run([CRATES / "propose/out/propose", chair, str(rounds)], input=head, capture_output=True, timeout=600)
    return done, time.time() - start


def trial(sheet, m, rounds):
    """Whether both plans are taken, and a line about them."""
    head = bytes(sheet) + struct.pack("<I", m)
    whole, seconds = head, 0.0
    for chair in ("house", "guest"):
        done, spent = propose(chair, rounds, head)
        if done.returncode != 0:
            return False, f"{chair}: status {done.returncode}, {done.stderr.decode().strip()}"
        whole, seconds = whole + done.stdout, seconds + spent
    with tempfile.NamedTemporaryFile() as file:
        file.write(whole)
        file.flush()
        done = subprocess.run([CRATES / "reckon/out/reckon", file.name], capture_output=True, timeout=600)
    lines = done.stdout.decode().splitlines()
    worsts = [line.split() for line in lines if line.startswith("worst ")]
    if done.returncode != 0 or len(worsts) != 2:
        return False, f"reckon: status {done.returncode}, {lines}"
    table = int(lines[0].split()[-1])
    gap = table - sum(fractions.Fraction(int(w[1]), int(w[3])) for w in worsts)
    if gap < 0:
        return False, f"the gap is {gap}"
    return True, f"gap {float(gap):.4f} {lines[-1]}, {seconds:.2f} s"


def main():
    parser = argparse.ArgumentParser(description=__doc__, formatter_class=argparse.RawDescriptionHelpFormatter)
    parser.add_argument("--rounds", type=int, default=200)
    rounds = parser.parse_args().rounds
    passed = 0
    for sheet, m in GAMES:
        taken, line = trial(sheet, m, rounds)
        passed += taken
        print(" ".join(map(str, sheet)), "m", m, line if taken else "FAILED " + line)
    print(f"{passed} passed, {len(GAMES) - passed} failed")
    return 0 if passed == len(GAMES) else 1


if __name__ == "__main__":
    sys.exit(main())
