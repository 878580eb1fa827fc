#!/usr/bin/env python3
"""Says a second time what orders of replications come to: tests/outcomes.py FILE

It has the chain of each model written out by hand, and the replications of replications.py, by the streams of the seed 1. The rows in
FILE, which `workers_tests` expects, have to be those that come out here. Without FILE it prints the rows. The status is 1 where a row differs.
"""
import re
import sys
from fractions import Fraction

import draws
import replications

SEED = 1

# Each model, with its chain, as in replications.py.
STUCK_LATER = "P = (a,1).Stop; Stop = (z,1).Stop; Q = (y,1).Q; P <y,z> Q"
TWO_ENDS = "P = (a,1).Q + (b,20).R; Q = (c,infty).Q; R = (d,1).R; E = (e,1).E; P <d,e> E"

CHAINS = {
    STUCK_LATER: {"PQ": [(Fraction(1), "SQ")], "SQ": []},
    replications.PASSIVE: replications.CHAINS[replications.PASSIVE],
    replications.ONE: replications.CHAINS[replications.ONE],
    TWO_ENDS: {"PE": [(Fraction(1), "QE"), (Fraction(20), "RE")], "QE": "PassiveLeft", "RE": []},
}

# A model, the replications and the jumps of an order. All replications of an order end in one way, or one of them stops.
ORDERS = [
    (STUCK_LATER, 10, 1_000_000),
    (replications.PASSIVE, 10, 1),
    (replications.ONE, 1, 1),
    (replications.ONE, 5, 3),
    (TWO_ENDS, 3, 100),
    (TWO_ENDS, 4, 100),
    (TWO_ENDS, 40, 100),
    (TWO_ENDS, 40, 1),
]

ENDINGS = ("JumpLimit", "Deadlock")


def outcome(chain, runs, jumps):
    """Returns how all replications end, as a row says it, or the first that stops."""
    endings = set()
    for number in range(1, runs + 1):
        ending = replications.replicate(chain, SEED, number, jumps)[0]
        if ending not in ENDINGS:
            return f"Stopped({number}, {ending})"
        endings.add(ending)
    if len(endings) != 1:
        sys.exit(f"outcomes.py: more than one ending: {endings}")
    return f"Finished({endings.pop()})"


ROW = r'\(\s*"([^"]*)",\s*(\d[\d_]*),\s*(\d[\d_]*),\s*(\w+\([^)]*\)),?\s*\)'


def main():
    if not draws.vectors_hold():
        sys.exit("outcomes.py: a published vector doesn't come out")
    wanted = [(text, runs, jumps, outcome(CHAINS[text], runs, jumps)) for text, runs, jumps in ORDERS]
    if len(sys.argv) < 2:
        for text, runs, jumps, row in wanted:
            print(f'    ("{text}", {runs}, {jumps:_}, {row}),')
        return
    with open(sys.argv[1]) as file:
        lines = re.findall(ROW, file.read())
    found = [(text, int(runs), int(jumps.replace("_", "")), row) for text, runs, jumps, row in lines]
    if found != wanted:
        sys.exit(f"outcomes.py: the rows are {found} in place of {wanted}")
    print(f"rows as wanted: {len(found)}")


if __name__ == "__main__":
    main()
