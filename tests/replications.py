#!/usr/bin/env python3
"""Says a second time, in plain whole numbers, how replications go: tests/replications.py FILE

It has the chain of each model written out by hand, and the streams and draws of draws.py. The rows of runs in FILE, which
`replication_tests` expects, have to be those that come out here. Without FILE it prints the rows. The status is 1 where a row differs.
"""
import collections.abc
import itertools
import math
import re
import sys
from fractions import Fraction
from typing import NamedTuple

import draws

LATEST = 2**63

# Each model, with its chain: for each state its transitions in derivation order, as a rate and the state after it, and a set of signals
# where it sends some. A stop's name in place of the list is that of the state's verdict.
ONE = "P = (a,1).P; P"
STUCK = "S = (z,1).S; Q = (y,1).Q; S <z,y> Q"
PASSIVE = "P = (a,infty).P; P"
THREE = "P = (a,5).Q + (b,1/3).R; Q = (c,2).P + (d,1/7).R; R = (e,3/2).R + (f,1/5).P; P"
ENDING = "P = (a,3).P + (b,1/9).Q; Q = (z,1).Q; Y = (y,1).Y; P <y,z> Y"
SERVED = "P = (a,2).Q; Q = (b,3).P; S = (a,infty).U; U = (c,1).S; P <a> S"
BESIDE = "P = (a,2).Q; Q = (b,3).P; P || P"
LEFT_OVER = "P = (a,1).Q + (b,2).P; Q = (z,infty).Q; P"


def served():
    """A user and a server: both move together by `a`, each by itself else."""
    return {
        "PS": [(Fraction(2), "QU")],
        "QU": [(Fraction(3), "PU"), (Fraction(1), "QS")],
        "PU": [(Fraction(1), "PS")],
        "QS": [(Fraction(3), "PS")],
    }


def beside():
    """Two components side by side: the first one's transitions, and then the second one's."""
    after = {"P": (Fraction(2), "Q"), "Q": (Fraction(3), "P")}
    chain = {}
    for x in "PQ":
        for y in "PQ":
            chain[x + y] = [(after[x][0], after[x][1] + y), (after[y][0], x + after[y][1])]
    return chain


CHAINS = {
    ONE: {"P": [(Fraction(1), "P")]},
    STUCK: {"SQ": []},
    PASSIVE: {"P": "PassiveLeft"},
    THREE: {
        "P": [(Fraction(5), "Q"), (Fraction(1, 3), "R")],
        "Q": [(Fraction(2), "P"), (Fraction(1, 7), "R")],
        "R": [(Fraction(3, 2), "R"), (Fraction(1, 5), "P")],
    },
    ENDING: {"PY": [(Fraction(3), "PY"), (Fraction(1, 9), "QY")], "QY": []},
    SERVED: served(),
    BESIDE: beside(),
    LEFT_OVER: {"P": [(Fraction(1), "Q"), (Fraction(2), "P")], "Q": "PassiveLeft"},
}

# A model of slow rates, by the denominator of its least one: the time goes out of range after some jumps.
SLOW = "r = 1/{0}; P = (a,3*r).Q + (b,4*r).P; Q = (c,5*r).P + (d,2*r).Q + (e,r).P; P"

# The seeds, the numbers and the jumps of the slow models.
SLOW_RUNS = [(1, 1, 1), (1, 2, 4), (1, 3, 10), (2**64 - 1, 1, 25), (7, 999_983, 60)]

RUNS = [
    (ONE, 1, 1, 1),
    (STUCK, 1, 1, 100_000),
    (PASSIVE, 1, 1, 100_000),
    (ONE, 1, 2, 300),
    (THREE, 1, 1, 1),
    (THREE, 1, 1, 2),
    (THREE, 1, 1, 3),
    (THREE, 1, 2, 50),
    (THREE, 3, 77, 1000),
    (ENDING, 1, 1, 100_000),
    (ENDING, 1, 2, 100_000),
    (ENDING, 5, 1_000_000, 100_000),
    (ENDING, 1, 3, 2),
    (SERVED, 1, 1, 200),
    (SERVED, 11, 4, 500),
    (BESIDE, 1, 1, 200),
    (BESIDE, 2**63, 12, 500),
    (LEFT_OVER, 1, 1, 100_000),
    (LEFT_OVER, 1, 2, 100_000),
    (LEFT_OVER, 9, 5, 100_000),
]


def slow_chain(den):
    """The chain of the slow model over a denominator."""
    return {
        "P": [(Fraction(3, den), "Q"), (Fraction(4, den), "P")],
        "Q": [(Fraction(5, den), "P"), (Fraction(2, den), "Q"), (Fraction(1, den), "P")],
    }


def chain_of(text):
    """The chain of a model's text."""
    if text in CHAINS:
        return CHAINS[text]
    den = int(re.search(r"1/(\d+)", text).group(1))
    if text != SLOW.format(den):
        sys.exit(f"replications.py: no chain for {text}")
    return slow_chain(den)


class Some(collections.abc.Sequence):
    """So many numbers of a stream from a place on, each of which is made when it is looked at."""

    def __init__(self, seed, stream, place, count):
        self.seed, self.stream, self.place, self.count = seed, stream, place, count

    def __len__(self):
        return self.count

    def __getitem__(self, k):
        if k >= self.count:
            raise IndexError(k)
        return draws.number(self.seed, self.stream, self.place + k)


def weighed(rates):
    """Returns the rates as weights, which are whole numbers over their least common denominator, and that denominator."""
    den = math.lcm(*(rate.denominator for rate in rates))
    return [int(rate * den) for rate in rates], den


def chosen(weights, choice):
    """Returns the first index whose weight, with those before it, is above the choice."""
    return next(i for i, most in enumerate(itertools.accumulate(weights)) if most > choice)


class Run(NamedTuple):
    """How a replication ends or stops, how many numbers it takes, how many jumps, its time, and the lengths of its passages."""

    ending: str
    place: int
    taken: int
    time: int
    lengths: list


def replicate(chain, seed, stream, jumps, passages=1):
    """Returns a replication. No stream comes near the limits of a draw, so that stop is left out."""
    state, began = next(iter(chain)), None
    time = place = taken = 0
    lengths = []
    while True:
        if len(lengths) >= passages:
            return Run("Done", place, taken, time, lengths)
        if taken >= jumps:
            return Run("JumpLimit", place, taken, time, lengths)
        moves = chain[state]
        if not moves or isinstance(moves, str):
            return Run(moves or "Deadlock", place, taken, time, lengths)
        weights, den = weighed([move[0] for move in moves])
        draw, used = draws.exponential(Some(seed, stream, place, 256))
        place += used
        if time + draw * den // sum(weights) >= LATEST:
            return Run("TimeOverflow", place, taken, time, lengths)
        time += draw * den // sum(weights)
        choice, used = draws.below(Some(seed, stream, place, 64), sum(weights))
        place += used
        _, state, *sent = moves[chosen(weights, choice)]
        taken += 1
        signals = sent[0] if sent else ()
        if "stop" in signals and began is not None:
            lengths.append(time - began)
            began = None
        if "start" in signals and began is None:
            began = time


def last_denominator(seed, stream, jumps):
    """Returns the greatest odd denominator, no multiple of 3 or 5, with which so many jumps end in time."""
    low, high = 1, 2**41
    while low + 1 < high:
        middle = (low + high) // 2
        if replicate(slow_chain(middle), seed, stream, jumps).ending == "JumpLimit":
            low = middle
        else:
            high = middle
    while math.gcd(low, 30) != 1:
        low -= 1
    return low


def next_denominator(den):
    """Returns the next odd denominator that is no multiple of 3 or 5."""
    den += 1
    while math.gcd(den, 30) != 1:
        den += 1
    return den


def runs():
    """Returns the runs: a text, a seed, a number and the most jumps."""
    yield from RUNS
    for seed, number, jumps in SLOW_RUNS:
        den = last_denominator(seed, number, jumps)
        for each in (den, next_denominator(den)):
            yield SLOW.format(each), seed, number, jumps


def rows():
    """Returns all rows: a run, how it ends, how many numbers it takes, and how many jumps."""
    for text, seed, number, jumps in runs():
        run = replicate(chain_of(text), seed, number, jumps)
        yield [text, seed, number, jumps, run.ending, run.place, run.taken]


ROW = r'\(\s*"([^"]*)",\s*(\d[\d_]*),\s*(\d[\d_]*),\s*(\d[\d_]*),\s*\w+\(\w+::(\w+)\),\s*(\d[\d_]*),\s*(\d[\d_]*),?\s*\)'


def main():
    if not draws.vectors_hold():
        sys.exit("replications.py: a published vector doesn't come out")
    wanted = list(rows())
    if len(sys.argv) < 2:
        for text, seed, number, jumps, ending, place, taken in wanted:
            kind = "Ended(Ending" if ending in ("JumpLimit", "Deadlock") else "Stopped(Stop"
            print(f'    ("{text}", {seed:_}, {number:_}, {jumps:_}, {kind}::{ending}), {place:_}, {taken:_}),')
        return
    with open(sys.argv[1]) as file:
        lines = re.findall(ROW, file.read())
    found = [
        [words[4] if i == 4 else words[0] if i == 0 else int(words[i].replace("_", "")) for i in range(7)] for words in lines
    ]
    if found != wanted:
        sys.exit(f"replications.py: the rows are {found} in place of {wanted}")
    print(f"rows as wanted: {len(found)}")


if __name__ == "__main__":
    main()
