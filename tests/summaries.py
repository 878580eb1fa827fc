#!/usr/bin/env python3
"""Says a second time, in plain whole numbers, what a summary of replications is: tests/summaries.py FILE

It follows the rules in docs/DEFINITIONS.md and runs nothing else: the rows of the table in FILE, with which the tests of
`sim_histograms` compare, have to be those that come out here. Without FILE it prints them. The status is 1 where a row differs.
"""
import re
import sys

UNIT = 2**32

# How many replications and passages are ordered, the width of a bin and how many there are; and the replications.
TABLES = [
    ((1, 1, 1, 3), []),
    ((2, 3, 1, 1), [([], "Deadlock"), ([], "JumpLimit")]),
    ((1, 1, 1, 2), [([UNIT - 1], "Done")]),
    # Edges of bins, each with the length below it.
    ((2, 4, 2, 3), [([6 * UNIT, 2 * UNIT, 2 * UNIT - 1, 0], "Done"), ([6 * UNIT - 1, 4 * UNIT, 4 * UNIT - 1, 7 * UNIT], "Done")]),
    # The mean of all passages, and not of the replications' means.
    ((4, 3, 1, 2), [([1, 2, 3], "Done"), ([], "Deadlock"), ([UNIT], "JumpLimit"), ([5, 8], "JumpLimit")]),
    # Sums above 64 bits, in the widest bins.
    ((3, 2, 1000000, 2), [([2**63 - 1, 2**63 - 1], "Done"), ([2**63 - 2, 2**63 - 1], "Done"), ([1], "Deadlock")]),
    # Ten passages: the ninth in ascending order is the quantile for 9/10, the tenth that for 99/100.
    ((5, 2, 3, 4), [([90, 10], "Done"), ([30, 20], "Done"), ([70, 100], "Done"), ([40, 50], "Done"), ([60, 80], "Done")]),
]


def quantile(ascending, part, whole):
    """Returns the item of the least rank, from 1, that is at least this part of the list's length."""
    return ascending[-(-part * len(ascending) // whole) - 1]


def times(lengths):
    """Returns the mean, the least, three quantiles and the greatest."""
    if not lengths:
        return ["NONE"] * 6
    ascending = sorted(lengths)
    quantiles = [quantile(ascending, part, whole) for part, whole in ((1, 2), (9, 10), (99, 100))]
    return [sum(lengths) // len(lengths), ascending[0], *quantiles, ascending[-1]]


def figures(order, replications):
    """Returns the figures of a summary, the bins between the times and the tail."""
    _, _, width, bins = order
    lengths = [length for passages, _ in replications for length in passages]
    ended = [sum(ending == name for _, ending in replications) for name in ("Done", "Deadlock", "JumpLimit")]
    edges = [number * width * UNIT for number in range(bins + 1)]
    counts = [sum(low <= length < high for length in lengths) for low, high in zip(edges, edges[1:])]
    tail = sum(edges[-1] <= length for length in lengths)
    return [len(replications), *ended, len(lengths), *times(lengths), *counts, tail]


def row(order, replications):
    """Returns a row as the table has it."""
    ran = ", ".join(f"(&[{', '.join(map(str, passages))}], {ending})" for passages, ending in replications)
    return f"(({', '.join(map(str, order))}), &[{ran}], &[{', '.join(map(str, figures(order, replications)))}]),"


def plain(text):
    """Returns a text without its layout."""
    return re.sub(r",([\])])", r"\1", re.sub(r"//.*|\s", "", text))


def main():
    rows = [row(order, replications) for order, replications in TABLES]
    if len(sys.argv) < 2:
        print("\n".join(rows))
        return 0
    with open(sys.argv[1]) as file:
        text = plain(file.read())
    table = text[text.index("ROWS:&[Row]=&[") :]
    table = table[: table.index("];")].split("=", 1)[1] + "]"
    if table == plain(f"&[{''.join(rows)}]"):
        return 0
    print("the rows differ:", *rows, sep="\n")
    return 1


if __name__ == "__main__":
    sys.exit(main())
