#!/usr/bin/env python3
"""Says a second time, in plain whole numbers, what a stream's numbers and the draws from them are: tests/draws.py FILE

It follows the rules in docs/DEFINITIONS.md with a ChaCha of its own, and runs nothing else: the numbers of the rows in FILE, which
the tests of `sim_draws` expect, have to be those that come out here. The ChaCha is first checked by published vectors at 20
rounds. Without FILE it prints the rows. The status is 1 where a vector or a row differs.
"""
import functools
import re
import sys

MASK = 2**32 - 1

SEEDS = [1, 0x0123456789ABCDEF]
STREAMS = [0, 1, 2, 10**6]

# A row has the first four numbers of a stream, and these after them.
LATER = [7, 8, 31, 32, 1000]

# A row has so many exponential draws, and as many draws below this bound.
PAIRS = 3
BOUND = 1000

# RFC 8439, 2.1.1: four words and what the quarter round makes of them.
QUARTER = [
    0x11111111, 0x01020304, 0x9b8d6f43, 0x01234567,
    0xea2a92f4, 0xcb1cf8ce, 0x4581472e, 0x5881c4bb,
]

# RFC 8439, 2.3.2: the key, and the last word of its block. The counter and the first word of the nonce are the two halves of
# our counter.
BLOCK_KEY = [
    0x03020100, 0x07060504, 0x0b0a0908, 0x0f0e0d0c,
    0x13121110, 0x17161514, 0x1b1a1918, 0x1f1e1d1c,
]
BLOCK_LAST = 0x4e3c50a2

# RFC 8439, A.1, test vectors 1 and 2: blocks 0 and 1 under the zero key.
ZERO_KEY = [
    0xade0b876, 0x903df1a0, 0xe56a5d40, 0x28bd8653, 0xb819d2bd, 0x1aed8da0, 0xccef36a8, 0xc70d778b,
    0x7c5941da, 0x8d485751, 0x3fe02477, 0x374ad8b8, 0xf4b8436a, 0x1ca11815, 0x69b687c3, 0x8665eeb2,
    0xbee7079f, 0x7a385155, 0x7c97ba98, 0x0d082d73, 0xa0290fcb, 0x6965e348, 0x3e53c612, 0xed7aee32,
    0x7621b729, 0x434ee69c, 0xb03371d5, 0xd539d874, 0x281fed31, 0x45fb0a51, 0x1f0ae1ac, 0x6f4d794b,
]

# The first words under the zero key at 12 rounds, as the Rust crate rand_chacha gives them.
ZERO_KEY_12 = [0x6a9af49b, 0x53f95507]


def rotated(x, k):
    """Returns a word with its bits moved up by k, those at the top coming in below."""
    return (x << k | x >> (32 - k)) & MASK


def quarter_round(x, a, b, c, d):
    """Mixes four words of a state."""
    x[a] = (x[a] + x[b]) & MASK
    x[d] = rotated(x[d] ^ x[a], 16)
    x[c] = (x[c] + x[d]) & MASK
    x[b] = rotated(x[b] ^ x[c], 12)
    x[a] = (x[a] + x[b]) & MASK
    x[d] = rotated(x[d] ^ x[a], 8)
    x[c] = (x[c] + x[d]) & MASK
    x[b] = rotated(x[b] ^ x[c], 7)


def block(rounds, key, counter, nonce):
    """Returns the 16 words of a block, by RFC 8439, 2.3, with a counter and a nonce of 64 bits each."""
    text = b"expand 32-byte k"
    start = [int.from_bytes(text[i : i + 4], "little") for i in range(0, 16, 4)]
    start += key
    start += [counter & MASK, counter >> 32, nonce & MASK, nonce >> 32]
    x = list(start)
    for _ in range(rounds // 2):
        for column in range(4):
            quarter_round(x, column, 4 + column, 8 + column, 12 + column)
        for column in range(4):
            quarter_round(x, column, 4 + (column + 1) % 4, 8 + (column + 2) % 4, 12 + (column + 3) % 4)
    return [(a + b) & MASK for a, b in zip(x, start)]


def vectors_hold():
    """Whether the published vectors come out."""
    four = list(QUARTER[:4])
    quarter_round(four, 0, 1, 2, 3)
    zero = [0] * 8
    return (
        four == QUARTER[4:]
        and block(20, BLOCK_KEY, 1 + 0x09000000 * 2**32, 0x4A000000)[15] == BLOCK_LAST
        and block(20, zero, 0, 0) + block(20, zero, 1, 0) == ZERO_KEY
        and block(12, zero, 0, 0)[:2] == ZERO_KEY_12
    )


def key_of(seed):
    """Returns the key of a seed: its 8 bytes, the least one first, and 24 zero bytes, as words."""
    octets = seed.to_bytes(8, "little") + bytes(24)
    return [int.from_bytes(octets[i : i + 4], "little") for i in range(0, 32, 4)]


@functools.lru_cache(maxsize=256)
def block_of(seed, stream, counter):
    """Returns a block of a stream."""
    return block(12, key_of(seed), counter, stream)


def word(seed, stream, place):
    """Returns the word at a place of a stream."""
    return block_of(seed, stream, place // 16)[place % 16]


def number(seed, stream, k):
    """Returns number k of a stream."""
    return word(seed, stream, 2 * k) + 2**32 * word(seed, stream, 2 * k + 1)


def exponential(numbers):
    """Returns the exponential draw of a list of numbers and how many it uses; None where they don't decide it."""
    rounds = 0
    begin = 0
    while True:
        end = begin + 1
        while end < len(numbers) and numbers[end] < numbers[end - 1]:
            end += 1
        if end >= len(numbers):
            return None
        if (end - begin) % 2 == 1:
            return rounds * 2**32 + numbers[begin] // 2**32, end + 1
        rounds += 1
        begin = end + 1


def below(numbers, bound):
    """Returns the draw below the bound of a list of numbers and how many it uses; None where they don't decide it."""
    limit = 2**64 // bound * bound
    for index, each in enumerate(numbers):
        if each < limit:
            return each % bound, index + 1
    return None


def draws(seed, stream):
    """Returns the first draws of a stream by turns, an exponential one and one below the bound, and how many numbers they use."""
    place = 0
    found = []
    for _ in range(PAIRS):
        draw, used = exponential([number(seed, stream, place + k) for k in range(256)])
        found.append(draw)
        place += used
        draw, used = below([number(seed, stream, place + k) for k in range(64)], BOUND)
        found.append(draw)
        place += used
    return found + [place]


def rows():
    """Returns all rows of numbers, each after its seed and its stream."""
    for seed in SEEDS:
        for stream in STREAMS:
            yield [seed, stream] + [number(seed, stream, k) for k in [0, 1, 2, 3] + LATER]
    for seed in SEEDS:
        for stream in STREAMS:
            yield [seed, stream] + draws(seed, stream)


def main():
    if not vectors_hold():
        sys.exit("draws.py: a published vector doesn't come out")
    wanted = list(rows())
    if len(sys.argv) < 2:
        for row in wanted:
            print(*row)
        return
    with open(sys.argv[1]) as file:
        lines = re.findall(r"\(\s*\d[\d_]*,\s*\d[\d_]*,\s*\[[^]]*\],?[^)]*\)", file.read())
    found = [[int(digits.replace("_", "")) for digits in re.findall(r"\d[\d_]*", line)] for line in lines]
    if found != wanted:
        sys.exit(f"draws.py: the rows are {found} in place of {wanted}")
    print(f"rows as wanted: {len(found)}")


if __name__ == "__main__":
    main()
