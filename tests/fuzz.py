"""Runs `check` and `print` on models with random faults: fuzz.py PROGRAM MODEL..

Each model's bytes and pieces are changed at random, from fixed seeds, for a minute at most. Wanted is: a status of 0 or 3, at 3
one line `model L:C name` on standard error, at 0 an answer; and the printed text has the same counts and is printed as the same
bytes again. The first answer that isn't as wanted is printed with its text, and ends with a status of 1.
"""
import random
import re
import subprocess
import sys
import time

SECONDS = 60
ROUNDS = 4000
FAULT = re.compile(rb"model ([1-9][0-9]*):([1-9][0-9]*) [a-z][a-z ]*\n")
COUNTS = re.compile(rb"ok constants [0-9]+ actions [0-9]+ probes 0 leaves [0-9]+\n")
PIECE = re.compile(rb"//[^\n]*|/\*.*?\*/|[A-Za-z][A-Za-z0-9_]*|[0-9]+(?:\.[0-9]+)?|<=|>=|==|!=|&&|\|\||::|\s+|.", re.DOTALL)
NEW_PIECES = [b"(", b")", b"+", b"-", b"*", b"/", b"{", b"}", b"<", b">", b"||", b"<>", b",", b".", b";", b"=", b"[", b"]",
              b"infty", b"T", b"tau", b"probe", b"P", b"a", b"0", b"1", b"3/2", b"99999999999999", b"/*", b"*/", b"//", b"\n"]


class Unwanted(Exception):
    """An answer that isn't as wanted."""


def run(program: str, word: str, text: bytes) -> "subprocess.CompletedProcess[bytes]":
    return subprocess.run([program, word], input=text, capture_output=True, timeout=SECONDS, check=False)


def answer(program: str, word: str, text: bytes) -> "bytes | None":
    """What the program prints, or None where it refuses the text."""
    ended = run(program, word, text)
    if ended.returncode == 3:
        if ended.stdout or not FAULT.fullmatch(ended.stderr):
            raise Unwanted(f"{word} refuses by {ended.stderr!r}, with {ended.stdout!r} as its answer")
        return None
    if ended.returncode != 0 or ended.stderr or not ended.stdout:
        raise Unwanted(f"{word} ends with {ended.returncode}, {ended.stderr!r} and {ended.stdout!r}")
    return ended.stdout


def look_at(program: str, text: bytes) -> bool:
    """Whether the text has a model."""
    counts = answer(program, "check", text)
    printed = answer(program, "print", text)
    if (counts is None) != (printed is None):
        raise Unwanted("one of check and print refuses it, and the other doesn't")
    if counts is None or printed is None:
        return False
    if not COUNTS.fullmatch(counts):
        raise Unwanted(f"check prints {counts!r}")
    if answer(program, "print", printed) != printed:
        raise Unwanted(f"it is printed as {printed!r}, which isn't printed as itself")
    if answer(program, "check", printed) != counts:
        raise Unwanted(f"it is printed as {printed!r}, of which check says something else")
    return True


def changed_bytes(chance: random.Random, text: bytes) -> bytes:
    out = bytearray(text)
    for _ in range(chance.randint(1, 3)):
        at = chance.randrange(len(out) + 1)
        kind = chance.randrange(3)
        if kind == 0:
            out.insert(at, chance.randrange(256))
        elif kind == 1 and at < len(out):
            del out[at]
        elif at < len(out):
            out[at] = chance.randrange(256)
    return bytes(out)


def changed_pieces(chance: random.Random, text: bytes) -> bytes:
    pieces = PIECE.findall(text)
    for _ in range(chance.randint(1, 4)):
        at = chance.randrange(len(pieces) + 1)
        kind = chance.randrange(4)
        if kind == 0:
            pieces.insert(at, chance.choice(NEW_PIECES))
        elif kind == 1:
            pieces.insert(at, chance.choice(pieces or NEW_PIECES))
        elif kind == 2 and at < len(pieces):
            del pieces[at]
        elif at < len(pieces):
            pieces[at] = chance.choice(pieces)
    return b"".join(pieces)


def main(program: str, names: "list[str]") -> int:
    models = [open(name, "rb").read() for name in names]
    until = time.monotonic() + SECONDS
    looked, with_model = 0, 0
    for seed in range(ROUNDS):
        if time.monotonic() > until:
            break
        chance = random.Random(seed)
        text = chance.choice(models)
        text = changed_pieces(chance, text) if seed % 3 else changed_bytes(chance, text)
        try:
            with_model += look_at(program, text)
        except (Unwanted, subprocess.TimeoutExpired) as why:
            print(f"FAILED: seed {seed}: {why}\nthe text is {text!r}")
            return 1
        looked += 1
    print(f"texts as wanted: {looked}, of which {with_model} have a model")
    return 0 if looked and with_model else 1


if __name__ == "__main__":
    sys.exit(main(sys.argv[1], sys.argv[2:]))
