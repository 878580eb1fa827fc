"""Compares `steps` with Hillston's rules, written down a second time: rules.py PROGRAM MODEL..

The rules are written here as recursions over whole lists of Python's fractions, without numbers for names, without tables and without
the program's order of work. The models are those that are given and random ones, from fixed seeds, for half a minute at most. Of
each the normal form is taken, which `print` gives. The first answer that differs is printed with its text, and ends with a status
of 1.
"""
import math
import random
import re
import subprocess
import sys
import time
from fractions import Fraction

SECONDS = 30
ROUNDS = 1500
PIECE = re.compile(r"[A-Za-z][A-Za-z0-9_]*|[0-9]+|\|\||\S")
MOST = 65535


class Reader:
    """Reads a model in its normal form."""

    def __init__(self, text: str):
        self.pieces = PIECE.findall(text) + [""]
        self.at = 0
        self.lines = {}
        self.actions = []

    def take(self, piece: str = "") -> str:
        taken = self.pieces[self.at]
        assert not piece or taken == piece, (piece, self.pieces[self.at:])
        self.at += 1
        return taken

    def action(self) -> str:
        name = self.take()
        if name != "tau" and name not in self.actions:
            self.actions.append(name)
        return name

    def rate(self):
        if self.pieces[self.at] == "infty":
            self.take()
            return ("passive", Fraction(1))
        value = Fraction(int(self.take()))
        if self.pieces[self.at] == "/":
            self.take()
            value /= int(self.take())
        if self.pieces[self.at] == "*":
            self.take()
            self.take("infty")
            return ("passive", value)
        return ("active", value)

    def words(self, closing: str) -> frozenset:
        words = []
        while self.pieces[self.at] != closing:
            words.append(self.action())
            if self.pieces[self.at] == ",":
                self.take()
        self.take(closing)
        return frozenset(words)

    def system(self):
        left = self.choice()
        while self.pieces[self.at] in ("||", "<"):
            types = frozenset() if self.take() == "||" else self.words(">")
            left = ("coop", left, self.choice(), types)
        return left

    def choice(self):
        left = self.hidden()
        while self.pieces[self.at] == "+":
            self.take()
            left = ("choice", left, self.hidden())
        return left

    def hidden(self):
        inner = self.prefix()
        while self.pieces[self.at] == "/":
            self.take()
            self.take("{")
            inner = ("hide", inner, self.words("}"))
        return inner

    def prefix(self):
        if self.pieces[self.at] != "(":
            return ("const", self.take())
        self.take()
        if self.pieces[self.at + 1] != ",":
            inner = self.system()
            self.take(")")
            return inner
        action = self.action()
        self.take(",")
        rate = self.rate()
        self.take(")")
        self.take(".")
        return ("prefix", action, rate, self.prefix())

    def model(self):
        while self.pieces[self.at + 1] == "=":
            name = self.take()
            self.take("=")
            self.lines[name] = self.system()
            self.take(";")
        system = self.system()
        self.take("")
        return system


class Stopped(Exception):
    """The verdict names a fault."""


class Model:
    def __init__(self, text: str):
        reader = Reader(text)
        self.system = reader.model()
        self.lines, self.actions = reader.lines, reader.actions
        self.start = self.expanded(self.system)

    def is_compound(self, part) -> bool:
        if part[0] == "const":
            return self.is_compound(self.lines[part[1]]) if self.lines[part[1]][0] in ("coop", "hide", "const") else False
        return part[0] in ("coop", "hide")

    def expanded(self, part):
        if part[0] == "coop":
            return ("coop", self.expanded(part[1]), self.expanded(part[2]), part[3])
        if part[0] == "hide":
            return ("hide", self.expanded(part[1]), part[2])
        if part[0] == "const" and self.is_compound(part):
            return self.expanded(self.lines[part[1]])
        return part

    def parts(self, part):
        """In post-order."""
        if part[0] == "choice" or part[0] == "coop":
            yield from self.parts(part[1])
            yield from self.parts(part[2])
        elif part[0] == "hide":
            yield from self.parts(part[1])
        elif part[0] == "const":
            yield from self.parts(self.lines[part[1]])
        yield part

    def apparent(self, part, action):
        """None, a rate, or `mixed`."""
        if part[0] == "prefix":
            return part[2] if part[1] == action else None
        if part[0] == "const":
            return self.apparent(self.lines[part[1]], action)
        if part[0] == "hide":
            return None if action in part[2] else self.apparent(part[1], action)
        left, right = self.apparent(part[1], action), self.apparent(part[2], action)
        if part[0] == "coop" and action in part[3]:
            return None if left is None or right is None else "mixed" if "mixed" in (left, right) else min(left, right)
        if left is None or right is None:
            return right if left is None else left
        if "mixed" in (left, right) or left[0] != right[0]:
            return "mixed"
        return (left[0], left[1] + right[1])

    def moves(self, part):
        """The transitions in their order: action, rate, target, and signals, which no part here sends by itself."""
        if part[0] == "prefix":
            return [(part[1], part[2], part[3], frozenset())]
        if part[0] == "choice":
            return self.moves(part[1]) + self.moves(part[2])
        if part[0] == "const":
            return self.moves(self.lines[part[1]])
        if part[0] == "hide":
            return [("tau" if a in part[2] else a, r, ("hide", next, part[2]), sent) for a, r, next, sent in self.moves(part[1])]
        _, left, right, types = part
        ours, theirs = self.moves(left), self.moves(right)
        rates = {a: (self.apparent(left, a), self.apparent(right, a)) for a in types}
        together = []
        for a, r, p, sent in ours:
            ra, rb = rates.get(a, (None, None))
            if ra and rb:
                least = min(ra, rb)
                part = r[1] / ra[1] / rb[1] * least[1]
                together += [(a, (least[0], part * s[1]), ("coop", p, q, types), sent | too) for b, s, q, too in theirs if a == b]
        return ([(a, r, ("coop", p, right, types), sent) for a, r, p, sent in ours if a not in types]
                + [(b, s, ("coop", left, q, types), sent) for b, s, q, sent in theirs if b not in types] + together)

    def judged(self, part) -> None:
        for action in self.actions:
            rate = self.apparent(part, action)
            if rate == "mixed":
                raise Stopped("mixed")
            if rate is not None and out_of_range(rate):
                raise Stopped("overflow")
        moves = self.moves(part)
        if len(moves) > MOST:
            raise Stopped("list too long")
        if any(out_of_range(rate) for _, rate, *_ in moves):
            raise Stopped("overflow")

    def listed(self, state) -> list:
        """The transitions of a state, or the stop that its verdict names."""
        for part in self.parts(state):
            self.judged(part)
        moves = self.moves(state)
        if any(rate[0] == "passive" for _, rate, *_ in moves):
            raise Stopped("passive left")
        rates = [rate[1] for _, rate, *_ in moves]
        common = math.lcm(*(rate.denominator for rate in rates))
        if max(common, sum(rates) * common) >= 2**62:
            raise Stopped("weight overflow")
        return moves

    def steps(self) -> str:
        return "".join(f"{a} {rate_text(r)} {self.text(next)}\n" for a, r, next, _ in self.listed(self.start))

    def words(self, types) -> str:
        return ",".join(a for a in self.actions if a in types)

    def text(self, part) -> str:
        if part[0] == "const":
            return part[1]
        if part[0] == "prefix":
            return f"({part[1]}, {rate_text(part[2])}).{self.bracketed(part[3], 'choice')}"
        if part[0] == "choice":
            return f"{self.text(part[1])} + {self.bracketed(part[2], 'choice')}"
        if part[0] == "hide":
            return f"{self.bracketed(part[1], 'coop', 'prefix', 'choice')}/{{{self.words(part[2])}}}"
        sign = f"<{self.words(part[3])}>" if part[3] else "||"
        return f"{self.text(part[1])} {sign} {self.bracketed(part[2], 'coop')}"

    def bracketed(self, part, *kinds) -> str:
        return f"({self.text(part)})" if part[0] in kinds else self.text(part)


def out_of_range(rate) -> bool:
    return max(rate[1].numerator, rate[1].denominator) >= 2**42


def rate_text(rate) -> str:
    if rate[0] == "active":
        return str(rate[1])
    return "infty" if rate[1] == 1 else f"{rate[1]}*infty"


def random_model(chance: random.Random) -> str:
    """A model of a few constants over a few action types, whose rates are small, or now and then at the limit of their range."""
    names = [f"P{i}" for i in range(chance.randint(1, 4))]
    actions = ["a", "b", "c", "tau"]
    passive = chance.random() < 0.4

    def rate() -> str:
        if passive and chance.random() < 0.3:
            return chance.choice(["infty", "2*infty", "3*infty"])
        if chance.random() < 0.05:
            return chance.choice(["4398046511103", "1/4398046511101", "4398046511101/7"])
        return f"{chance.randint(1, 6)}/{chance.randint(1, 4)}"

    def component(depth: int) -> str:
        kind = chance.randrange(4)
        if depth == 0 or kind == 0:
            return f"({chance.choice(actions)}, {rate()}).{chance.choice(names)}"
        if kind == 1:
            return f"({chance.choice(actions)}, {rate()}).({component(depth - 1)})"
        return f"({component(depth - 1)}) + ({component(depth - 1)})"

    def types() -> str:
        return ",".join(chance.sample(actions[:3], chance.randint(0, 3)))

    def system(depth: int, constants) -> str:
        kind = chance.randrange(5)
        if depth == 0 or kind == 0:
            return chance.choice(constants) if chance.random() < 0.8 else f"({component(1)})"
        if kind == 1:
            return f"({system(depth - 1, constants)})/{{{types()}}}"
        return f"({system(depth - 1, constants)}) <{types()}> ({system(depth - 1, constants)})"

    lines = [f"{name} = {component(2)};" for name in names]
    lines += [f"Both = {system(2, names)};"] if chance.random() < 0.5 else []
    constants = names + (["Both"] if len(lines) > len(names) else [])
    return "\n".join(lines + [system(3, constants), ""])


def run(program: str, word: str, text: bytes):
    return subprocess.run([program, word], input=text, capture_output=True, timeout=SECONDS, check=False)


def looked_at(program: str, text: bytes) -> str:
    """Which answer the program and the rules both give; none where the text has no model."""
    printed = run(program, "print", text)
    if printed.returncode != 0:
        return ""
    ended = run(program, "steps", text)
    try:
        wanted = (0, Model(printed.stdout.decode()).steps().encode(), b"")
    except Stopped as why:
        wanted = (6, b"", f"stopped: {why}\n".encode())
    found = (ended.returncode, ended.stdout, ended.stderr)
    assert found == wanted, f"steps gives {found!r}, and the rules {wanted!r}"
    return wanted[2].decode().strip() or "listed"


def main(program: str, names) -> int:
    texts = [open(name, "rb").read() for name in names]
    until = time.monotonic() + SECONDS
    counts = {}
    for seed in range(ROUNDS):
        if time.monotonic() > until:
            break
        text = texts[seed] if seed < len(texts) else random_model(random.Random(seed)).encode()
        try:
            answer = looked_at(program, text)
        except AssertionError as why:
            print(f"FAILED: seed {seed}: {why}\nthe text is {text!r}")
            return 1
        counts[answer] = counts.get(answer, 0) + 1
    print("answers as the rules give them:", ", ".join(f"{n} {a or 'without a model'}" for a, n in sorted(counts.items())))
    wanted = ["listed", *(f"stopped: {name}" for name in ("mixed", "overflow", "passive left", "weight overflow"))]
    return 0 if all(counts.get(it) for it in wanted) else 1


if __name__ == "__main__":
    sys.exit(main(sys.argv[1], sys.argv[2:]))
