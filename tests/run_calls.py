"""Random calls of `run` for runs.py: models that end, stop or go on, and options in any form and order."""
import random

from rules import random_model

# Where a walk can end: the lines of the constant `End`, and the system around the walk.
TRAPS = {
    "none": ("End = (back, 3).W0;", "{}"),
    "deadlock": ("End = (never, 1).End; Lock = (lock, 1).Lock;", "({}) <never, lock> Lock"),
    "passive left": ("End = (wait, infty).End;", "{}"),
    "mixed": ("End = (mend, infty).End; Mend = (mend, 1).Mend;", "({}) || Mend"),
    "overflow": ("End = (rush, 4398046511103).End + (rush, 1).End;", "{}"),
    "weight overflow": ("End = (slow, 1/4398046511103).End + (slower, 1/4398046511101).End;", "({}) || W0"),
    "time overflow": ("End = (slow, 1/4398046511103).End;", "({})/{{slow}}"),
}


def wide(count: int) -> bytes:
    """A model whose second state has 255 ways for each of so many, the half of which and one more are in a line of their own."""
    lines = {"End": ("End", 255), "Half": ("Many", 128), "Others": ("Many", count - 128)}
    texts = [f"{name} = {' + '.join([f'(many, 1).{after}'] * times)};" for name, (after, times) in lines.items()]
    return "\n".join([*texts, "Many = Half + Others; W = (go, 1).End; W <many> Many", ""]).encode()


def small_rate(chance: random.Random, den: int) -> str:
    return f"{chance.randint(1, 9)}/{den * chance.randint(1, 4)}"


def walk(chance: random.Random) -> str:
    """A component that walks over a few constants, and now and then comes to its end; alone, beside others or with a server."""
    den = chance.randint(10**7, 10**9) if chance.random() < 0.06 else 1
    kind = chance.choice([*TRAPS, "deadlock", "deadlock", "deadlock"])
    size = chance.randint(1, 4)
    names = [f"W{i}" for i in range(size)]
    lines = []
    for name in names:
        ways = [f"({chance.choice('abc')}, {small_rate(chance, den)}).{chance.choice(names)}" for _ in range(chance.randint(1, 3))]
        if chance.random() < 0.7:
            ways.insert(chance.randrange(len(ways) + 1), f"(fall, {small_rate(chance, den)}).End")
        lines.append(f"{name} = {' + '.join(ways)};")
    end, around = TRAPS[kind]
    lines += [end, "S = (a, infty).U + (b, 2*infty).S; U = (c, infty).S + (a, infty).U + (b, infty).S;"]
    walks = chance.choice(["W0", "W0", "W0 || W0", f"W0 || {names[-1]} || W0", "W0 <a,b,c> S", "(W0 || W0) <a,b,c> (S || U)", "(W0 || W0)/{a}"])
    return "\n".join([*lines, around.format(walks), ""])


def text_of(chance: random.Random) -> bytes:
    """The text of a model, or now and then one with a byte that is lost or has something else in its place."""
    if chance.random() < 0.35:
        return random_model(chance).encode()
    text = walk(chance)
    if chance.random() < 0.05:
        at = chance.randrange(len(text))
        text = text[:at] + chance.choice(["", "#", ";", ")", " + W9 ", "infty", " / {tau} ", "; probe {W0 > 1} a:start; "]) + text[at + 1:]
    return text.encode()


def number(chance: random.Random, value: int) -> str:
    return chance.choice([str(value)] * 8 + [f"+{value}", f"00{value}"])


def words_of(chance: random.Random) -> list:
    """The words of a call that takes some hundred jumps at most, and now and then some thousand."""
    most = chance.choice([30] * 14 + [200] * 5 + [1500])
    runs = chance.choice([1, 2, 3, 5, 10, most // 4, most])
    values = {"runs": runs, "jumps": chance.randint(1, 1 + most // runs)}
    seed = chance.choice([0, 1, 2**64 - 1, chance.randrange(2**64)])
    others = {"seed": seed, "passages": chance.choice([1, 2, 1000, 10_000_000 // runs if runs > 9 else 1_000_000]),
              "bin": chance.choice([1, 7, 1_000_000]), "bins": chance.choice([1, 2, 3, 40]), "workers": chance.randint(1, 4)}
    for name, value in others.items():
        if chance.random() < (0.8 if name == "seed" else 0.3):
            values[name] = value
    if chance.random() < 0.02:
        values[chance.choice(["runs", "bin", "bins", "jumps", "passages"])] = chance.choice([0, 1_000_000_001])
    if chance.random() < 0.01:
        values["made"] = chance.randint(1, 100)
    words = []
    for name in chance.sample(list(values), len(values)):
        value = number(chance, values[name])
        words += [f"--{name}={value}"] if chance.random() < 0.4 else [f"--{name}", value]
    return words + chance.choice([[]] * 200 + [["x"], ["--"], ["--seed"], ["--runs", "1"]])


# Calls that no random one is: all defaults, long replications, many bins.
FIXED = [
    ([], b"S = (z,1).S; Q = (y,1).Q; S <z,y> Q"),
    ([], b"P = (a,infty).P; P"),
    (["--runs", "1", "--jumps", "8000"], b"P = (a,5).Q + (b,1/3).R; Q = (c,2).P + (d,1/7).R; R = (e,3/2).R + (f,1/5).P; P"),
    (["--runs=2", "--jumps=2000", "--seed=5"], b"P = (a,2).Q; Q = (b,3).P; S = (a,infty).U; U = (c,1).S; (P || P || P) <a> (S || S)"),
    (["--runs=1000", "--bins=10000", "--bin", "1000000"], b"P = (a,3).P + (b,1).Q; Q = (z,1).Q; Y = (y,1).Y; P <y,z> Y"),
    (["--workers", "3"], b"P = (a, 1/4398046511103).P; P"),
]


def call(seed: int):
    """The words of a call after `run`, and its text."""
    if seed < len(FIXED):
        return FIXED[seed]
    chance = random.Random(seed)
    return words_of(chance), text_of(chance)
