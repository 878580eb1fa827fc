#!/usr/bin/env python3
"""Says a second time which command the words of a call give: tests/words.py FILE..

It has its own table of the options and reads words by hand, and runs nothing else. In each row
`WORDS => COMMAND` and each pair `("WORDS", "COMMAND")` of the files the command has to be what
comes out here; the words have a blank between each two. Without a file it prints the rows, for the
tests of `call_words`. The status is 1 where a row differs, or where the files have too few rows.
"""
import itertools
import re
import sys

# Each option of `run`: its name, the least number, the greatest, the number without it.
RUN = [
    ("seed", 0, 2**64 - 1, 1),
    ("runs", 1, 1_000_000, 1_000),
    ("passages", 1, 1_000_000, 1),
    ("jumps", 1, 1_000_000_000, 100_000),
    ("workers", 1, 64, 1),
    ("table", 8, 4_194_304, 262_144),
    ("entries", 8, 16_777_216, 1_048_576),
    ("bin", 1, 1_000_000, 1),
    ("bins", 1, 10_000, 20),
]
PROBE = ["number", "events"]

# The sizes of made models, for `gen` and for `run --made`.
SIZES = (1, 100)
USAGE = "usage"


def number(text, least, most):
    """The number of a text, or none: an optional `+`, and then decimal digits."""
    if re.fullmatch(r"\+?[0-9]+", text) is None:
        return None
    value = int(text)
    return value if least <= value <= most else None


def values(names, words):
    """The values that words give to these names, each at most once, or none where they don't."""
    found = {}
    words = list(words)
    while words:
        word = words.pop(0)
        if not word.startswith("--"):
            return None
        name, equals, value = word[2:].partition("=")
        if name not in names or name in found:
            return None
        if not equals:
            if not words or words[0].startswith("-"):
                return None
            value = words.pop(0)
        found[name] = value
    return found


def run(words):
    found = values([option[0] for option in RUN] + ["made"], words)
    if found is None:
        return USAGE
    order = [
        number(found[name], least, most) if name in found else default
        for name, least, most, default in RUN
    ]
    if None in order or order[1] * order[2] > 10_000_000:
        return USAGE
    text = " ".join(["run"] + [str(one) for one in order])
    if "made" not in found:
        return text
    size = number(found["made"], *SIZES)
    return USAGE if size is None else f"{text} made {size}"


def gen(words):
    size = number(words[0], *SIZES) if len(words) == 1 else None
    return USAGE if size is None else f"gen {size}"


def probe(words):
    found = values(PROBE, words)
    if found is None:
        return USAGE
    if not found:
        return "probe"
    if len(found) == 1:
        return USAGE
    which = number(found["number"], 1, 16)
    names = found["events"].split(",")
    if not all(re.fullmatch(r"[a-z][A-Za-z0-9_]{0,63}", name) for name in names):
        return USAGE
    if which is None or "infty" in names or "tau" in names:
        return USAGE
    return f"probe {which} {','.join(names)}"


def command(words):
    if not words:
        return USAGE
    first, others = words[0], words[1:]
    if first in ("steps", "check", "print"):
        return USAGE if others else first
    if first in ("run", "gen"):
        return run(others) if first == "run" else gen(others)
    return probe(others) if first == "probe" else USAGE


def of_line(line):
    return command(line.split(" ") if line else [])


def commands():
    return [
        "", "steps", "check", "print", "run", "probe", "Steps", "step", "steps ", " steps",
        "steps x", "check x", "print print", "steps --seed 1", "check --", "print -h", "steps run",
        "run run", "run x", "run ", "probe x", "trace", "--seed 1 run", "run steps", "run --runs 0",
        "run --runs 2 --runs 3", "-", "--",
        "help", "--help", "--version", "-V",
    ]


def ends():
    rows = []
    for name, least, most, _ in RUN:
        for value in (least, most, most + 1):
            rows.append(f"run --{name} {value}")
        rows.append(f"run --{name}={least - 1}")
    # The product of runs and passages has a limit of its own.
    rows.remove("run --runs 1000000")
    rows.remove("run --passages 1000000")
    rows += [
        "run --runs 1000000 --passages 10", "run --runs 1000000 --passages 11",
        "run --runs 10 --passages 1000000", "run --runs 11 --passages 1000000",
        "run --runs 10000001", "run --runs 9091 --passages 1100",
        "run --runs 3163 --passages 3161", "run --passages 10000", "run --passages 10001",
    ]
    for value in (0, 1, 16, 17):
        rows.append(f"probe --number {value} --events a")
    return rows


def forms():
    rows = []
    for name, least, most, default in RUN:
        value = default + 1 if default < most else default
        rows.append(f"run --{name}={value}")
        rows.append(f"run --{name}=+{value}")
        rows.append(f"run --{name} 00{value}")
    rows += [
        "run --seed +1", "run --seed ++1", "run --seed +", "run --seed=", "run --seed ",
        "run --runs=", "run --runs ", "run --runs", "run --seed -1", "run --seed=-1",
        "run --runs=-1", "run --seed 1.0", "run --seed 1e3", "run --seed 0x1", "run --seed 1_000",
        "run --seed 1,000", "run --seed=1 ", "run --seed= 1", "run --seed==1", "run -seed 1",
        "run seed 1", "run --Seed 1", "run --see 1", "run --seeds 1", "run --seed1",
        "run --seed:1", "run -s 1", "run -s1", "run -h", "run --help", "run --version", "run -hV",
        "run --", "run -- x", "run -- --seed 1", "run --seed -- 1", "run - ", "run -", "run --=1",
        "run --seed --runs", "run --seed --runs 5", "run --seed 18446744073709551616",
        "run --seed 99999999999999999999999", "run --workers 4294967297", "run --bin=4294967297",
        "run --number 1", "run --events a", "run --made", "run --seed 1 x", "run x --seed 1",
        "run --seed 1 2",
    ]
    return rows


def pairs():
    rows = []
    for (name, _, _, default), (other, least, _, _) in itertools.permutations(RUN, 2):
        rows.append(f"run --{name} {default + 1} --{other}={least}")
    rows += [
        "run --seed 0 --runs 2 --passages 3 --jumps 4 --workers 5 --table 8 --entries 9 --bin 6 --bins 7",
        "run --bins=7 --bin=6 --entries=9 --table=8 --workers=5 --jumps=4 --passages=3 --runs=2 --seed=0",
    ]
    for name, least, _, _ in RUN:
        rows.append(f"run --{name} {least} --{name} {least}")
        rows.append(f"run --{name}={least} --{'bin' if name == 'seed' else 'seed'}=3 --{name}={least + 1}")
    return rows


def events():
    rows = [
        "probe --number 1", "probe --events a", "probe --number=1", "probe --events=a",
        "probe --number 1 --events a", "probe --events a --number 1",
        "probe --number=16 --events=a", "probe --events=a --number=+016",
        "probe --number 1 --events a,c,a,b", "probe --number 1 --events a,a,b,b",
        "probe --number 1 --number 1 --events a", "probe --number 1 --events a --events a",
        "probe --events a --events b", "probe --number 1 --events ", "probe --number 1 --events=",
        "probe --number 1 --events ,", "probe --number 1 --events a,",
        "probe --number 1 --events ,a", "probe --number 1 --events a,,b",
        "probe --number 1 --events A", "probe --number 1 --events a,B",
        "probe --number 1 --events 1a", "probe --number 1 --events _a",
        "probe --number 1 --events a1_B", "probe --number 1 --events a-b",
        "probe --number 1 --events a b", "probe --number 1 --events a, b",
        "probe --number 1 --events -a", "probe --number 1 --events=-a",
        "probe --number 1 --events tau", "probe --number 1 --events a,tau",
        "probe --number 1 --events infty", "probe --number 1 --events=infty,a",
        "probe --number 1 --events taux,infty1", "probe --number 1 --events probe,T",
        "probe --number 1 --events probe,t", "probe --number 1 --events start,stop",
        "probe --number --events a", "probe --number a --events 1", "probe --number -1 --events a",
        "probe --number= --events a", "probe --seed 1", "probe --runs 1 --number 1 --events a",
        "probe -- ", "probe --help", "probe --number 1 --events a x",
        "probe --number 1 --events=a=b", "probe --number 1 --events a.b",
        "probe --number 1 --events \u00e4",
    ]
    return rows


def long_names():
    name = "abcdefgh" * 8
    return [f"probe --number 1 --events {names}" for names in (name, f"{name}a", f"b,{name}", f"b,{name}a")]


def sizes():
    rows = [f"gen {size}" for size in (0, 1, 100, 101, "+7", "007", "-1", "", "x", "1 2", "8x")]
    rows += [f"run --made {size}" for size in (0, 1, 100, 101, "+08", "-1", "", "x")]
    rows += [
        "gen", "gen --size 1", "gen=1", "gen --made 1", "gen -- 1", "gen +",
        "run --made=8", "run --made=", "run --made=-1",
        "run --made", "run --made --runs 1", "run --made 8 --made 8", "run --made=8 --made=9", "run 8",
        "run --runs 10 --made 8", "run --made 8 --runs 10", "run --made 8 --workers 2 --table 8 --runs 10",
        "run --made 8 --runs 1000000 --passages 11", "probe --made 8", "steps --made 8", "run --size 8",
    ]
    return rows


TABLES = [
    ("sizes", sizes),
    ("commands", commands),
    ("ends", ends),
    ("forms", forms),
    ("pairs", pairs),
    ("events", events),
    ("long_names", long_names),
]
LEAST_ROWS = 200


def main(files):
    if not files:
        for name, rows in TABLES:
            print(f"// {name}")
            for line in rows():
                print(f"{line} => {of_line(line)}")
        return 0
    count = 0
    status = 0
    for file in files:
        with open(file, encoding="utf-8") as source:
            text = source.read()
        rows = re.findall(r"^(.*) => (.*)$", text, re.MULTILINE)
        rows += re.findall(r'\(\s*"([^"]*)",\s*"([^"]*)",?\s*\)', text)
        count += len(rows)
        for line, want in rows:
            if of_line(line) != want:
                print(f"{file}: {line!r} gives {of_line(line)!r} and not {want!r}")
                status = 1
    if count < LEAST_ROWS:
        print(f"only {count} rows were found")
        status = 1
    return status


if __name__ == "__main__":
    sys.exit(main(sys.argv[1:]))
