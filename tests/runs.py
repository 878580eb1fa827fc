"""Says a second time what `run`, `gen` and `probe` answer, in plain whole numbers and fractions: runs.py [PROGRAM MODEL..]

It has the texts of faults.py, the transitions of rules.py, the words of words.py, the streams and draws of draws.py, the replications of
replications.py and the summaries of summaries.py, and puts them together to the bytes, the status and the line of a call. It refuses
probe lines, as the program does; those of watches.py are looked at on a few models.

Without arguments it looks at itself: what is known of some answers from their definition has to come out, and the answers next to the
models of examples/. With PROGRAM it compares that program's answers with its own, on the models that are given and on random ones
(run_calls.py), from fixed seeds, for a minute at most. The first answer that differs is printed with its words and its text. As
runs.py --answer WORD.. it prints the answer to these words, on the text of standard input. Otherwise the status is 1 where something is
wrong.
"""
import itertools
import pathlib
import re
import subprocess
import sys
import time
from fractions import Fraction

import draws
import faults
import replications
import rules
import run_calls
import summaries
import watches
import words

EXAMPLES = pathlib.Path(__file__).resolve().parent.parent / "examples"
SECONDS = 60
CALLS = 2000
FIELDS = [name for name, *_ in words.RUN] + ["made"]
TIMES = ["mean", "least", "median", "p90", "p99", "greatest"]
ENDS = ["Done", "Deadlock", "JumpLimit"]


class Chain(dict):
    """The transitions of a model's states, by the numbers of states in the order in which they are met, each listed once."""

    def __init__(self, model):
        super().__init__()
        self.model, self.states, self.numbers = model, [model.start], {model.start: 0}
        self.missed = self[0]

    def __missing__(self, number: int):
        try:
            found = [(rate[1], self.number(after), sent) for _, rate, after, sent in self.model.listed(self.states[number])]
        except rules.Stopped as why:
            found = str(why)
        self[number] = found
        return found

    def number(self, state) -> int:
        if state not in self.numbers:
            self.numbers[state] = len(self.states)
            self.states.append(state)
        return self.numbers[state]


def ticks(value: int) -> str:
    return f"{value // 2**32}.{value % 2**32 * 10**6 // 2**32:06}"


def report(order, ran) -> str:
    """The report of replications, each an ending and the lengths of its passages."""
    figures = summaries.figures((order["runs"], order["passages"], order["bin"], order["bins"]), [(lengths, end) for end, lengths in ran])
    names = ["runs", "done", "deadlocked", "unfinished", "passages", *TIMES, *(f"bin {j}" for j in range(order["bins"])), "tail"]
    values = [("-" if it == "NONE" else ticks(it)) if name in TIMES else it for name, it in zip(names, figures, strict=True)]
    return "".join(f"{name} {value}\n" for name, value in zip(names, values))


def simulated(order, chain):
    """The answer of all replications over a chain, or of the first one that stops."""
    ran = []
    for number in range(1, order["runs"] + 1):
        run = replications.replicate(chain, order["seed"], number, order["jumps"], order["passages"])
        if run.ending not in ENDS:
            name = re.sub(r"(?<=[a-z])([A-Z])", r" \1", run.ending).lower()
            return 6, b"", f"replication {number} stopped: {name}\n".encode()
        ran.append((run.ending, run.lengths))
    return 0, report(order, ran).encode(), b""


def made(size: int) -> str:
    """The text of a made model."""
    lines = ["t = 1;", "a = 4;", "s = 3;", "Idle = (think, t).Ready;", "Ready = (ask, a).Wait;", "Wait = (reply, infty).Idle;",
             "Free = (ask, infty).Busy;", "Busy = (reply, s).Free;", "probe Idle :: ask:start, reply:stop;"]
    users, servers = " || ".join(["Idle"] * size), " || ".join(["Free"] * ((size + 3) // 4))
    return "\n".join([*lines, f"{users} <ask,reply> ({servers})", ""])


def answer(call, text: bytes):
    """The status, standard output and standard error of a call."""
    command, *values = words.command(call).split(" ")
    if command == words.USAGE:
        return 2, b"", b"usage\n"
    if command == "gen":
        return 0, made(int(values[0])).encode(), b""
    order = dict(zip(FIELDS, map(int, filter(str.isdigit, values)))) if command == "run" else {}
    if "made" in order:
        text = made(order["made"]).encode()
    status, out, err = faults.answers(text)[1][1]
    if status != 0:
        return status, out, err
    if command == "probe":
        return 0, f"no probe {values[0]}\n".encode() if values else b"", b""
    return simulated(order, Chain(rules.Model(out.decode())))


def run(program: str, call, text: bytes):
    ended = subprocess.run([program, *call], input=text, capture_output=True, timeout=SECONDS, check=False)
    return ended.returncode, ended.stdout, ended.stderr


# What is known of some calls, whatever the streams are: the words after `run`, the text, and the whole answer.
ROW = b"P = (a,1).Stop; Stop = (z,1).Stop; Q = (y,1).Q; P <y,z> Q"
BLANK = "passages 0\nmean -\nleast -\nmedian -\np90 -\np99 -\ngreatest -\nbin 0 0\ntail 0\n"
KNOWN = [
    ("--runs 10 --bins 1", ROW, (0, f"runs 10\ndone 0\ndeadlocked 10\nunfinished 0\n{BLANK}", "")),
    ("--runs 10 --bins 1 --jumps 1", ROW, (0, f"runs 10\ndone 0\ndeadlocked 0\nunfinished 10\n{BLANK}", "")),
    ("--bins 1", b"S = (z,1).S; Q = (y,1).Q; S <z,y> Q", (0, f"runs 1000\ndone 0\ndeadlocked 1000\nunfinished 0\n{BLANK}", "")),
    ("--runs 7 --jumps 1 --bins 1", b"P = (a,1).P; P", (0, f"runs 7\ndone 0\ndeadlocked 0\nunfinished 7\n{BLANK}", "")),
    ("", b"P = (a,infty).P; P", (6, "", "replication 1 stopped: passive left\n")),
    ("", b"P = (a,1).P; Q = (a,infty).Q; P || Q", (6, "", "replication 1 stopped: mixed\n")),
    ("", b"P = (a, 4398046511103).P + (a, 1).P; P", (6, "", "replication 1 stopped: overflow\n")),
    ("", b"P = (a, 1/4398046511103).P + (b, 1/4398046511101).P; P", (6, "", "replication 1 stopped: weight overflow\n")),
    ("", b"P = (a, 1/4398046511103).P; P", (6, "", "replication 1 stopped: time overflow\n")),
    ("--jumps 1 --runs 1 --bins 1", b"P = (a, 1).P; P; P", (3, "", "model 1:18 expected\n")),
    ("--runs 1 --bins 1 --jumps 2", run_calls.wide(257), (0, f"runs 1\ndone 0\ndeadlocked 0\nunfinished 1\n{BLANK}", "")),
    ("--runs 1 --bins 1 --jumps 2", run_calls.wide(258), (6, "", "replication 1 stopped: list too long\n")),
    ("--runs 2 --bins 1 --jumps 1", run_calls.wide(258), (0, f"runs 2\ndone 0\ndeadlocked 0\nunfinished 2\n{BLANK}", "")),
    ("", b" " * (2**20 + 1), (3, "", "model too long\n")),
    ("--made 1", b"", (3, "", "model 9:1 unsupported\n")),
    ("--runs 0", ROW, (2, "", "usage\n")),
    ("--runs 2 --runs 3", ROW, (2, "", "usage\n")),
    ("-- x", ROW, (2, "", "usage\n")),
    ("--runs 1000000 --passages 11", ROW, (2, "", "usage\n")),
]


def known():
    """The calls whose answers are known, each with its text and its answer."""
    return [(["run", *call.split()], text, (status, out.encode(), err.encode())) for call, text, (status, out, err) in KNOWN]


# Models with probes, and what is known of their transitions, of their first probe's answers, and of their replications.
TIMED = b"P = (a,1).P1; P1 = (b,1).P; probe (a:start, b:stop); P"
AGAIN = b"P = (a,1).P1; P1 = (b,1).P; probe a | a, b:stop; P"
CROWD = b"P = (a,1).Q; Q = (b,1).P; probe {P > 1} a:start; P || P"
ALONE = b"P = (a,1).Q; Q = (b,1).P; probe {P > 1} a:start; P || Q"
RELAY = b"P = (a,1).P; probe P :: a:ready; probe ready:start; P"
LEAF = b"P = (a,1).P; probe P :: a:ready; probe P :: ready:start; P"
STEPS = [
    (CROWD, "a 1 Q || P ! start\na 1 P || Q ! start\n"),
    (ALONE, "a 1 Q || Q\nb 1 P || P\n"),
    (RELAY, "a 1 P ! start ready\n"),
    (LEAF, "a 1 P ! start ready\n"),
]
EVENTS = [
    (TIMED, "acab", "a heard start\nc ignored\na ignored\nb heard stop\n"),
    (AGAIN, "aabb", "a heard\na heard\nb heard stop\nb ignored\n"),
]
USERS = b"""rt = 0.2; ra = 5.0; rs = 1.5; rl = 0.25; rf = 0.01; rr = 0.1;
User = (think, rt).Asking; Asking = (request, ra).Waiting; Waiting = (respond, infty).User;
Server = (request, infty).Busy + (fail, rf).Broken; Busy = (respond, rs).Logging; Logging = (log, rl).Server; Broken = (repair, rr).Server;
probe {Broken == 0} request:start, respond:stop;
(User || User || User || User || User || User || User || User) <request, respond> (Server || Server)"""


def probes_hold() -> bool:
    """Whether transitions send their signals, and events are heard, as it is known of them."""
    return all(watches.Watched(text).steps() == wanted for text, wanted in STEPS) and all(
        watches.Watched(text).events(1, letters) == wanted for text, letters, wanted in EVENTS
    )


def passages_hold() -> bool:
    """Whether a passage of one jump at rate 1 ends within the longest draw, below 85 time units, and needs two jumps; and one of users ends."""
    order = dict(zip(FIELDS, (1, 1000, 1, 100_000, 1, 8, 8, 128, 1)))
    chain = Chain(watches.Watched(TIMED))
    whole, short, long = (simulated(order | {"jumps": jumps}, chain)[1].decode() for jumps in (100_000, 1, 2))
    users = simulated(order | {"runs": 40}, Chain(watches.Watched(USERS)))[1].decode()
    return (
        whole == long
        and whole.startswith("runs 1000\ndone 1000\ndeadlocked 0\nunfinished 0\npassages 1000\nmean ")
        and whole.endswith("\nbin 0 1000\ntail 0\n")
        and short == f"runs 1000\ndone 0\ndeadlocked 0\nunfinished 1000\n{BLANK}"
        and users.startswith("runs 40\ndone 40\ndeadlocked 0\nunfinished 0\npassages 40\nmean ")
    )


def parts_hold() -> bool:
    """Whether draws, weights, texts of times, quantiles and made texts have the values that are known of them."""
    sixteenths = [it * 2**60 for it in (9, 8, 8, 4, 5)]
    bare = "".join(line + "\n" for line in made(1).splitlines() if not line.startswith("probe"))
    return (
        draws.vectors_hold()
        and draws.exponential([2**63, 9 * 2**60]) == (2147483648, 2)
        and draws.exponential(sixteenths) == (5368709120, 5)
        and draws.exponential(range(256, 0, -1)) is None
        and draws.below([2**64 - 1, 23], 10) == (3, 2)
        and replications.weighed([Fraction(1, 2), Fraction(1, 3)]) == ([3, 2], 6)
        and rules.out_of_range(("active", Fraction(2**42)))
        and ticks(6442450944) == "1.500000"
        and [summaries.quantile([1, 2, 3, 4], *part) for part in ((1, 2), (9, 10))] == [2, 4]
        and made(1).endswith("\nIdle <ask,reply> (Free)\n")
        and faults.Model(bare.encode()).counted() == "ok constants 5 actions 3 probes 0 leaves 2\n"
        and rules.Model(faults.Model(bare.encode()).printed()).steps() == "think 1 Ready <ask,reply> Free\n"
    )


def written_out_hold() -> bool:
    """Whether the replications over the chains that replications.py has written out are those over the texts of their models."""
    for text, seed, number, jumps in replications.RUNS:
        run = replications.replicate(replications.chain_of(text), seed, number, jumps)
        ours = replications.replicate(Chain(rules.Model(text)), seed, number, jumps)
        if ours != run._replace(ending="passive left" if run.ending == "PassiveLeft" else run.ending):
            return False
    return True


def wrong_by_itself() -> list:
    """What doesn't come out as it is known to."""
    wrong = [f"{' '.join(call)}: {found!r} in place of {wanted!r}" for call, text, wanted in known()
             if (found := answer(call, text)) != wanted]
    wrong += [f"{it.__name__}: doesn't hold" for it in (parts_hold, probes_hold, passages_hold, written_out_hold) if not it()]
    for path in sorted(EXAMPLES.glob("*.words")):
        wanted = path.with_suffix(".run").read_bytes()
        found = answer(path.read_text().split(), path.with_suffix(".pepa").read_bytes())
        wrong += [f"{path.name}: {found!r} in place of {wanted!r}"] if found != (0, wanted, b"") else []
    return wrong


def takes(program: str, *call: str) -> bool:
    """Whether the program knows the words at all."""
    status = run(program, call, b"P = (a, 1).P; P")[0]
    if status == 2:
        print(f"skipped: the program doesn't take `{' '.join(call)}` yet")
    return status != 2


def answered(calls):
    """Calls with their texts and answers."""
    return ((call, text, answer(call, text)) for call, text in calls)


def fixed_calls(program: str, texts, takes_run: bool):
    """The calls that are always made: of `gen` for each size, of `probe`, and of `run` on each example and on what is known."""
    if takes(program, "gen", "1"):
        yield from answered((["gen", str(size)], b"") for size in range(102))
    if takes(program, "probe"):
        for call in (["probe"], ["probe", "--number", "2", "--events", "a,start"]):
            yield from answered((call, text) for text in texts)
    if takes_run:
        yield from known()
        yield from answered((["run", "--runs", "3", "--jumps", "40"], text) for text in texts)


def random_calls():
    """Random calls of `run`, while the time lasts."""
    until = time.monotonic() + SECONDS
    calls = answered((["run", *call], text) for call, text in map(run_calls.call, range(CALLS)))
    return itertools.takewhile(lambda _: time.monotonic() < until, calls)


def kind_of(status: int, out: bytes, err: bytes) -> str:
    """What an answer says, without its numbers."""
    if status == 6:
        return err.decode().strip().split(": ")[1]
    if status in (2, 3):
        return "usage" if status == 2 else "refused"
    return " and ".join(re.findall(r"^(deadlocked|unfinished) [1-9]", out.decode(), re.MULTILINE))


WANTED = ["usage", "refused", "deadlocked", "unfinished", "deadlocked and unfinished", "mixed", "overflow", "list too long", "passive left",
          "weight overflow", "time overflow"]


def compare(program: str, names) -> int:
    texts = [pathlib.Path(name).read_bytes() for name in names]
    takes_run = takes(program, "run", "--runs", "1")
    counts = {}
    for call, text, wanted in itertools.chain(fixed_calls(program, texts, takes_run), random_calls() if takes_run else ()):
        found = run(program, call, text)
        if found != wanted:
            print(f"FAILED: {' '.join(call)} gives {found!r}, and not {wanted!r}\nthe text is {text!r}")
            return 1
        kind = kind_of(*wanted) if call[0] == "run" else call[0]
        counts[kind] = counts.get(kind, 0) + 1
    print("answers as wanted:", ", ".join(f"{n} {kind}" for kind, n in sorted(counts.items())) or "none")
    missing = [kind for kind in WANTED if takes_run and kind not in counts]
    if missing:
        print(f"FAILED: no call of `run` had the answer {', '.join(missing)}")
    return 1 if missing else 0


def main(arguments) -> int:
    if arguments[:1] == ["--answer"]:
        status, out, err = answer(arguments[1:], sys.stdin.buffer.read())
        sys.stdout.buffer.write(out)
        sys.stderr.buffer.write(err)
        return status
    if arguments:
        return compare(arguments[0], arguments[1:])
    wrong = wrong_by_itself()
    for it in wrong:
        print(f"FAILED: {it}")
    print(f"the second program: {len(wrong)} of its answers are other than known" if wrong else "the second program gives what is known")
    return 1 if wrong else 0


if __name__ == "__main__":
    sys.setrecursionlimit(10**6)
    sys.exit(main(sys.argv[1:]))
