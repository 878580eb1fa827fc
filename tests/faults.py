"""Compares `check` and `print` with what docs/LANGUAGE.md says, written down a second time: faults.py PROGRAM MODEL..

Which fault of a text comes first and where, what a model has and what its normal form is are recursions over names here
and Python's fractions, without numbers for names and without the program's order of work. The texts are those that are given
and random ones (fault_texts.py), from fixed seeds, for half a minute, or until each fault was met once. The first answer that
differs is printed with its text, and ends with a status of 1; so does a fault's name that no text had.
"""
import operator
import re
import subprocess
import sys
import time
from fractions import Fraction
from typing import NamedTuple

from fault_texts import random_text

SECONDS = 30
ROUNDS = 6000
MOST_BYTES = 2**20
MOST_TOKENS = 2048
MOST_LINES = 1024
MOST_IN_RATE = 2**42 - 1
LIMITS = {"actions": 1024, "sets": 1024, "leaves": 65535, "activities": 65535, "system leaves": 255, "system nodes": 1023}
LEXEME = re.compile(rb"(?P<blank>[\t\n\r ]+|//[^\n]*)|(?P<comment>/\*)|(?P<name>[A-Za-z][A-Za-z0-9_]*)"
                    rb"|(?P<number>[0-9]+(?:\.[0-9]*)?)|(?P<sign><=|>=|==|!=|&&|\|\||::|[=;(),.+\-*/<>!|{}\[\]:?])")
OPERATORS = {"+": operator.add, "-": operator.sub, "*": operator.mul, "/": operator.truediv}
WORDS = {"infty": "top", "T": "top", "tau": "tau"}
# What may stand behind a part of a probe's expression, by its first token.
SUFFIXES = {"*": ["*"], "+": ["+"], "?": ["?"], "number": ["number"], ":": [":", "small"], "/": ["/", "small"],
            "{": ["{", "number", ",", "number", "}"]}
NAMES = ["bad byte", "bad number", "long name", "open comment", "too deep", "array", "wildcard", "unsupported", "expected",
         "too many lines", "defined twice", "unknown name", "tau in set", "bad rate by a number", "bad rate by a result",
         "bad rate by a weight", "bad rate by a passive name", "not sequential", "model cycle", "unguarded",
         *(f"too many {cause}" for cause in LIMITS), "mixed choice", "too long"]


class Fault(Exception):
    """A name, the byte where it is reported, and what distinguishes the causes of one name."""

    def __init__(self, name: str, at: int, cause: str = ""):
        super().__init__(name, at, cause)
        self.name, self.at, self.cause = name, at, cause


class Token(NamedTuple):
    kind: str  # a sign itself, or what else it is
    text: str
    at: int


def read_tokens(text: bytes) -> "list[Token]":
    found, at = [], 0
    while at < len(text):
        match = LEXEME.match(text, at)
        if match is None:
            raise Fault("bad byte", at)
        kind, end = match.lastgroup, match.end()
        piece = match[0].decode("latin-1")
        if kind == "comment":
            closed = text.find(b"*/", end)
            if closed < 0:
                raise Fault("open comment", at)
            end = closed + 2
        elif kind == "name":
            if len(piece) > 64:
                raise Fault("long name", at)
            found.append(Token(WORDS.get(piece, "small" if piece[0].islower() else "capital"), piece, at))
        elif kind == "number":
            if piece.endswith(".") or len(piece.replace(".", "")) > 30 or re.match(rb"[A-Za-z_]", text[end:end + 1]):
                raise Fault("bad number", at)
            found.append(Token("number", piece, at))
        elif kind == "sign":
            found.append(Token(piece, piece, at))
        at = end
    return found + [Token("end", "", at)]


class Reader:
    """Reads tokens by the grammar, and refuses the first one that can't follow.

    A process is ("constant", at, name), ("prefix", at, word, rate, next), ("choice", left, right), ("coop", left, right, words)
    or ("hide", inner, words).
    """

    def __init__(self, tokens: "list[Token]"):
        self.tokens, self.here, self.begin = tokens + tokens[-1:], 0, 0
        self.rates, self.processes, self.probes = [], [], []

    def kind(self) -> str:
        token = self.tokens[self.here]
        if self.here - self.begin >= MOST_TOKENS:
            raise Fault("too deep", token.at)
        return token.kind

    def take(self, *kinds: str) -> Token:
        kind, token = self.kind(), self.tokens[self.here]
        if kind in kinds:
            self.here += 1
            return token
        if kind == "[":
            raise Fault("array", token.at)
        raise Fault("wildcard" if kind == "*" and self.tokens[self.here - 1].kind == "<" else "expected", token.at)

    def file(self):
        """Keeps the lines, and gives the system."""
        while True:
            self.begin = self.here
            first, second = self.tokens[self.here:self.here + 2]
            if first.kind == "small" and first.text == "probe" and second.kind != "=":
                self.probes.append(first)
                self.probe()
                continue
            if first.kind != "small" and (first.kind, second.kind) != ("capital", "="):
                break
            name = self.take("small", "capital")
            self.take("=")
            if name.kind == "small":
                self.rates.append((name, self.rate()))
            else:
                self.processes.append((name, self.process()))
            self.take(";")
        system = self.process()
        if self.take(";", "end").kind == ";":
            self.take("end")
        return system

    def rate(self):
        """A number and `*` begin a weight where `infty` or `T` follows them, and else a product."""
        if [token.kind for token in self.tokens[self.here:self.here + 3]] == ["number", "*", "top"]:
            weight = self.take("number")
            self.take("*")
            self.take("top")
            return ("top", weight)
        if self.kind() == "top":
            self.take("top")
            return ("top", None)
        return self.sum()

    def operators(self, signs: str, operand):
        left = operand()
        while self.kind() in tuple(signs):
            sign = self.take(*signs)
            left = ("operator", sign, left, operand())
        return left

    def sum(self):
        return self.operators("+-", lambda: self.operators("*/", self.unit))

    def unit(self):
        token = self.take("number", "small", "(")
        if token.kind != "(":
            return (token.kind, token)
        inner = self.sum()
        self.take(")")
        return ("bracket", inner)

    def probe(self):
        """A probe line; nothing is kept of its expression."""
        self.take("small")
        if self.kind() == "capital":
            self.take("capital")
            self.take("::")
        self.alternatives()
        self.take(";")

    def separated(self, sign: str, part) -> None:
        part()
        while self.kind() == sign:
            self.take(sign)
            part()

    def alternatives(self) -> None:
        self.separated("|", lambda: self.separated(",", self.guarded))

    def guarded(self) -> None:
        while self.kind() == "{":
            self.take("{")
            self.guard()
            self.take("}")
        if self.take("small", "(").kind == "(":
            self.alternatives()
            self.take(")")
        while self.kind() in SUFFIXES:
            for kind in SUFFIXES[self.kind()]:
                self.take(kind)

    def guard(self) -> None:
        self.separated("||", lambda: self.separated("&&", self.negation))

    def negation(self) -> None:
        while self.kind() == "!":
            self.take("!")
        if self.take("capital", "(").kind == "(":
            self.guard()
            self.take(")")
        else:
            self.take("<", "<=", ">", ">=", "==", "!=")
            self.take("number")

    def process(self):
        left = self.choice()
        while self.kind() in ("||", "<"):
            words = [] if self.take("||", "<").kind == "||" else self.words(">")
            left = ("coop", left, self.choice(), words)
        return left

    def words(self, closing: str) -> "list[Token]":
        words = []
        token = self.take("small", "tau", closing)
        while token.kind != closing:
            words.append(token)
            if self.take(",", closing).kind == closing:
                break
            token = self.take("small", "tau")
        return words

    def choice(self):
        left = self.hidden()
        while self.kind() == "+":
            self.take("+")
            left = ("choice", left, self.hidden())
        return left

    def hidden(self):
        inner = self.prefix()
        while self.kind() == "/":
            self.take("/")
            self.take("{")
            inner = ("hide", inner, self.words("}"))
        return inner

    def prefix(self):
        first = self.take("capital", "(")
        if first.kind == "capital":
            return ("constant", first.at, first.text)
        if self.kind() in ("small", "tau"):
            word = self.take("small", "tau")
            self.take(",")
            rate = self.rate()
            self.take(")")
            self.take(".")
            return ("prefix", first.at, word, rate, self.prefix())
        inner = self.process()
        self.take(")")
        return inner


def parts_of(process):
    """A process and its parts, each before its own parts, the left ones first."""
    waiting = [process]
    while waiting:
        part = waiting.pop()
        yield part
        waiting += {"constant": [], "prefix": part[4:], "hide": part[1:2]}.get(part[0], part[2:0:-1])


def names_in(rate):
    if rate[0] == "small":
        yield rate[1]
    for part in rate[1:]:
        if isinstance(part, tuple) and not isinstance(part, Token):
            yield from names_in(part)


def first_place(process) -> int:
    while process[0] not in ("constant", "prefix"):
        process = process[1]
    return process[1]


def refuse(name: str, places, cause: str = "") -> None:
    """At the least place, where there is one."""
    if places:
        raise Fault(name, min(places), cause)


def reached(start: str, edges) -> set:
    """What follows a start, which is itself among them only where there is a way back."""
    found, waiting = set(), [start]
    while waiting:
        new = edges.get(waiting.pop(), set()) - found
        found |= new
        waiting += new
    return found


class Model:
    """What a text says; no model is made of a text that is refused."""

    def __init__(self, text: bytes):
        reader = Reader(read_tokens(text))
        self.system = reader.file()
        refuse("unsupported", [first.at for first in reader.probes])
        self.rate_lines, self.lines = reader.rates, reader.processes
        self.processes = [body for _, body in self.lines] + [self.system]
        self.bodies = {name.text: body for name, body in self.lines}
        self.every = [part for process in self.processes for part in parts_of(process)]
        self.prefixes = [part for part in self.every if part[0] == "prefix"]
        self.check_names()
        self.named, self.rates = {}, {}
        self.check_rates()
        self.compound = {name for name in self.bodies if self.is_compound(name)}
        self.check_structure()
        self.counts, self.nodes, self.activities_of = {}, {}, {}
        self.check_limits()
        self.check_mixed()

    def check_names(self) -> None:
        late = self.rate_lines[MOST_LINES:] + self.lines[MOST_LINES:]
        refuse("too many", [name.at for name, _ in late], "lines")
        seen, places = set(), []
        for name, _ in self.rate_lines + self.lines:
            places += [name.at] if name.text in seen else []
            seen.add(name.text)
        refuse("defined twice", places)
        places = [part[1] for part in self.every if part[0] == "constant" and part[2] not in self.bodies]
        above = set()
        for name, rate in self.rate_lines:
            places += [used.at for used in names_in(rate) if used.text not in above]
            above.add(name.text)
        places += [used.at for part in self.prefixes for used in names_in(part[3]) if used.text not in above]
        refuse("unknown name", places)
        self.sets = [part[-1] for part in self.every if part[0] in ("coop", "hide")]
        refuse("tau in set", [word.at for words in self.sets for word in words if word.kind == "tau"])

    def check_rates(self) -> None:
        """Each rate has its first fault alone; of these that of the rate that begins first is reported.

        A rate that is refused gives no value, and what needs one that isn't there isn't judged.
        """
        reported = []
        for name, rate in self.rate_lines:
            faults = []
            self.named[name.text] = self.value(rate, faults)
            reported += [(name.at, fault) for fault in faults[:1]]
        for part in self.prefixes:
            faults = []
            self.rates[part[1]] = self.value(part[3], faults)
            reported += [(part[1], fault) for fault in faults[:1]]
        if reported:
            raise min(reported, key=lambda it: it[0])[1]

    def value(self, rate, faults, alone: bool = True):
        """A kind and a fraction, or None; what is refused on the way is added to the faults, in the order of evaluation."""
        kind, wrong = rate[0], "by a result"
        if kind == "bracket":
            return self.value(rate[1], faults, False)
        if kind == "small":
            found = self.named[rate[1].text]
            if alone or not found or found[0] == "active":
                return found
            faults.append(Fault("bad rate", rate[1].at, "by a passive name"))
            return None
        if kind == "top":
            if rate[1] is None:
                return ("passive", Fraction(1))
            place, value, wrong = rate[1].at, Fraction(rate[1].text), "by a weight"
        elif kind == "number":
            place, value, wrong = rate[1].at, Fraction(rate[1].text), "by a number"
        else:
            place, left, right = rate[1].at, self.value(rate[2], faults, False), self.value(rate[3], faults, False)
            if left is None or right is None:
                return None
            value = OPERATORS[rate[1].kind](left[1], right[1])
        if value <= 0 or max(value.numerator, value.denominator) > MOST_IN_RATE or kind == "top" and value.denominator > 1:
            faults.append(Fault("bad rate", place, wrong))
            return None
        return ("passive" if kind == "top" else "active", value)

    def is_compound(self, name: str) -> bool:
        """Goes along lines that are a constant alone, to one that has a cooperation or a hiding."""
        seen = set()
        while name not in seen:
            seen.add(name)
            if any(part[0] in ("coop", "hide") for part in parts_of(self.bodies[name])):
                return True
            if self.bodies[name][0] == "constant":
                name = self.bodies[name][2]
        return False

    def check_structure(self) -> None:
        places = []
        for process in self.processes:
            self.has_structure(process, places)
        refuse("not sequential", places)
        edges = {name: {part[2] for part in parts_of(self.bodies[name]) if part[0] == "constant"} for name in self.compound}
        refuse("model cycle", [name.at for name, _ in self.lines if name.text in reached(name.text, edges)])
        edges = {name: self.unguarded(body) for name, body in self.bodies.items() if name not in self.compound}
        refuse("unguarded", [name.at for name, _ in self.lines if name.text in reached(name.text, edges)])

    def has_structure(self, process, places) -> bool:
        """Whether it has a cooperation or a hiding; where an operand may have none and isn't sequential, its place is added."""
        operands = {"constant": (), "prefix": process[4:], "hide": process[1:2]}.get(process[0], process[1:3])
        found = [self.has_structure(operand, places) for operand in operands]
        if process[0] in ("prefix", "choice"):
            places += [first_place(operand) for operand, has in zip(operands, found)
                       if has or operand[0] == "constant" and operand[2] in self.compound]
        return any(found) or process[0] in ("coop", "hide")

    def unguarded(self, process) -> set:
        if process[0] == "choice":
            return self.unguarded(process[1]) | self.unguarded(process[2])
        return {process[2]} if process[0] == "constant" else set()

    def check_limits(self) -> None:
        words = [word for words in self.sets for word in words] + [part[2] for part in self.prefixes]
        self.actions = list(dict.fromkeys(word.text for word in sorted(words, key=lambda it: it.at) if word.kind != "tau"))
        self.leaves = self.every_leaf()
        self.system_leaves = self.leaf_count(self.system)
        counts = {"actions": len(self.actions), "sets": len({frozenset(word.text for word in words) for words in self.sets}),
                  "leaves": len(self.leaves), "activities": sum(self.activity_count(leaf) for leaf in self.leaves),
                  "system leaves": self.system_leaves, "system nodes": self.node_count(self.system)}
        for cause, most in LIMITS.items():
            refuse("too many", [first_place(self.system)] if counts[cause] > most else [], cause)

    def every_leaf(self) -> list:
        """In their order, each as it is first written."""
        numbers, known = {}, {}

        def number(process) -> int:
            """Equal expressions have equal numbers."""
            if id(process) not in known:
                key = process[0], process[-1]
                if process[0] == "prefix":
                    key = process[2].text, self.rates[process[1]], number(process[4])
                elif process[0] == "choice":
                    key = number(process[1]), number(process[2])
                known[id(process)] = numbers.setdefault(key, len(numbers))
            return known[id(process)]

        places = [self.system]
        for part in self.every:
            places += {"prefix": part[4:], "coop": part[1:3], "hide": part[1:2]}.get(part[0], ())
        places = [part for part in places if part[0] in ("prefix", "choice")]
        written = [("constant", name.at, name.text) for name, _ in self.lines if name.text not in self.compound]
        leaves = {}
        for process in written + sorted(places, key=first_place):
            leaves.setdefault(number(process), process)
        return list(leaves.values())

    def activity_count(self, process) -> int:
        if process[0] == "prefix":
            return 1
        if process[0] == "choice":
            return self.activity_count(process[1]) + self.activity_count(process[2])
        if process[2] not in self.counts:
            self.counts[process[2]] = self.activity_count(self.bodies[process[2]])
        return self.counts[process[2]]

    def leaf_count(self, process) -> int:
        if process[0] == "coop":
            return self.leaf_count(process[1]) + self.leaf_count(process[2])
        if process[0] == "hide":
            return self.leaf_count(process[1])
        if process[0] != "constant" or process[2] not in self.compound:
            return 1
        if process[2] not in self.counts:
            self.counts[process[2]] = self.leaf_count(self.bodies[process[2]])
        return self.counts[process[2]]

    def node_count(self, process) -> int:
        """Its leaves, cooperations and hidings, with the right side of each compound constant in its place."""
        if process[0] == "coop":
            return 1 + self.node_count(process[1]) + self.node_count(process[2])
        if process[0] == "hide":
            return 1 + self.node_count(process[1])
        if process[0] != "constant" or process[2] not in self.compound:
            return 1
        if process[2] not in self.nodes:
            self.nodes[process[2]] = self.node_count(self.bodies[process[2]])
        return self.nodes[process[2]]

    def check_mixed(self) -> None:
        for leaf in self.leaves:
            kinds = {}
            for at, action, kind in self.activities(leaf):
                if kinds.setdefault(action, kind) != kind:
                    raise Fault("mixed choice", at)

    def activities(self, process) -> list:
        if process[0] == "prefix":
            return [(process[1], process[2].text, self.rates[process[1]][0])]
        if process[0] == "choice":
            return self.activities(process[1]) + self.activities(process[2])
        if process[2] not in self.activities_of:
            self.activities_of[process[2]] = self.activities(self.bodies[process[2]])
        return self.activities_of[process[2]]

    def counted(self) -> str:
        return f"ok constants {len(self.lines)} actions {len(self.actions)} probes 0 leaves {self.system_leaves}\n"

    def printed(self) -> str:
        return "".join(f"{name.text} = {self.text(body)};\n" for name, body in self.lines) + self.text(self.system) + "\n"

    def text(self, process, *bracketed: str) -> str:
        kind = process[0]
        if kind in bracketed:
            return f"({self.text(process)})"
        if kind == "constant":
            return process[2]
        if kind == "prefix":
            passive, rate = self.rates[process[1]][0] == "passive", self.rates[process[1]][1]
            rate = str(rate) if not passive else "infty" if rate == 1 else f"{rate}*infty"
            return f"({process[2].text}, {rate}).{self.text(process[4], 'choice')}"
        if kind == "choice":
            return f"{self.text(process[1])} + {self.text(process[2], 'choice')}"
        types = {word.text for word in process[-1]}
        words = ",".join(action for action in self.actions if action in types)
        if kind == "hide":
            return f"{self.text(process[1], 'prefix', 'choice', 'coop')}/{{{words}}}"
        return f"{self.text(process[1])} {f'<{words}>' if words else '||'} {self.text(process[2], 'coop')}"


def answers(text: bytes):
    """What tells of the text, for the counts; and status, standard output and standard error of `check` and of `print`."""
    try:
        if len(text) > MOST_BYTES:
            return "too long", [(3, b"", b"model too long\n")] * 2
        model = Model(text)
        return "", [(0, model.counted().encode(), b""), (0, model.printed().encode(), b"")]
    except Fault as fault:
        line, column = text.count(b"\n", 0, fault.at) + 1, fault.at - text.rfind(b"\n", 0, fault.at)
        return f"{fault.name} {fault.cause}".strip(), [(3, b"", f"model {line}:{column} {fault.name}\n".encode())] * 2


def run(program: str, word: str, text: bytes):
    ended = subprocess.run([program, word], input=text, capture_output=True, timeout=SECONDS, check=False)
    return ended.returncode, ended.stdout, ended.stderr


def main(program: str, names) -> int:
    texts = [open(name, "rb").read() for name in names]
    until = time.monotonic() + SECONDS
    counts = dict.fromkeys(["", *NAMES], 0)
    for seed in range(ROUNDS):
        if time.monotonic() > until and all(counts.values()):
            break
        text = texts[seed] if seed < len(texts) else random_text(seed)
        name, wanted = answers(text)
        found = [run(program, word, text) for word in ("check", "print")]
        if found != wanted:
            print(f"FAILED: seed {seed}: check and print give {found!r}, and not {wanted!r}\nthe text is {text!r}")
            return 1
        counts[name] += 1
    print("texts with a model:", f"{counts.pop('')};", ", ".join(f"{name}: {count}" for name, count in counts.items()))
    return 0 if all(counts.values()) else 1


if __name__ == "__main__":
    sys.setrecursionlimit(10**6)
    sys.exit(main(sys.argv[1], sys.argv[2:]))
