"""A second program for models with probes: which signals their transitions send, by the words of the probes' expressions.

It reads probe lines into the expressions of probes.py, attaches them to the states of rules.py, and lets each hear what happens in its
component. What was heard is kept as a list in the state, and there are no tables. runs.py looks at it on models whose answers are known.
"""
import operator
from fractions import Fraction

import faults
import probes
import rules

RELATIONS = {"<": operator.lt, "<=": operator.le, ">": operator.gt, ">=": operator.ge, "==": operator.eq, "!=": operator.ne}
REPEATS = {"*": "star", "+": "plus", "?": "maybe"}


class Reader(faults.Reader):
    """Keeps of each probe line its target, its expression, the guards to which that refers by number, and where the line begins and ends."""

    def __init__(self, text: bytes):
        super().__init__(faults.read_tokens(text))
        self.kept, self.guards, self.letters = [], [], []

    def probe(self):
        begin, self.guards, target = self.take("small").at, [], None
        if self.kind() == "capital":
            target = self.take("capital").text
            self.take("::")
        expression = self.alternatives()
        self.kept.append((target, expression, self.guards, begin, self.take(";").at + 1))

    def joined(self, sign: str, form: str, part):
        left = part()
        while self.kind() == sign:
            self.take(sign)
            left = (form, left, part())
        return left

    def name(self) -> str:
        self.letters.append(self.take("small").text)
        return self.letters[-1]

    def alternatives(self):
        return self.joined("|", "or", lambda: self.joined(",", "then", self.guarded))

    def guarded(self):
        if self.kind() == "{":
            self.take("{")
            number = len(self.guards)
            self.guards.append(self.guard())
            self.take("}")
            return ("guard", self.guarded(), number)
        if self.kind() == "(":
            self.take("(")
            inner = self.alternatives()
            self.take(")")
        else:
            inner = ("one", self.name())
        while self.kind() in faults.SUFFIXES:
            inner = self.suffixed(inner, self.kind())
        return inner

    def suffixed(self, inner, kind: str):
        if kind in ":/":
            self.take(kind)
            return ("label" if kind == ":" else "reset", inner, self.name())
        numbers = [int(Fraction(token.text)) for token in map(self.take, faults.SUFFIXES[kind]) if token.kind == "number"]
        return (REPEATS.get(kind) or ("times" if kind == "number" else "between"), inner, *numbers)

    def guard(self):
        return self.joined("||", "either", lambda: self.joined("&&", "both", self.negation))

    def negation(self):
        if self.kind() == "!":
            self.take("!")
            return ("not", self.negation())
        if self.kind() == "(":
            self.take("(")
            inner = self.guard()
            self.take(")")
            return inner
        name, relation = self.take("capital").text, self.take(*RELATIONS).kind
        return ("count", name, RELATIONS[relation], Fraction(self.take("number").text))


class Watched(rules.Model):
    """A model whose states have ("watch", component, probe, what it heard)."""

    def __init__(self, text: bytes):
        reader = Reader(text)
        reader.file()
        bare = bytearray(text)
        for *_, begin, end in reader.kept:
            bare[begin:end] = b" " * (end - begin)
        super().__init__(faults.Model(bytes(bare)).printed())
        self.probes = [line[:3] for line in reader.kept]
        self.labels = ["start", "stop", *(name for name in reader.letters if name not in self.actions)]
        targeted = [k for k, (target, *_) in enumerate(self.probes) if target]
        self.start = self.attached(self.system, set(), targeted)
        for k, (target, *_) in enumerate(self.probes):
            self.start = self.start if target else ("watch", self.start, k, ())

    def attached(self, part, names, waiting):
        """A part with its compound constants expanded, written through these names; each waiting probe watches the first with its target."""
        if part[0] == "const":
            names = names | {part[1]}
            if self.is_compound(part):
                return self.attached(self.lines[part[1]], names, waiting)
        here = [k for k in waiting if self.probes[k][0] in names]
        waiting[:] = [k for k in waiting if k not in here]
        if part[0] == "coop":
            left = self.attached(part[1], set(), waiting)
            part = ("coop", left, self.attached(part[2], set(), waiting), part[3])
        elif part[0] == "hide":
            part = ("hide", self.attached(part[1], set(), waiting), part[2])
        for k in here:
            part = ("watch", part, k, ())
        return part

    def count(self, part, name: str) -> int:
        """How many leaves of a part are the constant of this name."""
        inner = {"coop": part[1:3], "hide": part[1:2], "watch": part[1:2]}.get(part[0], ())
        return sum(self.count(it, name) for it in inner) + (part == ("const", name))

    def holds(self, guard, part) -> bool:
        if guard[0] == "count":
            return guard[2](self.count(part, guard[1]), guard[3])
        found = [self.holds(it, part) for it in guard[1:]]
        return {"not": not found[0], "both": all(found), "either": any(found)}[guard[0]]

    def hear(self, number: int, part, heard, letter: str):
        """What a probe has heard after a letter, with its component before it, and the labels that it sends; None where it ignores it."""
        _, expression, guards = self.probes[number]
        events = (*heard, (letter, tuple(2 * self.holds(it, part) for it in guards)))
        labels = probes.Fitting(list(events)).prefix(("star", expression), 0, len(events))
        return None if labels is None else (events, labels)

    def moves(self, part):
        if part[0] != "watch":
            return super().moves(part)
        _, inner, number, before = part
        found = []
        for action, rate, after, signals in self.moves(inner):
            heard, sent = before, signals
            for letter in [action] * (action != "tau") + sorted(signals, key=self.labels.index):
                answer = self.hear(number, inner, heard, letter)
                if answer is not None:
                    heard, sent = answer[0], sent | answer[1]
            found.append((action, rate, ("watch", after, number, heard), sent))
        return found

    def parts(self, part):
        if part[0] != "watch":
            yield from super().parts(part)
        else:
            yield from self.parts(part[1])
            yield part

    def apparent(self, part, action):
        return self.apparent(part[1], action) if part[0] == "watch" else super().apparent(part, action)

    def text(self, part) -> str:
        return self.text(part[1]) if part[0] == "watch" else super().text(part)

    def bracketed(self, part, *kinds) -> str:
        return self.bracketed(part[1], *kinds) if part[0] == "watch" else super().bracketed(part, *kinds)

    def steps(self) -> str:
        lines = super().steps().splitlines()
        sent = [sorted(signals, key=self.labels.index) for *_, signals in self.listed(self.start)]
        return "".join(f"{line}{' ! ' * bool(names)}{' '.join(names)}\n" for line, names in zip(lines, sent))

    def events(self, number: int, letters) -> str:
        """What a probe, from 1, answers to letters, each with the first state's counts."""
        watch = next(it for it in self.parts(self.start) if it[0] == "watch" and it[2] == number - 1)
        heard, lines = (), []
        for letter in letters:
            answer = self.hear(number - 1, watch[1], heard, letter)
            heard, labels = answer or (heard, ())
            said = ["ignored"] if answer is None else ["heard", *sorted(labels, key=self.labels.index)]
            lines.append(f"{letter} {' '.join(said)}\n")
        return "".join(lines)
