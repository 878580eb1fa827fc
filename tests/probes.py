#!/usr/bin/env python3
"""A second program for probe expressions, from the words of the definitions alone.

It works out the positions of an expression with plain sets, and decides what is heard from lists of words, without positions or
states. It checks its own positions against its own words, and writes the tables that the tests of the crates compare with.

Expressions are written in postfix, with a blank between tokens: a1 the action 1, s2 the signal 2, `,` `|` `*` `+` `?`, :3 the label 3,
#5 five times, {1-3 from one to three times, /a1 the reset at the action 1, g0 the guard 0.
"""
import random
import sys

ALL_OPS = ["one", "then", "or", "label", "star", "plus", "maybe", "times", "between", "reset", "guard"]


# ---- expressions: tuples whose first part names the form

def read(text):
    stack = []
    for token in text.split(" "):
        kind, rest = token[0], token[1:]
        if kind in "as":
            stack.append(("one", token))
        elif kind in ",|":
            right = stack.pop()
            left = stack.pop()
            stack.append(("then" if kind == "," else "or", left, right))
        elif kind in "*+?":
            stack.append(({"*": "star", "+": "plus", "?": "maybe"}[kind], stack.pop()))
        elif kind == ":":
            stack.append(("label", stack.pop(), int(rest)))
        elif kind == "#":
            stack.append(("times", stack.pop(), int(rest)))
        elif kind == "{":
            least, most = rest.split("-")
            stack.append(("between", stack.pop(), int(least), int(most)))
        elif kind == "/":
            stack.append(("reset", stack.pop(), rest))
        elif kind == "g":
            stack.append(("guard", stack.pop(), int(rest)))
        else:
            raise ValueError(token)
    (expr,) = stack
    return expr


def write(expr):
    form = expr[0]
    if form == "one":
        return expr[1]
    if form in ("then", "or"):
        return f"{write(expr[1])} {write(expr[2])} {',' if form == 'then' else '|'}"
    end = {"star": "*", "plus": "+", "maybe": "?"}.get(form)
    if form == "label":
        end = f":{expr[2]}"
    elif form == "times":
        end = f"#{expr[2]}"
    elif form == "between":
        end = f"{{{expr[2]}-{expr[3]}"
    elif form == "reset":
        end = f"/{expr[2]}"
    elif form == "guard":
        end = f"g{expr[2]}"
    return f"{write(expr[1])} {end}"


# ---- sizes, by the table

def has_empty(e):
    form = e[0]
    if form == "one":
        return False
    if form == "then":
        return has_empty(e[1]) and has_empty(e[2])
    if form == "or":
        return has_empty(e[1]) or has_empty(e[2])
    if form in ("star", "maybe"):
        return True
    if form in ("times", "between"):
        return e[2] == 0 or has_empty(e[1])
    return has_empty(e[1])


def heads(e):
    form = e[0]
    if form == "one":
        return 1
    if form == "then":
        return heads(e[1]) + (heads(e[2]) if has_empty(e[1]) else 0)
    if form == "or":
        return heads(e[1]) + heads(e[2])
    if form in ("times", "between"):
        n = e[-1]
        return 0 if n == 0 else n * heads(e[1]) if has_empty(e[1]) else heads(e[1])
    if form == "reset":
        return heads(e[1]) + 1
    return heads(e[1])


def size(e):
    form = e[0]
    if form == "one":
        return 1
    if form in ("then", "or"):
        return size(e[1]) + size(e[2])
    if form in ("times", "between"):
        return e[-1] * size(e[1])
    if form == "reset":
        return size(e[1]) + 1
    if form == "guard":
        return size(e[1]) + heads(e[1])
    return size(e[1])


# ---- positions, with sets, by the rules for each form. A position is a list [letter, guards, labels]

class Laid:
    def __init__(self):
        self.each, self.follow = [], []

    def new(self, letter, guards=(), labels=(), follow=()):
        self.each.append([letter, list(guards), set(labels)])
        self.follow.append(set(follow))
        return len(self.each) - 1

    def row(self, a, b):
        for x in a[1]:
            self.follow[x] |= set(b[0])
        return (a[0] + (b[0] if a[2] else []), (a[1] if b[2] else set()) | b[1], a[2] and b[2])

    def lay(self, e):
        """The part's first positions in order, its last ones, and whether it has the empty word."""
        form = e[0]
        nothing = ([], set(), True)
        if form == "one":
            at = self.new(e[1])
            return ([at], {at}, False)
        if form == "then":
            a = self.lay(e[1])
            return self.row(a, self.lay(e[2]))
        if form == "or":
            a = self.lay(e[1])
            b = self.lay(e[2])
            return (a[0] + b[0], a[1] | b[1], a[2] or b[2])
        if form == "label":
            a = self.lay(e[1])
            for x in a[1]:
                self.each[x][2].add(e[2])
            return a
        if form in ("star", "plus"):
            a = self.lay(e[1])
            for x in a[1]:
                self.follow[x] |= set(a[0])
            return (a[0], a[1], a[2] or form == "star")
        if form == "maybe":
            a = self.lay(e[1])
            return (a[0], a[1], True)
        if form in ("times", "between"):
            least, most = e[2], e[-1]
            if size(e[1]) == 0:
                return nothing
            whole = nothing
            for _ in range(least):
                whole = self.row(whole, self.lay(e[1]))
            # the tail: its copies are laid in their order, and it is put together from its end
            parts = [self.lay(e[1]) for _ in range(most - least)]
            tail = nothing
            for part in reversed(parts):
                joined = self.row(part, tail)
                tail = (joined[0], joined[1], True)
            return self.row(whole, tail)
        if form == "reset":
            at = len(self.each)
            a = self.lay(e[1])
            new = self.new(e[2], follow=set(a[0]))
            for x in range(at, new + 1):
                self.follow[x].add(new)
            return (a[0] + [new], a[1] | ({new} if a[2] else set()), a[2])
        if form == "guard":
            a = self.lay(e[1])
            copies, last = [], set(a[1])
            for x in a[0]:
                letter, guards, labels = self.each[x]
                if e[2] not in guards:
                    guards = guards + [e[2]]
                c = self.new(letter, guards, labels, self.follow[x])
                copies.append(c)
                if x in a[1]:
                    last.add(c)
            return (copies, last, a[2])
        raise ValueError(form)


def mask(numbers):
    return sum(1 << n for n in set(numbers))


def positions_text(e):
    if size(e) > 63:
        return "too many"
    laid = Laid()
    first, last, empty = laid.lay(e)
    assert len(laid.each) == size(e) and len(first) == heads(e) and empty == has_empty(e), write(e)
    out = [f"{len(laid.each)} first {mask(first)} last {mask(last)} {'empty' if empty else 'full'}"]
    for (letter, guards, labels), follow in zip(laid.each, laid.follow):
        out.append(f"{letter}[{''.join(f'g{g}' for g in guards)}] labels {mask(labels)} then {mask(follow)}")
    return "; ".join(out)


# ---- words, up to a length, by the table of words. A marked letter is (letter, guards, labels)

def join(left, right, most):
    return {u + v for u in left for v in right if len(u) + len(v) <= most}


def whole_words(e, most):
    form = e[0]
    if form == "one":
        return {((e[1], frozenset(), frozenset()),)}
    if form == "then":
        return join(whole_words(e[1], most), whole_words(e[2], most), most)
    if form == "or":
        return whole_words(e[1], most) | whole_words(e[2], most)
    if form == "label":
        found = set()
        for w in whole_words(e[1], most):
            found.add(w[:-1] + ((w[-1][0], w[-1][1], w[-1][2] | {e[2]}),) if w else w)
        return found
    if form == "guard":
        found = set()
        for w in whole_words(e[1], most):
            found.add(((w[0][0], w[0][1] | {e[2]}, w[0][2]),) + w[1:] if w else w)
        return found
    if form in ("star", "plus", "maybe", "times", "between"):
        a = whole_words(e[1], most)
        least, top = {"star": (0, None), "plus": (1, None), "maybe": (0, 1)}.get(form, (e[2] if len(e) > 2 else 0, e[-1]))
        found, row, n = set(), {()}, 0
        limit = top if top is not None else least + most + 1
        while n <= limit:
            if n >= least:
                found |= row
            row, n = join(row, a, most), n + 1
        return found
    if form == "reset":
        a = whole_words(e[1], most)
        cut = {w[:k] for w in whole_words(e[1], most + rest_needed(e[1])) for k in range(min(len(w), most) + 1)}
        letter = ((e[2], frozenset(), frozenset()),)
        fronts, grown = {()}, None
        while fronts != grown:
            grown = fronts
            fronts = grown | join(join(grown, cut, most - 1), {letter}, most)
        return join(fronts, a, most)
    raise ValueError(form)


def rest_needed(e):
    """So many letters more than a prefix's own are enough to complete it to a word: no more than there are positions."""
    return size(e)


def paths(e, most):
    """What paths through the positions spell, up to a length: whole words, prefixes, and prefixes with a label on their last letter."""
    laid = Laid()
    first, last, empty = laid.lay(e)

    def mark(x):
        return (laid.each[x][0], frozenset(laid.each[x][1]))

    whole = {()} if empty else set()
    cut, labelled = {()}, set()
    row = {((mark(x),), x) for x in first}
    for _ in range(most):
        for w, x in row:
            cut.add(w)
            if x in last:
                whole.add(w)
            for label in laid.each[x][2]:
                labelled.add((w, label))
        row = {(w + (mark(y),), y) for w, x in row for y in laid.follow[x]}
    return whole, cut, labelled


def agree(e, most):
    """The positions spell what the words begin with, up to a length."""
    found = whole_words(e, most + rest_needed(e))
    whole = {tuple((m[0], m[1]) for m in w) for w in found if len(w) <= most}
    cut, labelled = set(), set()
    for w in found:
        for k in range(min(len(w), most) + 1):
            u = tuple((m[0], m[1]) for m in w[:k])
            cut.add(u)
            if k:
                labelled |= {(u, label) for label in w[k - 1][2]}
    return paths(e, most) == (whole, cut, labelled)


# ---- hearing, from the words alone. An event is (letter, counts); the guard g holds where the count g is above 1

class Fitting:
    """Which parts of a list of events fit words of an expression, or prefixes of them."""

    def __init__(self, events):
        self.events = events
        self.known = {}

    def fits(self, e, i):
        """The places at which a word can end that the events from i on fit."""
        key = ("word", e, i)
        if key not in self.known:
            self.known[key] = self.fit(e, i)
        return self.known[key]

    def fit(self, e, i):
        form = e[0]
        if form == "one":
            return {i + 1} if i < len(self.events) and self.events[i][0] == e[1] else set()
        if form == "then":
            return {k for j in self.fits(e[1], i) for k in self.fits(e[2], j)}
        if form == "or":
            return self.fits(e[1], i) | self.fits(e[2], i)
        if form == "label":
            return self.fits(e[1], i)
        if form == "guard":
            return {j for j in self.fits(e[1], i) if j == i or self.events[i][1][e[2]] > 1}
        if form == "reset":
            return {k for j in self.starts(e, i) for k in self.fits(e[1], j)}
        least, most = self.counts(e)
        return {j for n, j in self.rows(e[1], i, most) if n >= least}

    @staticmethod
    def counts(e):
        return {"star": (0, None), "plus": (1, None), "maybe": (0, 1)}.get(e[0]) or (e[2], e[-1])

    def rows(self, part, i, most):
        """How many words in a row can end where; past the number of events and the least count more of them change nothing."""
        limit = most if most is not None else len(self.events) + 1
        found, now = set(), {i}
        for n in range(limit + 1):
            found |= {(n, j) for j in now}
            now = {k for j in now for k in self.fits(part, j)}
        return found

    def starts(self, e, i):
        """Where the last word of a reset can begin: after any number of prefixes, each with the letter after it."""
        found, new = set(), {i}
        while new:
            found |= new
            ends = {k for j in new for k in range(j, len(self.events)) if self.prefix(e[1], j, k) is not None}
            new = {k + 1 for k in ends if self.events[k][0] == e[2]} - found
        return found

    def prefix(self, e, i, n):
        """The labels on the last letter of all prefixes that the events from i to before n fit; None where there is no such prefix."""
        if i == n:
            return frozenset()
        key = ("prefix", e, i, n)
        if key not in self.known:
            self.known[key] = self.find_prefix(e, i, n)
        return self.known[key]

    def find_prefix(self, e, i, n):
        form = e[0]

        def united(answers):
            found = [labels for labels in answers if labels is not None]
            return frozenset().union(*found) if found else None

        if form == "one":
            return frozenset() if n == i + 1 and self.events[i][0] == e[1] else None
        if form == "then":
            return united([self.prefix(e[1], i, n)] + [self.prefix(e[2], j, n) for j in self.fits(e[1], i) if j < n])
        if form == "or":
            return united([self.prefix(e[1], i, n), self.prefix(e[2], i, n)])
        if form == "label":
            labels = self.prefix(e[1], i, n)
            return labels | {e[2]} if n in self.fits(e[1], i) else labels
        if form == "guard":
            return self.prefix(e[1], i, n) if self.events[i][1][e[2]] > 1 else None
        if form == "reset":
            starts = self.starts(e, i)
            ends = [self.prefix(e[1], j, n) for j in starts if j < n]
            return united(ends + ([frozenset()] if n in starts else []))
        most = self.counts(e)[1]
        return united([self.prefix(e[1], j, n) for k, j in self.rows(e[1], i, most) if j < n and (most is None or k < most)])


def heard(e, events):
    """What a probe of this expression answers to the events: None, or the labels that it sends."""
    kept, answers = [], []
    for event in events:
        labels = Fitting(kept + [event]).prefix(("star", e), 0, len(kept) + 1)
        answers.append(labels)
        if labels is not None:
            kept.append(event)
    return answers


def hearing_text(e, events):
    heard_text = " ".join(f"{letter}:{''.join(str(count) for count in counts)}" for letter, counts in events)
    answers = " ".join("-" if labels is None else f"+{mask(labels)}" for labels in heard(e, events))
    return f"{write(e)} = {heard_text} = {answers}"


# ---- the tables

def forms_over(inner, other):
    """Each form over this part; those of two parts with the other one on either side."""
    return [
        ("then", inner, other), ("then", other, inner), ("or", inner, other), ("or", other, inner), ("label", inner, 3),
        ("star", inner), ("plus", inner), ("maybe", inner), ("times", inner, 2), ("between", inner, 1, 3), ("reset", inner, "s1"),
        ("guard", inner, 1),
    ]


def forms():
    """Each form over each other one."""
    a, b = ("one", "a1"), ("one", "a2")
    shallow = [a] + forms_over(a, b)
    return [write(e) for inner in shallow for e in forms_over(inner, ("one", "a3"))]


EDGES = [
    "a1 :0 a2 :1 ,", "a1 a1 a2 :1 , |", "a1 * g0", "a1 {0-0", "a1 {0-3", "a1 {3-3", "a1 #0", "a1 ? #3", "a1 ? {0-2",
    "a1 #63", "a1 #62", "a1 #63 a2 ,", "a1 {0-63", "a1 {63-63 g0", "a1 {0-62 /a2", "a1 #21 #3", "a1 #8 #8", "a1 ? #31 g0", "a1 ? #32 g0",
    "a1 {0-0 #63 #63 #63 #63", "a1 #0 #63 #63 #63 #63 #63", "a1 #63 #63 #63 #63", "a1 {0-0 {0-63 #63", "a1 {0-0 /a2", "a1 {0-0 *",
    "a1 {0-0 g0 :1", "a1 g1 g2", "a1 g1 g1", "a1 g1 g2 g1", "a1 a2 | g0 g1", "a1 g0 a1 , * g1", "a1 * :5", "a1 /a2 :5", "a1 ? /a2 :5",
    "a1 /a1", "a1 /a2 /s3", "a1 g0 /a2", "a1 /a2 g0", "a1 a2 , {2-4", "a1 a2 ? , {0-2 a3 ,", "a1 :63 :0", "a1 :2 a2 | :4 *",
    "a1 + + :1 a2 ,", "a1 g0 a2 :1 g1 | *",
]


def table(texts):
    return "".join(f"{text} = {positions_text(read(text))}\n" for text in texts)


def source():
    """The table of the test crate, as a source file."""
    return (
        "//! Expressions and their positions, as `tests/probes.py` works them out.\n\n"
        "/// Each form over each other one.\n"
        f'pub const FORMS: &str = "{table(forms())}";\n\n'
        "/// Guards, labels and repeats at their ends, and sizes about the limit.\n"
        f'pub const EDGES: &str =\n    "{table(EDGES)}";\n'
    )


def hearing_source(number):
    """One of the tables of what is heard, as a source file; with several cases a line."""
    found = hearing_cases(number, 600, 1, 63)
    lines = [" ; ".join(found[k : k + 4]) for k in range(0, len(found), 4)]
    return (
        "//! Expressions, events and what is heard, as `tests/probes.py` decides it from the words alone.\n\n"
        "/// The cases: an expression, events with their two counts, and for each event `-`, or `+` and the labels.\n"
        f'pub const HEARD: &str =\n    "{chr(10).join(lines)}\n";\n'
    )


def random_expr(rng, depth):
    if depth == 0 or rng.random() < 0.2:
        return ("one", rng.choice(["a1", "a2", "s1"]))
    form = rng.choice(ALL_OPS[1:])
    inner = random_expr(rng, depth - 1)
    if form in ("then", "or"):
        return (form, inner, random_expr(rng, depth - 1))
    if form == "label":
        return (form, inner, rng.randrange(3))
    if form == "times":
        return (form, inner, rng.randrange(3))
    if form == "between":
        least = rng.randrange(3)
        return (form, inner, least, least + rng.randrange(2))
    if form == "reset":
        return (form, inner, rng.choice(["a1", "a2", "s1"]))
    if form == "guard":
        return (form, inner, rng.randrange(2))
    return (form, inner)


def hearing_cases(seed, count, least, most):
    """Random expressions with events that often fit, and what is heard."""
    rng = random.Random(seed)
    found = []
    while len(found) < count:
        e = random_expr(rng, rng.choice([2, 3, 4]))
        if not least <= size(e) <= most or guards_in(e) > 2:
            continue
        events = []
        for _ in range(rng.randrange(4, 8)):
            options = [(letter, counts) for letter in ("a1", "a2", "s1", "a3") for counts in ((1, 1), (1, 2), (2, 1), (2, 2))]
            kept = kept_of(e, events)
            fitting = [event for event in options if Fitting(kept + [event]).prefix(("star", e), 0, len(kept) + 1) is not None]
            events.append(rng.choice(fitting if fitting and rng.random() < 0.7 else options))
        found.append(hearing_text(e, events))
    return found


def kept_of(e, events):
    return [event for event, labels in zip(events, heard(e, events)) if labels is not None]


def guards_in(e):
    return len({part[2] for part in parts(e) if part[0] == "guard"})


def parts(e):
    yield e
    for part in e[1:]:
        if isinstance(part, tuple):
            yield from parts(part)


def check_itself(count):
    rng = random.Random(1)
    tried = 0
    while tried < count:
        e = random_expr(rng, 3)
        if size(e) > 5:
            continue
        tried += 1
        if not agree(e, 3):
            print(f"positions and words differ: {write(e)}", file=sys.stderr)
            return False
    return True


if __name__ == "__main__":
    if sys.argv[1:] == ["positions"]:
        sys.stdout.write(source())
    elif sys.argv[1:2] == ["hearing"]:
        sys.stdout.write(hearing_source(int(sys.argv[2])))
    elif sys.argv[1:2] == ["agree"]:
        sys.exit(0 if check_itself(int(sys.argv[2])) else 1)
    else:
        sys.exit("probes.py positions | hearing NUMBER | agree COUNT")
