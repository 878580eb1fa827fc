"""Random texts for faults.py: models in odd spellings, models at the limits, and texts that are nearly models."""
import random

NUMBERS = ["1", "2", "3", "10", "007", "1.5", "0.25", "2.50", "12.0", "00.001", "3.000000000000000000000000000"]
LARGE = ["4398046511103", "4398046511103.0", "4398046511102.5", "0.000000000001"]
# Rates that are refused, or can be, by what is wrong with them.
RATES = {
    "number": ["0", "0.0", "000", "4398046511104", "0.00000000000001", "9" * 30, "4398046511103.5"],
    "result": ["1 - 1", "1 - 2", "2 * 4398046511103", "1 / 4398046511103 / 2", "1 / 4398046511101 + 1 / 4398046511103",
               "0.5 - 1 / 2", "4398046511103 + 1", "3 * ( 1 - 1 )", "4398046511103 / 3 * 7", "1 - ( 2 - 1.5 ) * 2"],
    "weight": ["1.5 * infty", "0 * T", "4398046511104 * infty", "0.0 * infty", "2.000001 * T"],
    "passive operand": ["p + 1", "2 * p", "( p )", "1 / ( 2 - p )", "( ( c ) )", "c * c", "1 - 1 + p", "p - 0", "0 * p"],
    "passive further in": ["( infty )", "2 * 3 * T", "1 + infty", "2 * infty * 3", "( 2 * infty )", "infty / 2", "r * infty"],
}
FLAWS = [*RATES, "unknown rate", "rates shuffled", "unknown constant", "twice", "tau in set", "structure", "cycle", "unguarded",
         "mixed", "mixed leaf", "mixed leaf"]
# Choices of an active and a passive rate; the first two are one expression.
MIXED = ["( ( b , 1 ) . P + ( b , T ) . P )", "( ( b , 1.0 ) . P + ( b , infty ) . P )",
         "( ( tau , 2 * T ) . P + ( c , 1 ) . P + ( tau , 3 ) . P )", "( ( c , T ) . P + ( ( b , 1 ) . P + ( c , 2 ) . P ) )"]
# Pieces that are put into a text; those that begin with P are put in place of a constant, those that end with ; after a line.
PIECES = [
    ["&", "_a", "#", "\x80", "\x00", "~", "&&&", "\x7f", "\v"],
    ["1.", "1x", "1.5_", "1" * 31, "0" * 30 + ".5", "1" * 30, "1." + "0" * 29],
    ["n" * 65, "N" * 65, "n" * 64, "N" * 64],
    ["/*", "/*/", "/*//", "/**", "// /*"],
    ["P [", "P [ 3 ]", "P < a > [", "["],
    ["P < *", "P < * > P", "P < /* c */ * >", "( P < // c\n *"],
    ["probe a ;", "probe ;", "probe = 1 ;", "probe P :: a ; probe b ;", "probe ( a | b ) { 1 , 2 } / c * , d + ? 2 : l ;",
     "probe P :: { P > 1 && ! ( Q == 2 || Q <= 3 ) } a : start , b : stop ;", "probe { ! ! P >= 1 } { Q != 0 } probe / probe ;"],
    ["probe P ;", "probe P : a ;", "probe a a ;", "probe a { 1 } ;", "probe { P } a ;", "probe { P > 1 } ;", "probe ( a ;", "probe a ) ;",
     "probe { P < * 1 } a ;", "probe a [ 1 ] ;", "probe tau ;", "probe a : tau ;", "probe a / { b } ;", "probe :: a ;", "probe P = Q ;",
     "probe { P > r } a ;", "probe { P > 1 && } a ;", "probe a , ;", "probe a | | b ;", "probe a * * b ;", "probe { a > 1 } b ;"],
    ["= 1 ;", "p = 1 ;", "T = P ;", "tau = 1 ;", "infty = 1 ;", "Z = P ;", "a ;", "z = z ;", "z = r ; r = 2 ;"],
    ["probe", "( )", "<=", "==", "infty", "T", "tau", "=", "/ { a }", "|| P", "+ P", "< a > P", "( a , 1 ) . P", "{", ")", "(",
     ".", ",", "1", "r", "P", "a", "::", "?", "!", "<", ">", "|", "&&", ":", "// c", ";", "*", "/ {", "< > P", "< tau > P",
     "/ { tau , a }"],
]
BLANKS = [" ", "\n", "\t", "\r\n", "  ", " // c )\n", "//\n", "/* ( */", "/**/", "/***/", "/* \xff\n\n */", " /* // */ ",
          "/*/*/"]
LIMITS = ["rates", "pieces", "constants", "system leaves", "nodes", "activities", "actions", "pieces", "sets", "chain"]
PASSIVE = ("p", "c")


class Maker:
    """Makes the pieces of a random model, with the flaws that it draws here and there."""

    def __init__(self, chance: random.Random):
        self.chance = chance
        self.flaws = chance.sample(FLAWS, chance.choice([0, 0, 0, 1, 1, 2, 2, 3]))
        self.plain = chance.sample(["P", "Q", "R", "Tx", "S_1"], chance.randint(1, 4))
        self.compound = chance.sample(["A", "B", "Cc"], chance.choice([0, 0, 1, 2, 3]))
        self.rates = [name for name in ("p", "c", "r", "s", "a", "probe") if chance.random() < 0.7]
        self.passive = chance.sample(["a", "b", "c", "tau", "probe"], chance.randint(0, 3))

    def odd(self, flaw: str, often: float = 0.3) -> bool:
        return flaw in self.flaws and self.chance.random() < often

    def one_of(self, *lists):
        return self.chance.choice([it for each in lists for it in each])

    def rate(self, names, passive: bool = False, depth: int = 2) -> "list[str]":
        for flaw, rates in RATES.items():
            if self.odd(flaw, 0.1):
                return self.one_of(rates).split()
        if passive:
            weight = self.one_of([[], [], ["2", "*"], ["3.0", "*"], ["007", "*"], ["4398046511103", "*"]])
            named = [[name] for name in names if name in PASSIVE]
            return self.one_of(named) if named and self.chance.random() < 0.3 else weight + [self.one_of(["infty", "T"])]
        active = [name for name in names if name not in PASSIVE] + ["z"] * self.odd("unknown rate")
        if depth == 0 or self.chance.random() < 0.6:
            if active and self.chance.random() < 0.5:
                return [self.one_of(active)]
            return [self.one_of(LARGE if self.chance.random() < 0.005 else NUMBERS)]
        both = [*self.rate(names, False, depth - 1), self.one_of("+*/" * 9 + "-"), *self.rate(names, False, depth - 1)]
        return ["(", *both, ")"] if self.chance.random() < 0.4 else both

    def component(self, depth: int, unguarded) -> "list[str]":
        """A sequential process; the constants that are given may be in it without an activity before them."""
        if self.odd("structure", 0.25):
            inner = ["(", *self.system(2, self.plain), ")"]
            return self.one_of([inner, "( a , 1 ) .".split() + inner], [[name] for name in self.compound])
        unguarded = self.plain if self.odd("unguarded") else unguarded
        kind = self.chance.randrange(5)
        if kind == 0 and unguarded:
            return [self.one_of(unguarded)]
        if kind < 3 and depth > 0:
            left = self.bracketed(self.component(depth - 1, unguarded))
            return left + ["+"] + self.bracketed(self.component(depth - 1, unguarded))
        action = self.one_of(["a", "tau"] if "mixed" in self.flaws else ["a", "b", "c", "d", "tau", "probe", "r"])
        rate = self.rate(self.rates, (action in self.passive) != self.odd("mixed", 0.2))
        if self.odd("mixed leaf"):
            after = self.mixed()
        elif depth > 0 and kind == 3:
            after = self.bracketed(self.component(depth - 1, self.plain))
        else:
            after = [self.constant(self.plain)]
        return ["(", action, ",", *rate, ")", ".", *after]

    def mixed(self) -> "list[str]":
        return self.one_of(MIXED).replace("P", self.plain[0]).split()

    def constant(self, names) -> str:
        return "Z" if self.odd("unknown constant", 0.1) else self.one_of(names)

    def bracketed(self, process) -> "list[str]":
        return ["(", *process, ")"] if self.chance.random() < 0.7 else process

    def words(self) -> "list[str]":
        words = [self.one_of(["a", "b", "c", "d", "probe", "e1"]) for _ in range(self.chance.randrange(4))]
        return " , ".join(words + ["tau"] * self.odd("tau in set") + words[:1] * (self.chance.random() < 0.1)).split()

    def system(self, depth: int, names) -> "list[str]":
        kind = self.chance.randrange(6)
        if self.odd("mixed leaf", 0.1):
            return self.mixed()
        if depth == 0 or kind < 2:
            return self.bracketed(self.component(1, self.plain)) if self.chance.random() < 0.2 else [self.constant(names)]
        left = self.bracketed(self.system(depth - 1, names))
        if kind == 2:
            return [*left, "/", "{", *self.words(), "}"] + ["/", "{", *self.words(), "}"] * self.chance.randrange(2)
        sign = ["||"] if self.chance.random() < 0.4 else ["<", *self.words(), ">"]
        return left + sign + self.bracketed(self.system(depth - 1, names))

    def lines(self) -> "list[list[str]]":
        """Rate lines use those above them, and are anywhere between the others."""
        rates = [[name, "=", *self.rate(self.rates[:i], name in PASSIVE), ";"] for i, name in enumerate(self.rates)]
        lines = [[name, "=", *self.component(2, self.plain[:i]), ";"] for i, name in enumerate(self.plain)]
        for i, name in enumerate(self.compound):
            names = self.plain + (self.compound if self.odd("cycle", 0.7) else self.compound[:i])
            lines.append([name, "=", *self.system(2, names), ";"])
        lines += [self.one_of(lines, rates)] * self.odd("twice", 1)
        if self.odd("rates shuffled", 1):
            self.chance.shuffle(rates)
        places = lines + [None] * len(rates)
        self.chance.shuffle(places)
        return [rates.pop(0) if line is None else line for line in places]


def padded(chance: random.Random, line: "list[str]", count: int) -> "list[str]":
    """A line or a system of so many pieces, where that can be, by operands, hidings, words or brackets that are added."""
    front, inner, back = (line[:2], line[2:-1], line[-1:]) if line[1:2] == ["="] else ([], line, [])
    many = count - len(line)
    is_rate = bool(front) and front[0].islower()
    hidings = 0 if is_rate else many % 2 + 2 * chance.randrange(2)
    many -= 3 * hidings
    inner = inner + ["/", "{", "}"] * hidings
    if is_rate or hidings == 0 and chance.random() < 0.5:
        return front + inner + ["+", "1" if is_rate else "P"] * (many // 2) + back
    if hidings and chance.random() < 0.5:
        return front + inner[:-1] + "a , ".join([""] * (many // 2 + 1)).split() + ["a", "}"] + back
    return front + ["("] * (many // 2) + inner + [")"] * (many // 2) + back


def doubled(count: int, unit: str, sign: str) -> "tuple[list[str], list[str]]":
    """Lines of which each is twice the one before it, and what they and the unit are joined to, which has so many units."""
    lines, joined, last = [], [], unit
    while count:
        joined += [last] if count % 2 else []
        count //= 2
        lines.append(f"D{len(lines)} = {last} {sign} {last} ;")
        last = f"D{len(lines) - 1}"
    return lines[:-1], f" {sign} ".join(joined).split()


def at_limit(chance: random.Random, kind: str, past: int, lines, system):
    """Lines and a system at a limit or a little past it; that is exact where the lines that were there give way to one."""
    if chance.random() < 0.7 or kind == "leaves":
        lines, system = [["P", "=", "(", "a", ",", "1", ")", ".", "P", ";"]], ["P"]
    more = []
    if kind in ("rates", "constants"):
        count = 1023 + past - sum(line[0].islower() == (kind == "rates") for line in lines)
        more = [f"x{i} = 1 ;" if kind == "rates" else f"X{i} = ( a , 1 ) . X{i} ;" for i in range(count)]
    elif kind == "pieces" and chance.random() < 0.5:
        system = padded(chance, system, 2047 + past - chance.choice([1, 1, 2]))
    elif kind == "pieces":
        line = chance.randrange(len(lines))
        lines = lines[:line] + [padded(chance, lines[line], 2047 + past)] + lines[line + 1:]
    elif kind == "system leaves":
        more, system = doubled(chance.choice([254 + past, 254 + past, 10**20]), "P", chance.choice(["||", "< a >"]))
    elif kind == "nodes":
        # Two constants, a cooperation, and the rest hidings; or each second one of two thousands of them.
        count = 1020 + past if chance.random() < 0.5 else chance.choice([1, 340, 1021]) + chance.randrange(3)
        more = [f"N{i} = {'P' if i == 0 else f'N{i - 1}'} {'/ { }' * (count // 4 + (count % 4 if i == 0 else 0))} ;" for i in range(4)]
        system = chance.choice(["P || N3", "N3 || P", "N3 < a > ( P )"]).split()
    elif kind == "activities":
        more, system = doubled(chance.choice([2**14, 2**15, 2**15, 2**70]), "U", "+")
        more += [f"U = ( a , {chance.choice('1T')} ) . U ;"] + ["V = U ;"] * chance.randrange(2)
        lines = [] if len(lines) == 1 else lines
    elif kind == "actions":
        names = [f"x{i}" for i in range(1022 + past)]
        more = [f"Y{i} = P / {{ {' , '.join(names[i::2])} }} ;" for i in range(2)]
    elif kind == "sets":
        sets = [" , ".join(f"x{bit}" for bit in range(11) if number >> bit & 1) for number in range(1023 + past)]
        sets += ["x1 , x0", "x0 , x1 , x0"] * chance.randrange(2)
        more = [f"Y{i} = P {' '.join(f'/ {{ {words} }}' for words in sets[i::16])} ;" for i in range(16)]
    elif kind == "chain":
        last = chance.choice(["( a , 1 ) . P", "P || P", "G0", "G0 || P", "G150 / { }", "( a , 1 ) . G0", "P"])
        more = [f"G{i} = G{i + 1} ;" for i in range(300)] + [f"G300 = {last} ;"]
        chance.shuffle(more)
        system = chance.choice([system, ["G0"], ["G299", "+", "G1"]])
    elif kind == "leaves":
        for number, left in enumerate(range(65534 + past, 0, -340)):
            more.append(f"W{number} = {'( a , T ) . ' * min(left, 340)}W{number} ;")
    added = [line.split() for line in more]
    return (added + lines if chance.random() < 0.5 else lines + added), system


def changed(chance: random.Random, pieces: "list[str]") -> "list[str]":
    """Pieces of which a few are left out, doubled, or put elsewhere or in place of others, mostly of their own kind."""
    for _ in range(chance.choice([0, 0, 0, 0, 0, 1, 1, 2])):
        at, kind = chance.randrange(len(pieces)), chance.randrange(8)
        if kind < 3:
            new = chance.choice(chance.choice(PIECES)).split(" ")
            places = [i for i, piece in enumerate(pieces) if piece[:1].isupper() and new[0] == "P" or piece == new[-1] == ";"]
            at = chance.choice(places or [at])
            pieces = pieces[:at + (new[-1] == ";")] + new + pieces[at + 1:]
        elif kind == 3:
            pieces = pieces[:at] + pieces[at + 1:]
        else:
            case = (pieces[at].isalnum(), pieces[at].islower(), pieces[at].isupper())
            like = [piece for piece in pieces if (piece.isalnum(), piece.islower(), piece.isupper()) == case]
            pieces = pieces[:at] + [chance.choice(pieces if kind == 4 else like)] + pieces[at + (kind != 5):]
    return pieces


def spelled(chance: random.Random, pieces: "list[str]") -> bytes:
    """With blanks and comments between the pieces, or hardly any where none is needed."""
    often = chance.choice([0.02, 0.3, 1])
    text = ""
    for piece in pieces:
        if text[-1:].isalnum() and piece[:1].isalnum() and chance.random() < 0.999 or text[-1:] == "/":
            text += " "
        if chance.random() < often:
            text += chance.choice(BLANKS) if chance.random() < 0.5 else " "
        text += piece
    return (text + chance.choice(["", "\n", " \n\n", "// c", " /* c */"])).encode("latin-1")


def random_text(seed: int) -> bytes:
    chance = random.Random(seed)
    maker = Maker(chance)
    lines, system = maker.lines(), maker.system(3, maker.plain + maker.compound)
    if seed % 400 == 0:
        lines, system = at_limit(chance, "leaves", seed // 400 % 3, lines, system)
    elif seed % 8 == 0:
        lines, system = at_limit(chance, LIMITS[seed // 8 % len(LIMITS)], chance.randrange(3), lines, system)
    pieces = [piece for line in lines for piece in line] + system + chance.choice([[], [";"]])
    if seed % 400 and (seed % 8 or chance.random() < 0.3):
        pieces = changed(chance, pieces)
    text = spelled(chance, pieces)
    return b" " * (2**20 + seed % 3 - 1 - len(text)) + text if seed % 199 == 0 else text
