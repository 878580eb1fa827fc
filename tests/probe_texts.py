#!/usr/bin/env python3
"""A second reader of probe expressions, from the grammar alone, which writes the tables of crates/probe_reading_tests.

It parses by any context-free grammar: tokens can go on where Earley's sets for them aren't empty, and the tree is found by trying
each production on each span. It shares nothing with the program, which reads by recursive descent.
"""

import functools
import sys

SIGNS = ["=", ";", "(", ")", ",", ".", "+", "-", "*", "/", "<", ">", "<=", ">=", "==", "!=", "!", "&&", "||", "|", "{", "}",
         "[", "]", ":", "::", "?"]

# Each kind of token by one example; `end` is the end of the text.
KINDS = ["a", "probe", "tau", "infty", "P", "T", "1", "2.5"] + SIGNS

# The grammar: the words in capitals are kinds of tokens, and the quoted ones signs.
GRAMMAR = {
    "alt": [["seq"], ["alt", "'|", "seq"]],
    "seq": [["guarded"], ["seq", "',", "guarded"]],
    "guarded": [["post"], ["'{", "guard", "'}", "guarded"]],
    "post": [["atom"], ["post", "':", "SMALL"], ["post", "'*"], ["post", "'+"], ["post", "'?"], ["post", "NUMBER"],
             ["post", "'{", "NUMBER", "',", "NUMBER", "'}"], ["post", "'/", "SMALL"]],
    "atom": [["SMALL"], ["'(", "alt", "')"]],
    "guard": [["conj"], ["guard", "'||", "conj"]],
    "conj": [["neg"], ["conj", "'&&", "neg"]],
    "neg": [["'!", "neg"], ["'(", "guard", "')"], ["CAPITAL", "relation", "NUMBER"]],
    "relation": [["'<"], ["'<="], ["'>"], ["'>="], ["'=="], ["'!="]],
}


def kind_of(token):
    if token in SIGNS:
        return "'" + token
    if token in ("tau", "infty", "T"):
        return "WORD"
    if token[0].isdigit():
        return "NUMBER"
    return "CAPITAL" if token[0].isupper() else "SMALL"


def earley(kinds):
    """The sets behind each front that can go on: how many there are, and whether the last front is an expression."""
    sets = [{("alt", tuple(right), 0, 0) for right in GRAMMAR["alt"]}]
    for at in range(len(kinds) + 1):
        work = list(sets[at])
        while work:
            left, right, dot, begun = work.pop()
            if dot == len(right):
                new = [(l, r, d + 1, b) for l, r, d, b in sets[begun] if d < len(r) and r[d] == left]
            elif right[dot] in GRAMMAR:
                new = [(right[dot], tuple(other), 0, at) for other in GRAMMAR[right[dot]]]
                new += [(left, right, dot + 1, begun)] if any(
                    l == right[dot] and d == len(r) and b == at for l, r, d, b in sets[at]) else []
            else:
                new = []
            for item in new:
                if item not in sets[at]:
                    sets[at].add(item)
                    work.append(item)
        if at == len(kinds):
            break
        behind = {(l, r, d + 1, b) for l, r, d, b in sets[at] if d < len(r) and r[d] == kinds[at]}
        if not behind:
            break
        sets.append(behind)
    return len(sets) - 1, any(l == "alt" and d == len(r) and b == 0 for l, r, d, b in sets[-1])


def tree_of(kinds):
    """The tree of an expression, as a line."""

    @functools.lru_cache(maxsize=None)
    def spans(symbol, low, high):
        if symbol not in GRAMMAR:
            return [low] if high == low + 1 and kinds[low] == symbol else []
        found = []
        for right in GRAMMAR[symbol]:
            found += [build(symbol, tuple(right), parts) for parts in rows(tuple(right), low, high)]
        return found

    @functools.lru_cache(maxsize=None)
    def rows(right, low, high):
        if not right:
            return [()] if low == high else []
        found = []
        for cut in range(low + 1, high - len(right) + 2):
            for first in spans(right[0], low, cut) if right[0] not in GRAMMAR or cut < high or len(right) == 1 else []:
                found += [(first,) + rest for rest in rows(right[1:], cut, high)]
        return found

    def build(symbol, right, parts):
        if len(right) == 1:
            return f"{parts[0]}"
        if symbol == "alt":
            return f"(| {parts[0]} {parts[2]})"
        if symbol == "seq":
            return f"(, {parts[0]} {parts[2]})"
        if symbol == "guarded":
            return f"(g {parts[1]} {parts[3]})"
        if symbol == "post":
            sign = right[1]
            if sign == "NUMBER":
                return f"(# {parts[0]} {parts[1]})"
            if sign == "'{":
                return f"({{ {parts[0]} {parts[2]} {parts[4]})"
            return f"({sign[1]} {parts[0]} {parts[2]})" if len(right) == 3 else f"({sign[1]} {parts[0]})"
        if symbol in ("atom", "neg") and right[0] == "'(":
            return parts[1]
        if symbol == "neg" and right[0] == "'!":
            return f"(! {parts[1]})"
        if symbol == "neg":
            return f"[{parts[0]} {parts[1]} {parts[2]}]"
        return f"({'&' if symbol == 'conj' else 'o'} {parts[0]} {parts[2]})"

    trees = spans("alt", 0, len(kinds))
    if len(trees) != 1:
        sys.exit(f"{len(trees)} trees")
    return trees[0]


FRONTS = ["", "a", "probe", "a :", "a : l", "a *", "a +", "a ?", "a 2", "a {", "a { 1", "a { 1 ,", "a { 1 , 2", "a { 1 , 2 }", "a /",
          "a / b", "a : l 2 *", "(", "( a", "( a )", "( a ) {", "a ,", "a , b", "a |", "a | b", "{", "{ !", "{ ! !", "{ (", "{ P", "{ P <",
          "{ P <=", "{ P >", "{ P >=", "{ P ==", "{ P !=", "{ P > 1", "{ ! P > 1", "{ ( P > 1", "{ ( P > 1 )", "{ P > 1 &&",
          "{ P > 1 && Q > 2", "{ P > 1 ||", "{ P > 1 || Q > 2", "{ P > 1 }", "{ P > 1 } a", "{ P > 1 } (", "{ P > 1 } ( a",
          "{ P > 1 } {", "( ( a", "a , {", "a | (", "( a | b"]

LONG = "( { P > 1 && ! ( Q == 2 ) } a : start , ( b | c ) 3 ) { 1 , 2 } / d * , e ?"

TREES = ["a", "probe", "( ( a ) )", "a , b , c", "a , ( b , c )", "a | b | c", "a | ( b | c )", "a , b | c , d", "a | b , c | d",
         "a : l", "a : l : m", "a : l *", "a * : l", "a : l 2", "a 2 : l", "a : l { 1 , 2 }", "a * + ? 2 { 1 , 2 } / b", "a / b / c",
         "a / b : l", "( a , b ) / c", "a , b / c", "a | b * ", "( a | b ) *", "a 2 3", "a { 1 , 2 } { 3 , 4 }", "{ P > 1 } a",
         "{ P > 1 } a , b", "{ P > 1 } ( a , b )", "{ P > 1 } a | b", "{ P > 1 } a *", "{ P > 1 } a { 1 , 2 }", "( { P > 1 } a ) *",
         "a , { P > 1 } b", "{ P > 1 } { Q < 2 } a", "{ P > 1 } ( { Q < 2 } a ) 3", "{ ! P > 1 } a", "{ ! ! P > 1 } a",
         "{ ! ( P > 1 ) } a", "{ P > 1 && Q >= 2 && R < 3 } a", "{ P > 1 && ( Q >= 2 && R < 3 ) } a", "{ P <= 1 || Q == 2 || R != 3 } a",
         "{ P <= 1 || ( Q == 2 || R != 3 ) } a", "{ P > 1 && Q > 2 || R > 3 && S > 4 } a", "{ P > 1 || Q > 2 && R > 3 || S > 4 } a",
         "{ ( P > 1 || Q > 2 ) && R > 3 } a", "{ ! P > 1 && Q > 2 } a", "{ ! ( P > 1 && Q > 2 ) } a", LONG]


def kinds_in(text):
    return [kind_of(token) for token in text.split()]


def answer(text):
    """How many tokens can go on, and the tree where these are an expression."""
    kinds = kinds_in(text)
    count, whole = earley(kinds)
    return f"{count} {tree_of(tuple(kinds[:count])) if whole else 'none'}"


def table(name, comment, lines):
    body = "\n".join(lines)
    return f"/// {comment}\npub const {name}: &str ={' ' if len(lines) > 1 else chr(10) + '    '}\"{body}\";\n"


def main():
    following = []
    for front in FRONTS:
        kinds = kinds_in(front)
        if earley(kinds)[0] != len(kinds):
            sys.exit(f"{front} can't go on")
        after = [kind for kind in KINDS if earley(kinds + [kind_of(kind)])[0] == len(kinds) + 1]
        following.append(f"{front} => {' '.join(after)}")
    tokens = LONG.split()
    fronts = [" ".join(tokens[:count]) for count in range(len(tokens))]
    print("//! Texts of probe expressions, as `tests/probe_texts.py` reads them.\n")
    print(table("KINDS", "Each kind of token but the end of the text.", [" ".join(KINDS)]))
    print(table("FOLLOWING", "Fronts of expressions, and the tokens that can follow each.", following))
    print(table("TREES", "Texts, how many of their tokens can go on, and the tree of these.", [f"{text} => {answer(text)}" for text in TREES]))
    print(table("FRONTS", "Each proper front of a long expression, likewise.", [f"{text} => {answer(text)}" for text in fronts]), end="")


if __name__ == "__main__":
    main()
