#!/usr/bin/env python3
"""An independent model of names, rule texts, sheets, verdicts and automata, written from docs/ alone.

    model.py table               the examples of crates/checks, one to a line (its file stdin)
    model.py answers             what must come of each (its file stdout), from standard input
    model.py agreement-table     the rules and rounds of crates/agreement (its file stdin)
    model.py agreement-answers   what each is judged, straight, bare and turned (its file stdout), from standard input
    model.py states              the reachable states of each rule NAMES:TEXT on standard input

It shares nothing with the library, so that the stored answers are a second opinion.
"""
import sys


class Refused(Exception):
    def __init__(self, number, layer, place=0):
        self.said = f"refused {number} {layer} place {place}"


LOWER = set(b"abcdefghijklmnopqrstuvwxyz")
WORD = LOWER | set(b"0123456789")


def declare(words):
    names = []
    for at, word in enumerate(words):
        if at == 6:
            raise Refused(3, "names", 6)
        good = 1 <= len(word) <= 8 and word[0] in LOWER and all(b in WORD for b in word)
        if not good or word in (b"tt", b"ff"):
            raise Refused(1, "names", at)
        if word in names:
            raise Refused(2, "names", at)
        names.append(word)
    return names


def marks(text):
    """(place, mark) for each mark, then the text's end."""
    out, i = [], 0
    while i < len(text):
        j = i + 1
        if text[i] in LOWER:
            while j < len(text) and text[j] in WORD:
                j += 1
        if text[i] != 32:
            out.append((i, text[i:j]))
        i = j
    return out + [(len(text), None)]


def read(names, text):
    if len(text) > 1024:
        raise Refused(4, "rule")
    row, pos = marks(text), 0
    found = []

    def number(node):
        if node not in found:
            found.append(node)
        return node

    def take():
        nonlocal pos
        pos += 1
        return row[pos - 1]

    def name(place, word):
        if word is None or word[0] not in LOWER or word in (b"tt", b"ff"):
            raise Refused(5, "rule", place)
        if word not in names:
            raise Refused(6, "rule", place)
        return word

    def rule(depth):
        place, mark = take()
        can_begin = mark is not None and (mark[0] in LOWER or mark in (b"!", b"F", b"G", b"("))
        if not can_begin:
            raise Refused(5, "rule", place)
        if depth > 24:
            raise Refused(7, "rule", place)
        if mark in (b"tt", b"ff"):
            return number((mark,))
        if mark == b"!":
            return number((b"!", name(*take())))
        if mark in (b"F", b"G"):
            return number((mark, rule(depth + 1)))
        if mark == b"(":
            left = rule(depth + 1)
            place, joint = take()
            if joint not in (b"&", b"|"):
                raise Refused(5, "rule", place)
            right = rule(depth + 1)
            place, close = take()
            if close != b")":
                raise Refused(5, "rule", place)
            return number((joint, left, right))
        return number((b"name", name(place, mark)))

    whole = rule(1)
    place, mark = take()
    if mark is not None:
        raise Refused(5, "rule", place)
    if len(found) > 32:
        raise Refused(8, "rule")
    if sum(node[0] in (b"F", b"G") for node in found) > 8:
        raise Refused(9, "rule")
    return whole


def write(node):
    kind = node[0]
    if kind in (b"tt", b"ff"):
        return kind
    if kind == b"name":
        return node[1]
    if kind == b"!":
        return b"!" + node[1]
    if kind in (b"F", b"G"):
        return kind + write(node[1])
    return b"(" + write(node[1]) + kind + write(node[2]) + b")"


def truth(node, names, lead, cycle):
    """Whether the formula holds, at each position of the lead-in and of the cycle."""
    letters, start = lead + cycle, len(lead)
    places = range(len(letters))
    kind = node[0]
    if kind in (b"tt", b"ff"):
        return [kind == b"tt" for _ in places]
    if kind in (b"name", b"!"):
        k = names.index(node[1])
        return [(letters[i] >> k & 1 == 1) == (kind == b"name") for i in places]
    if kind in (b"&", b"|"):
        left, right = (truth(part, names, lead, cycle) for part in node[1:])
        return [(left[i] and right[i]) if kind == b"&" else (left[i] or right[i]) for i in places]
    part = truth(node[1], names, lead, cycle)
    test = any if kind == b"F" else all
    return [test(part[min(i, start) :]) for i in places]


def check_round(names, lead, cycle):
    if len(lead) + len(cycle) > 1024:
        raise Refused(11, "round")
    if not cycle:
        raise Refused(10, "round")
    for place, letter in enumerate(lead + cycle):
        if letter >> len(names):
            raise Refused(12, "round", place)


def judge(names, rule, lead, cycle, row):
    check_round(names, lead, cycle)
    if row < len(lead) + len(cycle):
        raise Refused(20, "round")
    return "yes" if truth(rule, names, lead, cycle)[0] else "no"


def numbered(node):
    """The distinct subformulae in the order of their numbers: inner before outer, left before right."""
    out = []
    for part in node[1:]:
        if isinstance(part, tuple):
            out += [q for q in numbered(part) if q not in out]
    return out + [node]


class Automaton:
    """The automaton of a rule. A forecast is a set of temporal subformulae, each named by its bit.

    A state is None, which is the start, or an obligation (a set of forecasts) with the last letter.
    """

    start = None

    def __init__(self, names, rule):
        self.names, self.rule = names, rule
        self.temporal = [q for q in numbered(rule) if q[0] in (b"F", b"G")]
        self.letters = range(2 ** len(names))
        self.forecasts = [self.forecast(number) for number in range(2 ** len(self.temporal))]
        self.recasts = {(J, a): self.recast(J, a) for J in self.forecasts for a in self.letters}
        self.possible = set(self.recasts.values())
        self.pairs = [I for I in self.forecasts if self.steady(I)]
        self.visited = [self.visit_sets(I) for I in self.pairs]

    def forecast(self, number):
        return frozenset(k for k in range(len(self.temporal)) if number >> k & 1)

    def holds(self, node, a, J):
        """Whether the formula holds at (a, J)."""
        kind = node[0]
        if kind in (b"tt", b"ff"):
            return kind == b"tt"
        if kind in (b"name", b"!"):
            return (a >> self.names.index(node[1]) & 1 == 1) == (kind == b"name")
        if kind == b"&":
            return self.holds(node[1], a, J) and self.holds(node[2], a, J)
        if kind == b"|":
            return self.holds(node[1], a, J) or self.holds(node[2], a, J)
        return self.temporal.index(node) in J

    def recast(self, J, a):
        """What is true here, with the letter a, if J is true at the next position."""
        K = set()
        for k, (kind, q) in enumerate(self.temporal):
            here = self.holds(q, a, K)
            if (here or k in J) if kind == b"F" else (here and k in J):
                K.add(k)
        return frozenset(K)

    def within(self, kind, J):
        """The q of each `F q` (or `G q`) in J, in bit order."""
        return [q for k, (mark, q) in enumerate(self.temporal) if mark == kind and k in J]

    def without(self, kind, J):
        """The q of each `F q` (or `G q`) outside J, in bit order."""
        return [q for k, (mark, q) in enumerate(self.temporal) if mark == kind and k not in J]

    def steady(self, I):
        def allowed(a):
            kept = all(self.holds(q, a, I) for q in self.within(b"G", I))
            return kept and not any(self.holds(q, a, I) for q in self.without(b"F", I))

        some = [a for a in self.letters if allowed(a)]
        met = all(any(self.holds(q, a, I) for a in some) for q in self.within(b"F", I))
        broken = all(any(not self.holds(q, a, I) for a in some) for q in self.without(b"G", I))
        return some != [] and met and broken

    def visit_sets(self, I):
        """The q of each `F q` in I, but for those that every letter meets."""
        return [q for q in self.within(b"F", I) if not all(self.holds(q, a, I) for a in self.letters)]

    def next(self, state, letter):
        a = letter % len(self.letters)
        if state is None:
            return frozenset(J for J in self.possible if self.holds(self.rule, a, self.recasts[J, a])), a
        return frozenset(J for J in self.possible if self.recasts[J, a] in state[0]), a

    def avoids(self, pair, state):
        if state is None:
            return False
        I, (obligation, a) = self.pairs[pair], state
        return I not in obligation or not all(self.holds(q, a, I) for q in self.within(b"G", I))

    def sets(self, pair):
        return len(self.visited[pair])

    def visits(self, pair, j, state):
        return state is not None and self.holds(self.visited[pair][j], state[1], self.pairs[pair])


class Turned:
    """An acceptor with a turn for each pair, which names the visit set waited for. A state has the turns beside it."""

    def __init__(self, below):
        if len(below.pairs) > 16:
            raise Refused(13, "turn")
        self.below, self.names, self.letters, self.pairs = below, below.names, below.letters, below.pairs
        self.start = below.start, (0,) * len(below.pairs)

    def next(self, state, letter):
        left, turns = state
        moved = list(turns)
        for pair, turn in enumerate(turns):
            if turn < self.below.sets(pair) and self.below.visits(pair, turn, left):
                moved[pair] = (turn + 1) % self.below.sets(pair)
        return self.below.next(left, letter), tuple(moved)

    def avoids(self, pair, state):
        return self.below.avoids(pair, state[0])

    def sets(self, pair):
        return 1

    def visits(self, pair, j, state):
        """The last visit set of the pair below, while the turn is there; every state if it has none."""
        last = self.below.sets(pair) - 1
        return last < 0 or (state[1][pair] == last and self.below.visits(pair, last, state[0]))


def walk(acceptor, state, letters):
    """The states after each of the letters."""
    met = []
    for letter in letters:
        state = acceptor.next(state, letter)
        met.append(state)
    return met


def favours(acceptor, pair, met):
    """Whether the pair accepts a run that meets just these states infinitely often."""
    visited = all(any(acceptor.visits(pair, j, s) for s in met) for j in range(acceptor.sets(pair)))
    return visited and not any(acceptor.avoids(pair, s) for s in met)


def judge_run(acceptor, lead, cycle, trail):
    """The first accepting pair or None, and the passes."""
    check_round(acceptor.names, lead, cycle)
    kept, parts = [([acceptor.start] + walk(acceptor, acceptor.start, lead))[-1]], []
    while kept[-1] not in kept[:-1]:
        if len(kept) > trail:
            raise Refused(19, "judge")
        parts.append(walk(acceptor, kept[-1], cycle))
        kept.append(parts[-1][-1])
    met = {state for part in parts[kept.index(kept[-1]) :] for state in part}
    first = [pair for pair in range(len(acceptor.pairs)) if favours(acceptor, pair, met)][:1]
    return (first[0] if first else None), len(parts)


def reachable(acceptor):
    """How many states some letters, or none, lead to."""
    found, waiting = {acceptor.start}, [acceptor.start]
    while waiting:
        state = waiting.pop()
        for letter in acceptor.letters:
            after = acceptor.next(state, letter)
            if after not in found:
                found.add(after)
                waiting.append(after)
    return len(found)


def sheet(data):
    if len(data) > 8192:
        raise Refused(21, "sheet", 8192)
    names, text, i, due = [], None, 0, (1, 2)
    while i < len(data):
        end = i + 3 + int.from_bytes(data[i + 1 : i + 3], "big") if i + 3 <= len(data) else len(data) + 1
        if end > len(data) or data[i] not in due:
            raise Refused(21, "sheet", i)
        if data[i] == 1:
            names.append(data[i + 3 : end])
        elif data[i] == 2:
            text, due = data[i + 3 : end], (3,)
        else:
            due = (4,) if data[i] == 3 else (3,)
        i = end
    if due != (3,):
        raise Refused(21, "sheet", len(data))
    return read(declare(names), text)


def field(tag, body):
    return bytes([tag]) + len(body).to_bytes(2, "big") + body


def make(names, rule, rounds=()):
    out = b"".join(field(1, n) for n in names) + field(2, rule)
    return out + b"".join(field(3, bytes(l)) + field(4, bytes(c)) for l, c in rounds)


def nested(start, name, levels):
    """start, then that many brackets (..&name) around it"""
    return b"(" * levels + start + (b"&" + name + b")") * levels


def table():
    out = []
    for words in ("", "a", "oil", "abcdefgh", "a1,b2,c3,d4,e5,f6", "Wash", "oil,oil", "a,b,c,d,e,f,g", "abcdefghi", "1a",
                  "tt", "ff", "tta", "a_b", "a,,b", "a,b,a,D,e,f,g", "a,b,c,d,e,f,Wash", "ab,Ba,ab"):
        out.append(f"names {words}".encode())
    full = b"(" + nested(b"a", b"b", 15) + b"|" + nested(b"a", b"c", 15) + b")"
    most = nested(b"a", b"b", 23)
    texts = [
        b"tt", b"ff", b"a", b"!a", b"Fa", b"Ga", b"(a&b)", b"(a|b)", b"(Fa|Gb)", b"GFa", b"(GFa&GF!a)", b"GFGFGFGFa", b"GFGFGFGFGa",
        b"!tt", b"!ff", b"!!a", b"!(a&b)", b"!Fa", b"! a", b"(a&b", b"(a&b  ", b"", b" ", b"a b", b"a)", b"(a)", b"(a&b)c", b"()", b"(a&)",
        b"(&a)", b"(a&b&c)", b"a&b", b"&", b")", b"F", b"G", b"!", b"(", b"Fab", b"Fx", b"(x&", b"(a&x)", b"!x", b"xF", b"x)", b"abcdefghi",
        b"Fabcdefghij", b"t t", b"tta", b"tt1", b"Ftt", b"(tt|ff)", b"1", b"a1", b"A", b"aF", b"a%", b"%", b"F%", b" ( a | b ) ", b"F G F a",
        b"  ! a", b"( G !a & F ( b | tt ) )", b"((a&b)|(a&b))", b"(a&a)", b"F" * 23 + b"a", b"F" * 24 + b"a", b"F" * 24, b"F" * 24 + b")",
        b"F" * 24 + b"x", b"F" * 25, b"G" * 24 + b"!a", b"G" * 23 + b"!a", b"(" * 24, b"(" * 25, b"(" * 23 + b"a", b"(x|" + b"F" * 24 + b"a)",
        nested(b"a", b"b", 3), most, nested(b"a", b"b", 24), full, b"(" + full + b"|", b"(" + full + b"|x)", b"(" + full + b"|F" * 23 + b"a",
        b"(" + nested(b"a", b"b", 14) + b"|" + nested(b"a", b"c", 14) + b")", b"((FFFFa&FFFFb)&Fc)", b"((FFFFa&FFFFb)&FFFFa)",
        b" " * 1023 + b"a", b" " * 1024, b" " * 1025, b" " * 1024 + b"a", b" " * 1020 + b"(a&b", b"\t", b"a\r ", b"\xc3\xa9",
    ]
    out += [b"rule a,b,c:" + t for t in texts]
    out += [b"rule :" + t for t in (b"tt", b"a", b"!", b"(tt&ff)", b"F")]
    out += [b"rule organic,wash:G(!organic|Fwash)", b"rule a1,a12,a2:((a1&a12)|Fa2)", b"rule tta,fft:(tta&!fft)", b"rule a,b:Gab"]
    out += [f"room {n} a,b:(Fa|Gb)".encode() for n in (0, 6, 7, 8)]
    out += rounds()
    first = make([b"a", b"b"], b"(Fa|Gb)", [([], [2]), ([0], [2])])
    sheets = [
        first, b"", make([], b"tt"), make([], b"a"), field(1, b"a"), field(1, b"a") + field(3, b""), field(2, b"tt") + field(1, b"a"),
        field(2, b"tt") + field(2, b"ff"), field(2, b"tt") + field(3, b""), field(2, b"tt") + field(4, b"\x01"), field(2, b"tt") + field(3, b"") + field(3, b""),
        field(2, b"tt") + b"\x03\x00", field(2, b"tt") + b"\x03", field(2, b"tt") + b"\x07\x00\x00", b"\x02\x00\x09tt", b"\x02\x01\x00tt",
        make([b"Wash"], b"tt"), make([b"oil", b"oil"], b"Fx"), make([b"a", b"b", b"c", b"d", b"e", b"f", b"g"], b"tt"),
        make([b"a"], b"(a&", [([], [])]), make([b"a"], b"Fa", [([9], [])]), make([b"Wash"], b"(") + b"\x05", make([b"a"], b" " * 1025),
        make([b"a"], b"Fa", [([0] * 1024, [1])]), make([], b"tt", [([0] * 4088, [0] * 4092)]), make([], b"tt", [([0] * 4088, [0] * 4093)]),
        b"\x09" * 8193, make([b"organic", b"wash"], b"G(!organic|Fwash)", [([], [1, 2])]), make([b""], b"tt"), make([b"a"], b""),
    ]
    out += [b"sheet " + s.hex().encode() for s in sheets]
    out += [b"cuts " + first.hex().encode(), b"flips " + first.hex().encode()]
    return b"\n".join(out) + b"\n"


def rounds():
    def line(row, lead, cycle, rule):
        return f"round {row} {bytes(lead).hex() or '-'} {bytes(cycle).hex() or '-'} {rule}".encode()

    out = [
        line(1, [], [2], "a,b:(Fa|Gb)"), line(2, [0], [2], "a,b:(Fa|Gb)"), line(2, [], [1, 0], "a:FGa"), line(2, [], [1, 0], "a:GFa"),
        line(2, [], [1, 2], "organic,wash:G(!organic|Fwash)"), line(2, [], [1, 0], "organic,wash:G(!organic|Fwash)"),
        line(3, [2], [1, 0], "organic,wash:G(!organic|Fwash)"), line(3, [1, 2], [0], "organic,wash:G(!organic|Fwash)"),
        line(1, [], [0], ":tt"), line(1, [], [0], ":ff"), line(1, [], [1], ":tt"), line(1, [], [0], ":GFtt"), line(1, [], [0], ":FGff"),
        line(1024, [], [0] * 1023 + [1], "a:Fa"), line(1024, [], [1] * 1024, "a:Ga"), line(1024, [0] * 1023, [1], "a:FGa"),
        line(1024, [1] * 1023, [0], "a:(a&FG!a)"), line(1025, [0] * 1024, [1], "a:Fa"), line(1024, [0] * 1024, [], "a:Fa"),
        line(1025, [0] * 1025, [], "a:Fa"), line(9, [1], [], "a:Fa"), line(9, [], [], "a:Fa"), line(9, [], [8], "a,b,c:Fa"),
        line(9, [1, 8], [16], "a,b,c:Fa"), line(9, [1, 7], [16], "a,b,c:Fa"), line(9, [9], [], "a,b,c:Fa"), line(0, [9], [0], "a,b,c:Fa"),
        line(2, [1], [0, 1], "a:Fa"), line(3, [1], [0, 1], "a:Fa"), line(0, [], [1], "a:Fa"), line(1, [], [63], "a,b,c,d,e,f:Gf"),
        line(1, [], [64], "a,b,c,d,e,f:Gf"), line(1, [], [255], "a,b,c,d,e,f:Gf"),
    ]
    rules = ["a", "!a", "Fa", "Ga", "FGa", "GFa", "(Fa|Gb)", "(GFa&GF!a)", "G(a|Fb)", "F(a&Gb)", "(FGa|GFb)", "(a&F(b&F(!a&Fb)))",
             "G(!a|F(b&!a))", "((FGa|GFb)&(FG!b|GFa))", "GFGFGFGFa", "F(G!a|(b&Fa))", "(tt&(ff|!b))"]
    letters, seed = [], 1
    for k in range(40):
        lead, cycle = [], []
        for part, most in ((lead, 4), (cycle, 4)):
            seed = seed * 1103515245 + 12345 & 0x7FFFFFFF
            size = (seed >> 16) % most + (part is cycle)
            for _ in range(size):
                seed = seed * 1103515245 + 12345 & 0x7FFFFFFF
                part.append(seed >> 16 & 3)
        letters.append((lead, cycle))
    return out + [line(8, lead, cycle, f"a,b:{rule}") for rule in rules for lead, cycle in letters]


def answer(make_it):
    try:
        return make_it()
    except Refused as refused:
        return refused.said


def answers(line):
    kind, rest = line.split(b" ", 1)
    room = 1024
    if kind == b"names":
        yield answer(lambda: f"names {len(declare(rest.split(b',')) if rest else [])}")
    elif kind in (b"rule", b"room"):
        if kind == b"room":
            number, rest = rest.split(b" ", 1)
            room = int(number)
        words, text = rest.split(b":", 1)

        def one():
            written = write(read(declare(words.split(b",")) if words else [], text))
            if len(written) > room:
                raise Refused(20, "rule")
            return "rule " + written.decode()

        yield answer(one)
    elif kind == b"round":
        row, lead, cycle, rest = rest.split(b" ", 3)
        words, text = rest.split(b":", 1)
        lead, cycle = (bytes.fromhex(part.decode()) if part != b"-" else b"" for part in (lead, cycle))

        def one():
            names = declare(words.split(b",")) if words else []
            return judge(names, read(names, text), lead, cycle, int(row))

        yield answer(one)
    else:
        data = bytes.fromhex(rest.decode())
        cases = {b"sheet": [data], b"cuts": [data[:n] for n in range(len(data))]}
        cases[b"flips"] = [data[:i] + bytes([data[i] ^ 1 << k]) + data[i + 1 :] for i in range(len(data)) for k in range(8)]
        for case in cases[kind]:
            yield answer(lambda: "rule " + write(sheet(case)).decode())


# each part narrower than the one before: nine pairs of 0 to 8 visit sets, whose turns take 840 steps to come round
LADDER = "a,b,c,d,e:(F(((a|b)|c)|d)&(F((a|b)|c)&(F(a|b)&(Fa&(F(a&b)&(F((a&b)&c)&(F(((a&b)&c)&d)&F((((a&b)&c)&d)&e))))))))"
RULES = [
    ":tt", ":ff", ":GFtt", ":(FGff|Gtt)", "a:a", "a:!a", "a:Fa", "a:Ga", "a:GFa", "a:FGa", "a:FGFa", "a:(GFa&GF!a)", "a:GFGFGFGFa",
    "a,b:(Fa|Gb)", "a,b:(Fa&Gb)", "a,b: G ( ! a | F b )", "a,b:F(a&Gb)", "a,b:(FGa|GFb)", "a,b:(GFa&FGb)", "a,b:(a&F(b&F(!a&Fb)))",
    "a,b:G(!a|F(b&!a))", "a,b:((FGa|GFb)&(FG!b|GFa))", "a,b:F(G!a|(b&Fa))", "a,b:(Ga|F(b&Ga))", "a,b:G(F(a&Fb)|G!a)", "a,b:((Fa&Gb)|(Fa&Gb))",
    "organic,wash:G(!organic|Fwash)", "a,b,c:(GFa&(GFb&GFc))", "a,b,c:((GFa&GFb)|FGc)", "a,b,c:G(!a|F(b&Fc))", "a,b,c:(G(!a|Fb)&G(!b|Fc))",
    "a,b,c:((FGa|GFb)&FGc)", "a,b,c:F((a&Gb)|(c&GF!a))", "a,b,c:((Fa|Gb)&(Fc|Ga))", "a,b,c,d:((FGa|GFb)&(FGc|GFd))", "a,b,c,d:G((!a|Fb)&(!c|Fd))",
    "a,b,c,d:((Fa&Fb)&(Gc|Gd))", "a,b,c,d:(GFa&(GFb&(GFc&GFd)))", "a,b,c,d:F(((F!d|G!b)|Ga)|(F(a&!c)|a))", "a,b,c,d:((Fa&Gb)|((Fc&Gd)&Fb))",
    "a,b,c:((Fa|Ga)&((Fb|Gb)&Fc))", LADDER,
    "oil,wash,organic,grain,sieve,press:(G(!organic|Fwash)&(GFgrain|FG(oil&press)))", "a,b,c,d,e,f:((Fa|Gb)&((Fc|Gd)&(Fe|Gf)))",
]
# rounds beside the drawn ones: worked by hand, refused, or long in coming round
WORKED = {
    "a,b:(Fa|Gb)": [([], [2]), ([0], [2])],
    "a:(GFa&GF!a)": [([], [1, 0]), ([], [1])],
    "organic,wash:G(!organic|Fwash)": [([], [1, 2]), ([], [1, 0]), ([2], [1, 0]), ([1, 2], [0])],
    ":tt": [([], []), ([], [1])],
    "a:Fa": [([0] * 1024, [1]), ([2], [])],
    "a,b,c:(GFa&(GFb&GFc))": [([], [7]), ([7], [7, 7]), ([1], [6, 9])],
    "a,b:(GFa&FGb)": [([0], [3, 2])],
    "a,b,c,d:((Fa&Fb)&(Gc|Gd))": [([5], [6]), ([3], [12])],
    "a,b,c,d:(GFa&(GFb&(GFc&GFd)))": [([], [15]), ([], [15, 15, 15]), ([0], [1, 2, 4, 8])],
    LADDER: [([], [31]), ([], [31] * 3), ([1], [31] * 4), ([], [31] * 8), ([], [7])],
    "a,b,c,d,e,f:((Fa|Gb)&((Fc|Gd)&(Fe|Gf)))": [([], []), ([63, 64], [0]), ([0], [0]), ([42], [42])],
    "a,b,c,d:F(((F!d|G!b)|Ga)|(F(a&!c)|a))": [([], [10, 8])],
}


def chance(seed):
    """Numbers below a given one, the same ones on every run."""

    def below(most):
        nonlocal seed
        seed = seed * 1103515245 + 12345 & 0x7FFFFFFF
        return (seed >> 16) % most

    return below


def named_rule(rest):
    """The names and the rule of NAMES:TEXT."""
    words, text = rest.split(b":", 1)
    names = declare(words.split(b",")) if words else []
    return names, read(names, text)


def draw(below, letters):
    """A round: any letters in the lead-in, and in the cycle few different ones."""
    few = [below(letters) for _ in range(2 + below(2))]
    return [below(letters) for _ in range(below(7))], [few[below(len(few))] for _ in range(1 + below(8))]


def draw_judged(below, names, rule, wanted):
    """A round with the wanted verdict, or any if none is soon found."""
    for _ in range(100):
        lead, cycle = draw(below, 2 ** len(names))
        if truth(rule, names, lead, cycle)[0] == wanted:
            break
    return lead, cycle


def agreement_table():
    out, below = [], chance(7)
    for line in RULES:
        names, rule = named_rule(line.encode())
        drawn = [draw_judged(below, names, rule, k % 2 == 0) for k in range(10)]
        out.append("rule " + line)
        out += [f"round {bytes(lead).hex()}:{bytes(cycle).hex()}" for lead, cycle in WORKED.get(line, []) + drawn]
    return "\n".join(out) + "\n"


def verdicts(automaton, lead, cycle):
    """The straight verdict, the bare and the turned one, each as it is told."""

    def told(make_acceptor):
        pair, passes = judge_run(make_acceptor(), lead, cycle, 256)
        return f"no passes {passes}" if pair is None else f"yes pair {pair} passes {passes}"

    straight = answer(lambda: judge(automaton.names, automaton.rule, lead, cycle, 1024))
    bare, turned = answer(lambda: told(lambda: automaton)), answer(lambda: told(lambda: Turned(automaton)))
    assert "refused" in bare or bare.split()[0] == straight
    assert "refused" in turned or turned.split(" passes ")[0] == bare.split(" passes ")[0]
    return f"straight {straight} bare {bare} turned {turned}"


def agreement_answers(lines):
    for line in lines:
        kind, rest = line.split(b" ", 1)
        if kind == b"rule":
            automaton = Automaton(*named_rule(rest))
            yield f"rule {write(automaton.rule).decode()} pairs {len(automaton.pairs)}"
        else:
            yield verdicts(automaton, *(bytes.fromhex(part.decode()) for part in rest.split(b":")))


def states(lines):
    for line in lines:
        automaton = Automaton(*named_rule(line))
        bare, pairs = reachable(automaton), len(automaton.pairs)
        turned = reachable(Turned(automaton)) if pairs <= 16 else "-"
        yield f"{write(automaton.rule).decode()} states {bare} pairs {pairs} turned {turned}"


def main(command):
    if command == "table":
        sys.stdout.buffer.write(table())
        return
    if command == "agreement-table":
        sys.stdout.write(agreement_table())
        return
    answer_lines = {
        "answers": lambda lines: (text for line in lines for text in answers(line)),
        "agreement-answers": agreement_answers,
        "states": states,
    }[command]
    for text in answer_lines(sys.stdin.buffer.read().split(b"\n")[:-1]):
        print(text)


if __name__ == "__main__":
    if len(sys.argv) != 2:
        sys.exit(__doc__)
    main(sys.argv[1])
