"""An independent reader, translator, writer and matcher of lake grammars, from documents 01 and 02 (par. 4) alone: small, recursive and slow.

It takes grammars that are in the notation and within the bounds of 01 (refusals 1 to 7 are not its business). An expression is an `Exp`, so that every
occurrence has an identity of its own; a symbol is its name, a lake's with `<` and `>`.
"""
import re
import sys

sys.setrecursionlimit(20000)


class Exp:
    """op: any, literal (value: bytes), class (value: set of bytes), symbol (value: name), sequence, choice, ?, *, +, &, !"""

    def __init__(self, op, *parts, value=None):
        self.op, self.parts, self.value = op, parts, value
        self.succeed, self.alt = set(), set()

    def copy(self):
        return Exp(self.op, *[part.copy() for part in self.parts], value=self.value)

    def all(self):
        yield self
        for part in self.parts:
            yield from part.all()


# ── reading (01, Notation) ──

LETTERS = {ord("n"): 10, ord("r"): 13, ord("t"): 9, ord("'"): 39, ord('"'): 34, ord("["): 91, ord("]"): 93, ord("\\"): 92}


class Reader:
    def __init__(self, text, plain):
        self.text, self.at, self.plain = text, 0, plain
        self.blanks()

    def blanks(self):
        self.at = re.compile(rb"([ \t\r\n]|#[^\r\n]*)*").match(self.text, self.at).end()

    def takes(self, pattern):
        found = re.compile(pattern).match(self.text, self.at)
        if not found:
            return None
        self.at = found.end()
        return found.group()

    def token(self, pattern):
        found = self.takes(pattern)
        if found is not None:
            self.blanks()
        return found

    def char(self):
        byte = self.text[self.at]
        self.at += 1
        if byte != ord("\\"):
            return byte
        octal = self.takes(rb"[0-2][0-7][0-7]|[0-7][0-7]|[0-7]")
        if octal:
            return int(octal, 8)
        self.at += 1
        return LETTERS[self.text[self.at - 1]]

    def literal(self, quote):
        value = bytearray()
        while self.text[self.at] != quote:
            value.append(self.char())
        self.at += 1
        self.blanks()
        return Exp("literal", value=bytes(value))

    def marks(self):
        value = set()
        negative = not self.plain and self.takes(rb"\^") is not None
        while self.text[self.at] != ord("]"):
            low = high = self.char()
            if self.takes(rb"-") is not None:
                high = self.char()
            value |= set(range(low, high + 1))
        self.at += 1
        self.blanks()
        return Exp("class", value=frozenset(set(range(256)) - value if negative else value))

    NAME = rb"[a-zA-Z_][a-zA-Z_0-9]*|<[a-zA-Z_][a-zA-Z_0-9]*>"

    def primary(self):
        if self.token(rb"\("):
            inner = self.choice()
            self.token(rb"\)")
            return inner
        if self.token(rb"\."):
            return Exp("any")
        if self.takes(rb"\["):
            return self.marks()
        quote = self.takes(rb"['\"]")
        if quote:
            return self.literal(quote[0])
        return Exp("symbol", value=self.token(self.NAME).decode())

    def suffix(self):
        inner = self.primary()
        mark = self.token(rb"[?*+]")
        return Exp(mark.decode(), inner) if mark else inner

    def prefix(self):
        mark = self.token(rb"[&!]")
        return Exp(mark.decode(), self.suffix()) if mark else self.suffix()

    def starts(self):
        """Whether a primary or a prefix stands here: a name before an arrow is the next rule's."""
        if re.compile(rb"[(.\['\"&!]").match(self.text, self.at):
            return True
        name = re.compile(self.NAME).match(self.text, self.at)
        if not name:
            return False
        return not re.compile(rb"([ \t\r\n]|#[^\r\n]*)*<-").match(self.text, name.end())

    def sequence(self):
        whole = self.prefix()
        while self.starts():
            whole = Exp("sequence", whole, self.prefix())
        return whole

    def choice(self):
        whole = self.sequence()
        while self.token(rb"/"):
            whole = Exp("choice", whole, self.sequence())
        return whole

    def rules(self):
        rules = {}
        while self.at < len(self.text):
            name = self.token(self.NAME).decode()
            self.token(rb"<-")
            rules[name] = self.choice()
        return rules


# ── lakes made plain (01; 02, par. 4) ──

def same_terminal(exp):
    return (exp.op, exp.value)


def symbols_of(rules):
    """Names by number: the left sides in order, then the lakes without a rule by first use."""
    symbols = list(rules)
    for body in rules.values():
        symbols += [name for name in dict.fromkeys(exp.value for exp in leaves(body) if exp.op == "symbol") if name not in symbols]
    return symbols


class Grammar:
    def __init__(self, text, plain=False):
        self.rules = Reader(text, plain).rules()
        self.symbols = symbols_of(self.rules)
        self.terminals = [("any", None)]
        for body in self.rules.values():
            for exp in leaves(body):
                if exp.op != "symbol" and same_terminal(exp) not in self.terminals:
                    self.terminals.append(same_terminal(exp))
        self.water = None if plain else self.rules.get("water")
        self.bodies = {name: self.step_one(name) for name in self.symbols}
        self.find_eps()
        self.find_sets()
        self.stops = {name: self.find_stops(name) for name in self.symbols}
        self.plain = {name: self.step_two(name) for name in self.symbols}

    def step_one(self, name):
        """A nonterminal's right side; a lake's, then water's, as far as there are such: None where there is neither."""
        parts = [self.rules.get(name), self.water if name.startswith("<") else None]
        there = [part.copy() for part in parts if part]
        return Exp("choice", *there) if there[1:] else there[0] if there else None

    def has_eps(self, exp):
        if exp.op in ("&", "!", "?", "*"):
            return True
        if exp.op == "symbol":
            return exp.value in self.eps
        if exp.op == "+":
            return self.has_eps(exp.parts[0])
        if exp.op == "sequence":
            return all(self.has_eps(part) for part in exp.parts)
        return exp.op == "choice" and any(self.has_eps(part) for part in exp.parts)

    def find_eps(self):
        self.eps, last = set(), None
        while self.eps != last:
            last = self.eps
            self.eps = {name for name, body in self.bodies.items() if body and self.has_eps(body)}

    def beginning(self, exp):
        """Without ε."""
        if exp.op in ("any", "literal", "class"):
            return {same_terminal(exp)}
        if exp.op == "symbol":
            return {exp.value}
        if exp.op in ("&", "!"):
            return set()
        if exp.op == "sequence" and not self.has_eps(exp.parts[0]):
            return self.beginning(exp.parts[0])
        return set().union(*[self.beginning(part) for part in exp.parts])

    def hand_on(self, exp):
        """What the parts of an expression get from it: (part, SUCCEED, ALT)."""
        if exp.op == "symbol":
            if self.bodies[exp.value]:
                yield self.bodies[exp.value], exp.succeed, exp.alt
        elif exp.op == "sequence":
            a, b = exp.parts
            yield a, self.beginning(b) | (exp.succeed if self.has_eps(b) else set()), exp.alt
            yield b, exp.succeed, exp.alt if self.has_eps(a) else set()
        elif exp.op == "choice":
            a, b = exp.parts
            yield a, exp.succeed, exp.alt | self.beginning(b) | (exp.succeed if self.has_eps(b) else set())
            yield b, exp.succeed, exp.alt
        elif exp.op in ("?", "*", "+"):
            inner = exp.parts[0]
            again = set() if exp.op == "?" else self.beginning(inner)
            yield inner, exp.succeed | again, exp.alt | exp.succeed

    def expressions(self):
        return [exp for body in self.bodies.values() if body for exp in body.all()]

    def find_sets(self):
        changed = True
        while changed:
            changed = False
            for exp in self.expressions():
                for part, succeed, alt in self.hand_on(exp):
                    if not (succeed <= part.succeed and alt <= part.alt):
                        changed = True
                        part.succeed |= succeed
                        part.alt |= alt

    def find_stops(self, name):
        """The alternative symbols of a lake, lakes dropped: nonterminals by number, then terminals by number."""
        alt = set().union(*[exp.alt for exp in self.expressions() if exp.op == "symbol" and exp.value == name])
        symbols = [Exp("symbol", value=s) for s in self.symbols if s in alt and not s.startswith("<")]
        return symbols + [Exp(op, value=value) for op, value in self.terminals if (op, value) in alt]

    def step_two(self, name):
        body = self.bodies[name]
        if not name.startswith("<"):
            return body.copy()
        guard = None
        for stop in self.stops[name]:
            guard = Exp("choice", guard, stop) if guard else stop
        skip = Exp("sequence", Exp("!", guard), Exp("any")) if guard else Exp("any")
        return Exp("choice", body.copy(), skip) if body else skip

    def first_calls(self, exp):
        if exp.op == "symbol":
            return {exp.value}
        parts = exp.parts
        if exp.op == "sequence" and not self.has_eps(parts[0]):
            parts = parts[:1]
        return set().union(*[self.first_calls(part) for part in parts])

    def loop(self):
        """The number of the first symbol that reaches itself by first calls; None."""
        reach = {name: self.first_calls(self.plain[name]) for name in self.symbols}
        for _ in self.symbols:
            reach = {name: to.union(*[reach[other] for other in to]) for name, to in reach.items()}
        on = [number for number, name in enumerate(self.symbols) if name in reach[name]]
        return on[0] if on else None


def leaves(exp):
    return [part for part in exp.all() if not part.parts]


# ── writing (01) ──

LEVELS = {"choice": 0, "sequence": 1, "&": 2, "!": 2, "?": 3, "*": 3, "+": 3}


def char_text(byte, escaped):
    if byte in escaped:
        return escaped[byte]
    if byte in (10, 13, 9):
        return {10: b"\\n", 13: b"\\r", 9: b"\\t"}[byte]
    if 32 <= byte <= 126 or byte >= 192:
        return bytes([byte])
    return b"\\%03o" % byte


LITERAL = {92: b"\\\\", 39: b"\\'"}
CLASS = {92: b"\\\\", 91: b"\\[", 93: b"\\]", 45: b"\\055", 94: b"\\136"}


def class_text(value):
    text, byte = b"", 0
    while byte < 256:
        end = byte
        while end in value:
            end += 1
        if end > byte:
            text += char_text(byte, CLASS)
            if end - byte > 1:
                text += b"-" + char_text(end - 1, CLASS)
        byte = end + 1
    return b"[" + text + b"]"


def plain_name(name):
    return "lake__" + name[1:-1] if name.startswith("<") else name


def text_of(exp, least=0):
    """The text of an expression where one of level `least` or tighter may stand bare."""
    if LEVELS.get(exp.op, 4) < least:
        return b"(" + text_of(exp) + b")"
    if exp.op == "any":
        return b"."
    if exp.op == "literal":
        return b"'" + b"".join(char_text(byte, LITERAL) for byte in exp.value) + b"'"
    if exp.op == "class":
        return class_text(exp.value)
    if exp.op == "symbol":
        return plain_name(exp.value).encode()
    if exp.op == "sequence":
        return text_of(exp.parts[0], 1) + b" " + text_of(exp.parts[1], 2)
    if exp.op == "choice":
        return text_of(exp.parts[0], 0) + b" / " + text_of(exp.parts[1], 1)
    if exp.op in "&!":
        return exp.op.encode() + text_of(exp.parts[0], 3)
    return text_of(exp.parts[0], 4) + exp.op.encode()


def plain_text(grammar):
    loop = grammar.loop()
    if loop is not None:
        return b"refused 8 %d\n" % loop
    return b"".join(plain_name(name).encode() + b" <- " + text_of(body) + b"\n" for name, body in grammar.plain.items())


# ── the meaning of a match (01): the lakes' own, not their translation's ──

class Matcher:
    """An answer is None or the end and the nodes below: (symbol, start, end, nodes)."""

    def __init__(self, grammar, text):
        self.grammar, self.text, self.known = grammar, text, {}

    def cells(self):
        """0 where a symbol fails, else 1 and the bytes that it takes: place by place, in each symbol by symbol."""
        answers = [(p, self.symbol(name, p)) for p in range(len(self.text) + 1) for name in self.grammar.symbols]
        return [1 + answer[0] - p if answer else 0 for p, answer in answers]

    def nodes(self):
        """The nodes of the start symbol at 0, in preorder: symbol, start, end, depth. None where it fails."""
        answer = self.symbol(self.grammar.symbols[0], 0)
        if not answer:
            return []
        number = {name: k for k, name in enumerate(self.grammar.symbols)}
        return [(number[name], start, end, depth) for name, start, end, depth in walk((self.grammar.symbols[0], 0, *answer))]

    def symbol(self, name, p):
        if (name, p) not in self.known:
            self.known[name, p] = self.lake(name, p)[1] if name.startswith("<") else self.match(self.grammar.bodies[name], p)
        return self.known[name, p]

    def lake(self, name, p):
        """1 by its rule, 2 by water, 3 by one skipped byte where no alternative symbol matches, 0 not; and the answer."""
        for way, body in enumerate((self.grammar.rules.get(name), self.grammar.water), start=1):
            answer = self.match(body, p) if body else None
            if answer:
                return way, answer
        if p < len(self.text) and not any(self.match(stop, p) for stop in self.grammar.stops[name]):
            return 3, (p + 1, [])
        return 0, None

    def match(self, exp, p):
        """Each occurrence is asked once at a place, so that no nesting takes long."""
        if (exp, p) not in self.known:
            self.known[exp, p] = self.ask(exp, p)
        return self.known[exp, p]

    def ask(self, exp, p):
        if exp.op == "any":
            return (p + 1, []) if p < len(self.text) else None
        if exp.op == "literal":
            return (p + len(exp.value), []) if self.text.startswith(exp.value, p) else None
        if exp.op == "class":
            return (p + 1, []) if p < len(self.text) and self.text[p] in exp.value else None
        if exp.op == "symbol":
            answer = self.symbol(exp.value, p)
            return answer and (answer[0], [(exp.value, p, *answer)])
        if exp.op == "choice":
            return self.match(exp.parts[0], p) or self.match(exp.parts[1], p)
        if exp.op == "sequence":
            first = self.match(exp.parts[0], p)
            second = first and self.match(exp.parts[1], first[0])
            return second and (second[0], first[1] + second[1])
        if exp.op in "&!":
            return (p, []) if bool(self.match(exp.parts[0], p)) == (exp.op == "&") else None
        if exp.op == "?":
            return self.match(exp.parts[0], p) or (p, [])
        return self.repeat(exp, p)

    def repeat(self, exp, p):
        end, nodes = p, []
        if exp.op == "+":
            first = self.match(exp.parts[0], p)
            if not first:
                return None
            end, nodes = first
        while True:
            further = self.match(exp.parts[0], end)
            if not further or further[0] == end:
                return end, nodes
            end, nodes = further[0], nodes + further[1]


def walk(node, depth=0):
    name, start, end, below = node
    yield name, start, end, depth
    for inner in below:
        yield from walk(inner, depth + 1)


LENT = 3735928559


def matched(grammar, text, cells, words):
    """The answer of `replay` to a match: the outcome, then every lent cell and node word. For few nodes: all are listed before they are counted."""
    lent_cells, lent_words = [LENT] * cells, [LENT] * words
    loop, need = grammar.loop(), len(grammar.symbols) * (len(text) + 1)
    if loop is not None:
        outcome = f"refused 8 {loop}"
    elif cells < need:
        outcome = f"refused 10 {need}"
    else:
        matcher = Matcher(grammar, text)
        lent_cells[:need] = matcher.cells()
        nodes = matcher.nodes()
        offends = [(k, 11 if depth > 255 else 12) for k, (_, _, _, depth) in enumerate(nodes) if depth > 255 or words < 4 * k + 4]
        if not nodes:
            outcome = "none"
        elif offends:
            outcome = f"refused {offends[0][1]} {offends[0][0]}"
        else:
            outcome = f"match {nodes[0][2]}"
            lent_words[: 4 * len(nodes)] = [word for node in nodes for word in node]
    return " ".join([outcome, "; cells", *map(str, lent_cells), "; nodes", *map(str, lent_words)])
