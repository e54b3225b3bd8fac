#!/usr/bin/env python3
"""texts.py FOLDER [--quick]: writes the texts and the grammars of the worst cases to FOLDER, and FOLDER/list, which `measure` works off.

Every text is made with a fixed seed, so that each machine measures the same. Texts are filled to their size with whole pieces and match to their end.
"""
import itertools
import os
import random
import sys

HERE = os.path.dirname(os.path.abspath(__file__))
sys.path.append(os.path.join(os.path.dirname(HERE), "tests"))
from pieces import cut  # noqa: E402

SIZES = {"4K": 4096, "16K": 16384, "64K": 65535}
SEED = 13
WORDS = """account address amount answer average balance block book bottom buffer button byte card cell center chapter child color column content copy
cost count customer data date day delta depth device distance draft edge entry error event factor field file first flag folder form frame
gain game grade graph grid group head height hint home hour image index input invoice item key label last layer left length level light
limit line link list mark mass message method middle minute model month mouse name node note number object offset option order output owner
page part path pixel place player point price product quantity queue range rank rate ratio record region report result right room root row
rule sample scale score second section seed share shape side signal size source space span speed stack stage start state step stock street
sum symbol table target task team text time title token top total track tree type unit user value vector version view volume water week
weight width window word year zone""".split()


class Maker:
    def __init__(self, seed):
        self.random = random.Random(seed)
        self.pick = self.random.choice
        self.between = self.random.randint

    def chance(self, part):
        return self.random.random() < part

    def name(self):
        return self.pick(WORDS)

    def camel(self):
        return self.name() + "".join(self.name().capitalize() for _ in range(self.between(0, 2)))

    def number(self):
        return str(self.between(0, 9) if self.chance(0.5) else self.between(10, 99999))

    def sentence(self, least=3, most=9):
        return " ".join(self.name() for _ in range(self.between(least, most)))

    def filled(self, size, head, piece, tail, join=""):
        """head, as many pieces as fit, tail; at most `size` bytes."""
        pieces, length = [], len(head) + len(tail)
        while True:
            new = piece()
            length += len(new) + (len(join) if pieces else 0)
            if length > size:
                return head + join.join(pieces) + tail
            pieces.append(new)

    # ---- sums

    def sum(self, level=0):
        def value():
            if level < 3 and self.chance(0.2):
                return "(" + self.sum(level + 1) + ")"
            return self.number() if self.chance(0.6) else self.name()
        text = value()
        for _ in range(self.between(1, 4)):
            text += self.pick([" + ", " - ", " * ", " / ", "+", "*"]) + value()
        return text

    def sums(self, size):
        return self.filled(size, "", lambda: self.sum() + ";\n", "")

    # ---- G: blocks. A sea does not begin with a block or an end of one, so nothing stands before these.

    def block(self, level):
        text = "{"
        for _ in range(self.between(2, 6)):
            text += self.statement(level)
        return text + "}"

    def statement(self, level):
        if level < 4 and self.chance(0.25):
            return self.block(level + 1)
        return self.pick([" ", "\n  ", ""]) + self.pick([
            lambda: f"{self.camel()} = {self.sum()};",
            lambda: f"{self.camel()}({self.camel()}, {self.number()});",
            lambda: f"return {self.camel()}[{self.number()}];",
            lambda: f"{self.camel()}.{self.camel()}(\"{self.sentence(1, 4)}\");",
        ])()

    def g(self, size):
        return self.filled(size, "{", lambda: self.statement(0), "}")

    # ---- Java

    def string(self):
        return '"' + self.sentence(1, 6) + self.pick(["", ": ", ";", " {", " (", "}"]) + '"'

    def expression(self, level=0):
        kinds = [self.camel, self.number, self.string, lambda: f"{self.camel()}.{self.camel()}"]
        if level < 2:
            kinds += [lambda: f"{self.camel()}({self.arguments(level)})",
                      lambda: f"{self.camel()}.{self.camel()}({self.arguments(level)})",
                      lambda: f"({self.expression(level + 1)} {self.pick('+-*/%')} {self.expression(level + 1)})",
                      lambda: f"{self.expression(level + 1)} {self.pick(['+', '-', '*', '==', '<', '&&'])} {self.expression(level + 1)}"]
        return self.pick(kinds)()

    def arguments(self, level):
        return ", ".join(self.expression(level + 1) for _ in range(self.between(0, 3)))

    def java_type(self):
        return self.pick(["int", "int", "String", "boolean", "double", "int[]", "String[]", self.name().capitalize()])

    def java_statement(self, level, indent):
        gap = "    " * indent
        roll = self.random.random()
        if level < 3 and roll < 0.15:
            text = f"{gap}if ({self.expression()}) {self.java_body(level + 1, indent)}"
            return text + (f" else {self.java_body(level + 1, indent)}\n" if self.chance(0.4) else "\n")
        if level < 3 and roll < 0.22:
            return f"{gap}while ({self.expression()}) {self.java_body(level + 1, indent)}\n"
        if roll < 0.32:
            return f"{gap}// {self.sentence()}\n{gap}{self.camel()} = {self.expression()};\n"
        if roll < 0.36:
            return f"{gap}/* {self.sentence(4, 14)} */ {self.camel()}({self.arguments(0)});\n"
        if roll < 0.6:
            return f"{gap}{self.java_type()} {self.camel()} = {self.expression()};\n"
        if roll < 0.8:
            return f"{gap}{self.camel()}.{self.camel()}({self.arguments(0)});\n"
        return f"{gap}{self.camel()} = {self.expression()};\n"

    def java_body(self, level, indent, last=""):
        text = "{\n" + "".join(self.java_statement(level, indent + 1) for _ in range(self.between(1, 5)))
        return text + last + "    " * indent + "}"

    def java_method(self):
        parameters = ", ".join(f"{self.java_type()} {self.camel()}" for _ in range(self.between(0, 3)))
        last = f"        return {self.expression()};\n" if self.chance(0.6) else ""
        return f"    {self.java_type()} {self.camel()}({parameters}) " + self.java_body(0, 1, last) + "\n\n"

    def java_class(self):
        text = "" if self.chance(0.3) else f"/**\n * {self.sentence(5, 14)}.\n * {self.sentence(5, 14)}.\n */\n"
        text += f"public class {self.name().capitalize()}{self.name().capitalize()} {{\n"
        for _ in range(self.between(1, 5)):
            text += f"    {self.java_type()} {self.camel()}" + (f" = {self.expression()}" if self.chance(0.5) else "") + ";\n"
        return text + "\n" + "".join(self.java_method() for _ in range(self.between(2, 6))) + "}\n\n"

    def java(self, size):
        head = "package org.example.school;\n\n" + "".join(f"import java.util.{self.name().capitalize()};\n" for _ in range(4)) + "\n"
        return self.topped(size, self.filled(size, head, self.java_class, ""))

    def topped(self, size, text):
        """Classes are long: the rest is filled with one more class of short fields, or a comment."""
        room = size - len(text) - len("class Rest {\n}\n")
        if room < 40:
            return text
        return text + "class Rest {\n" + self.filled(room, "", lambda: f"    int {self.camel()};\n", "") + "}\n"

    # ---- calls between water

    def call(self, level=0):
        inside = []
        for _ in range(self.between(0, 3)):
            inside.append(self.call(level + 1) if level < 3 and self.chance(0.35) else
                          self.pick([self.number, self.string, lambda: "&" + self.name() + "[0]", lambda: f"({self.number()} * X)"])())
        return f"{self.name()}({', '.join(inside)})"

    def between_calls(self):
        return self.pick([
            lambda: f"// {self.sentence()} ({self.name()}())\n",
            lambda: f"/* {self.sentence(4, 12)} */\n",
            lambda: f"{self.name().upper()} = {self.number()};\n",
            lambda: f"@{self.name()} {self.string()};\n",
            lambda: self.call() + ";\n",
            lambda: self.call() + ";\n",
            lambda: f"{self.name()} := {self.call()} + {self.call()};\n",
        ])()

    def calls(self, size):
        return self.filled(size, "", self.between_calls, "")

    # ---- JSON

    def json_string(self, least=1, most=4):
        text = self.sentence(least, most)
        if self.chance(0.1):
            text += self.pick(["\\n", "\\\"", "\\u00e9", "\\/", "\\\\"]) + self.name()
        return f'"{text}"'

    def json_value(self, level, gap):
        roll = self.random.random()
        if level < 3 and roll < 0.12:
            return self.json_object(level + 1, gap + "  ")
        if level < 3 and roll < 0.22:
            return "[" + ", ".join(self.json_value(level + 1, gap) for _ in range(self.between(0, 5))) + "]"
        if roll < 0.6:
            return self.json_string()
        if roll < 0.85:
            return self.pick(["", "-"]) + self.number() + self.pick(["", "", f".{self.between(0, 999)}", "e+10"])
        return self.pick(["true", "false", "null"])

    def json_object(self, level, gap):
        members = [f'{gap}  "{self.name()}": {self.json_value(level, gap)}' for _ in range(self.between(1, 6))]
        return "{\n" + ",\n".join(members) + f"\n{gap}}}"

    def json(self, size):
        return self.filled(size, "[\n", lambda: "  " + self.json_object(0, "  "), "\n]\n", ",\n")

    # ---- 57 rules that seldom begin

    def seldom(self, size):
        def line():
            if self.chance(0.05):
                return f"{self.pick(SELDOM)} {self.name()};\n"
            return self.sentence(4, 10) + ".\n"
        return self.filled(size, "", line, "")


LETTERS = "ABCDEFGHIJKLMNOPQRSTUVWXYZ"
SELDOM = [letter + second for second in "xyz" for letter in LETTERS][:56]


def seldom_grammar():
    rules = [f"r{i} <- '{head} ' [a-z]+ ';'" for i, head in enumerate(SELDOM)]
    return "text <- (" + " / ".join(f"r{i}" for i in range(len(SELDOM))) + " / .)*\n" + "\n".join(rules) + "\n"


def unused(grammar):
    """The grammar beside 150 terminals that nothing uses."""
    return grammar + "unused <- " + " ".join(f"'{'cdefghijkl'[i % 10]}'" for i in range(150)) + "\n"


def worst_cases():
    """Name, grammar, and a text of n bytes that makes the most of it."""
    long = " ".join("'" + "0123456789abcdef" * 4 + "'" for _ in range(10))
    small = [
        ("rest_ahead", "s <- (&(.*) .)*\n", lambda n: "a" * n),
        ("run_then_y", "s <- ('a'* 'y' / .)*\n", lambda n: "a" * n),
        ("maybe_run_then_y", "s <- (('a'* 'y')? .)*\n", lambda n: "a" * n),
        ("two_runs_then_y", "s <- ('a'* 'b'* 'y' / .)*\n", lambda n: "a" * (n // 2) + "b" * (n - n // 2)),
        ("symbol_run_then_y", "s <- t*\nt <- 'x'* 'y' / .\n", lambda n: "x" * n),
        ("run_then_y_or_symbol", "s <- ('a'* 'y' / b)*\nb <- .\n", lambda n: "a" * n),
        ("runs_then_y_or_symbol", "s <- ('a'* 'y' / b)*\nb <- .\n", lambda n: ("a" * (n // 3 - 1) + "b") * 3),
        ("rest_ahead_of_symbol", "s <- (&(.*) b)*\nb <- .\n", lambda n: "a" * n),
        ("rounds_of_640", f"s <- b*\nb <- {long}\n", lambda n: "0123456789abcdef" * (n // 16)),
        ("rest_behind_16", "s <- (b &(.*))*\nb <- '0123456789abcdef'\n", lambda n: "0123456789abcdef" * (n // 16)),
    ]
    for name, grammar, text in small:
        yield name, grammar, text
        yield name + "+150", unused(grammar), text
    yield "rest_ahead_twice", "s <- (&((&(.*) .)*) .)*\n", lambda n: "a" * n


# ---- reading

HASH_MODULUS, HASH_FACTOR, HASH_SLOTS, HASH_START = 4294967291, 16777619, 32768, 1
SMALL = LETTERS.lower()


def hashed(name, h=HASH_START):
    for c in name.encode():
        h = (h * HASH_FACTOR + c) % HASH_MODULUS
    return h


def one_slot(count):
    """Names that fall into slot 0 of an index by the hash that the reader had: each stem of three letters with the ends of four letters that lead there."""
    ends = {}
    for end in map("".join, itertools.product(SMALL, repeat=4)):
        h = hashed(end, 0)
        ends.setdefault(h % HASH_SLOTS, []).append((h, end))
    power = pow(HASH_FACTOR, 4, HASH_MODULUS)
    names = []
    for stem in map("".join, itertools.product(SMALL, repeat=3)):
        h = hashed(stem) * power % HASH_MODULUS
        for less in (0, HASH_MODULUS):
            names += [stem + end for e, end in ends.get((less - h) % HASH_SLOTS, ()) if (h + e >= HASH_MODULUS) == bool(less)]
        if len(names) >= count:
            return names[:count]


def halves(names, size):
    """Rules for the first names in half of the text, uses of them in the other."""
    rules = cut((f"{name}<-.\n" for name in names), size // 2)
    known = names[:rules.count("\n")]
    return rules + "z<-" + cut((f"{name} " for name in itertools.cycle(reversed(known))), size - len(rules) - 3)


def lake_text(maker, size):
    """An accepted lake grammar of `size` bytes: 56 rules with names of 32 bytes, 8 lakes, near 512 expressions, and a comment before each rule."""
    names = [f"{maker.name()}_{maker.name()}_{i}".ljust(32, "x")[:32] for i in range(56)]
    rules = []
    for i, name in enumerate(names):
        later = names[i + 1:] or names[:1]
        rules.append(f"{name} <- '{WORDS[i]}' <sea{i % 8}>* {maker.pick(later)}? {maker.pick(later)}\n" if i < 55 else f"{name} <- 'end'\n")
    room = size - sum(map(len, rules))
    each = room // len(rules)
    text = "".join("# " + maker.sentence(40, 40)[:each - 3] + "\n" + rule for rule in rules)
    return text + "#" * (size - len(text))


def long_texts(size):
    """Name and a plain text of `size` bytes; most are refused, none may take long."""
    maker = Maker(SEED)
    first = LETTERS + SMALL + "_"
    short = ["".join(name) for name in itertools.product(first, first + "0123456789", first + "0123456789")]
    long = [f"{random_name(maker)}{i}" for i in range(size // 12)]
    slot = one_slot(size // 11)
    yield "short_names", cut((f"{name}<-." for name in short), size)
    yield "short_names_mixed", cut((f"{name}<-." for name in maker.random.sample(short, len(short))), size)
    yield "random_names", cut((f"{name} <- 'x'\n" for name in long), size)
    yield "names_of_38", cut((f"{name.rjust(38, 'x')}<-.\n" for name in long), size)
    yield "one_slot", cut((f"{name}<-.\n" for name in slot), size)
    yield "random_uses", halves(long, size)
    yield "one_slot_uses", halves(slot, size)
    yield "one_name_used", cut(["a<-."] + [" a"] * (size // 2), size)
    yield "choices", cut(["a<-a"] + ["/a"] * (size // 2), size)
    yield "dots", cut(["a<-"] + ["."] * size, size)
    yield "small_classes", cut(["a<-"] + ["[a]"] * (size // 3), size)
    yield "wide_classes", cut(["a<-"] + ["[!-~]"] * (size // 5), size)
    yield "octal_classes", cut(["a<-"] + ["[\\0-\\277]"] * (size // 9), size)
    yield "literals", cut(["a<-"] + ["'a'"] * (size // 3), size)
    yield "long_literals", cut(["a<-"] + ["'" + "x" * 64 + "'"] * (size // 66), size)
    yield "parentheses", cut(["a<-"] + ["(" * 33 + "." + ")" * 33] * (size // 67), size)
    yield "comment", "a<-b b<-.#".ljust(size, "#")
    yield "blanks", "a<-b b<-.".ljust(size)
    yield "short_names_used", cut(itertools.chain(["a<-."], (f"{name}<-a " for name in maker.random.sample(short, len(short)))), size)


def random_name(maker):
    return "".join(maker.pick(SMALL) for _ in range(maker.between(3, 8)))


# ---- the list

def main():
    folder, quick = sys.argv[1], "--quick" in sys.argv
    lines = []

    def keep(name, text):
        path = os.path.join(folder, name)
        with open(path, "w", encoding="latin-1", newline="") as file:
            file.write(text)
        return path

    def add(name, grammar, make, sizes, peers):
        for label, size in sizes.items():
            text = make(size)
            assert size * 0.9 < len(text) <= size, (name, size, len(text))
            lines.append(f"match {name} {label} lake {grammar} {keep(f'{name}.{label}.txt', text)} {peers[label] if isinstance(peers, dict) else peers}")

    for name in ("g", "java", "sums", "calls", "json"):
        add(name, os.path.join(HERE, "grammars", name + ".peg"), lambda size: getattr(Maker(SEED), name)(size), SIZES, "otlf")
    add("seldom", keep("seldom.peg", seldom_grammar()), Maker(SEED).seldom, {"64K": SIZES["64K"]}, "otlf")
    # LPeg has no memory: it is asked for the answers at 1 KB alone
    for name, grammar, make in worst_cases():
        sizes = {"1K": 1024, "4K": 4096} if quick else {"1K": 1024, **SIZES}
        add(name, keep(name + ".peg", grammar), make, sizes, {label: "otlf" if label == "1K" else "ot" for label in sizes})
    lines.append(f"read lake 16K lake {keep('lake.16K.peg', lake_text(Maker(SEED), 16384))} - o")
    sizes = {"64K": 65536} if quick else {"64K": 65536, "256K": 262144, "1M": 1048576}
    texts = {label: dict(long_texts(size)) for label, size in sizes.items()}
    for name in texts["64K"]:
        for label in sizes:
            lines.append(f"read {name} {label} plain {keep(f'{name}.{label}.peg', texts[label][name])} - o")
    keep("list", "\n".join(lines) + "\n")


if __name__ == "__main__":
    main()
