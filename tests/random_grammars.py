#!/usr/bin/env python3
"""The public calls against the independent matcher on random grammars and texts.

All questions go to `replay` at once, which answers them from standard input, one a line: what a grammar is in plain, and each match with every cell and node
word that was lent, by the grammar and by its plain text.

random_grammars.py [COUNT [SEED]]   a difference is printed with its grammar and text, and the run fails
"""
import random
import re
import sys
from collections import Counter

from matcher import Grammar, Matcher, matched, plain_text
from programs import Programs

TERMINALS = ["'a'", "'b'", "'c'", '"ab"', "'ba'", "[ab]", "[a-c]", "[^a]", "[^bc]", ".", "'\\141'", "'\\n'", "[\\]\\055^]", "'\\''"]
TEXT = b"aaabbbcc\n-'"
COUNT = 300
ROOM = 65536


class Maker:
    def __init__(self, seed):
        self.random = random.Random(seed)
        self.names = ["s"] + self.random.sample(["t", "u", "v"], self.random.randint(0, 3))
        self.lakes = self.random.sample(["<x>", "<y>", "<z>"], self.random.randint(0, 3))
        self.lefts = self.names[1:] + [lake for lake in self.lakes if self.random.random() < 0.5]
        if self.random.random() < 0.4:
            self.names.append("water")
            self.lefts.append("water")
        self.random.shuffle(self.lefts)
        self.lefts.insert(0, "s")

    def primary(self, size):
        kind = self.random.random()
        if size > 1 and kind < 0.25:
            return "(" + self.choice(size) + ")"
        if kind < 0.75:
            return self.random.choice(self.names + self.lakes + self.lakes)
        return self.random.choice(TERMINALS)

    def part(self, size):
        prefix = self.random.choice(["&", "!", "! "]) if self.random.random() < 0.12 else ""
        suffix = self.random.choice(["?", "*", "*", "+", " +"]) if self.random.random() < 0.35 else ""
        return prefix + self.primary(size) + suffix

    def sequence(self, size):
        count = self.random.choice([1, 1, 2, 2, 3, 4])
        parts = [self.part(size // count) for _ in range(count)]
        if self.random.random() < 0.6:
            parts.insert(0, self.random.choice(TERMINALS))
        return " ".join(parts)

    def choice(self, size):
        count = self.random.choice([1, 1, 1, 2, 2, 3])
        return " / ".join(self.sequence(size // count) for _ in range(count))

    def grammar(self):
        return "".join(f"{left} <- {self.choice(8)}{self.random.choice(['', ' # end'])}\n" for left in self.lefts).encode()

    def produce(self, grammar, exp, depth):
        """Bytes that the expression may take: guards are passed over, so it need not."""
        if exp.op == "any" or depth > 12:
            return bytes([self.random.choice(TEXT)])
        if exp.op == "literal":
            return exp.value
        if exp.op == "class":
            return bytes([self.random.choice([byte for byte in TEXT if byte in exp.value] or sorted(exp.value))])
        if exp.op == "symbol":
            return self.produce(grammar, grammar.plain[exp.value], depth + 1)
        if exp.op == "choice":
            return self.produce(grammar, self.random.choice(exp.parts), depth + 1)
        if exp.op == "sequence":
            return b"".join(self.produce(grammar, part, depth + 1) for part in exp.parts)
        rounds = {"&": 0, "!": 0, "?": self.random.randint(0, 1), "*": self.random.randint(0, 3), "+": self.random.randint(1, 3)}[exp.op]
        return b"".join(self.produce(grammar, exp.parts[0], depth + 1) for _ in range(rounds))

    def text(self, grammar):
        if self.random.random() < 0.3:
            return bytes(self.random.choice(TEXT) for _ in range(self.random.choice([0, 1, 2, 3, 5, 8, 13])))
        return self.produce(grammar, grammar.plain["s"], 0)[:60] + self.random.choice([b"", b"a", b"c"])


def question(call, mode, *fields):
    return " ".join([call, mode, *[field.hex() or "-" if isinstance(field, bytes) else str(field) for field in fields]])


def asked(maker, seen):
    """For one random grammar: what is asked, the text, the question, and the answer that the independent matcher gives."""
    for _ in range(maker.random.choice([1, 8, 8, 8])):  # most of the first tries have a loop
        source = maker.grammar()
        grammar = Grammar(source)
        if grammar.loop() is None:
            break
    written = plain_text(grammar)
    refused = written.startswith(b"refused")
    yield source, "its plain text", b"", question("plain", "lake", source, ROOM), written.decode().strip() if refused else "text " + written.hex()
    again = None if refused else Grammar(written, plain=True)
    if again:
        yield source, "its plain text, read and written again", b"", question("plain", "plain", written, ROOM), "text " + written.hex()
    for text in sorted({maker.text(grammar) for _ in range(6)}):
        need = len(grammar.symbols) * (len(text) + 1)
        count = len(Matcher(grammar, text).nodes()) if again else 0
        # room for all; now and then a cell or some node words too few
        cells = max(0, need + maker.random.choice([0] * 12 + [2] * 6 + [-1]))
        words = max(0, 4 * count + maker.random.choice([0] * 12 + [3, 5, -1, -6]))
        expected = matched(grammar, text, cells, words)
        seen[re.match("match|none|refused [0-9]+", expected)[0]] += 1
        seen["cells"] += cells
        seen["node words"] += words
        yield source, "match", text, question("match", "lake", source, text, cells, words), expected
        if again:
            # by the plain text: the matcher's own answer, and the program's, are the same (01, there and back)
            if matched(again, text, cells, words) != expected:
                yield source, "match by the plain text in the independent matcher", text, None, expected
            yield source, "match by the plain text", text, question("match", "plain", written, text, cells, words), expected


def main():
    count = int(sys.argv[1]) if sys.argv[1:] else COUNT
    seed = int(sys.argv[2]) if sys.argv[2:] else 1
    seen, wrong, all_asked = Counter(), 0, []
    for number in range(count):
        all_asked += [(number, *one) for one in asked(Maker(f"{seed} {number}"), seen)]
    questions = [one[4] for one in all_asked if one[4]]
    with Programs() as programs:
        answers = programs.run("replay", b"", "".join(line + "\n" for line in questions).encode(), seconds=600).decode().split("\n")
    if len(answers) != len(questions) + 1 or answers[-1]:
        print(f"random: {len(questions)} questions, and {len(answers) - 1} lines of answers, the last {answers[-2:]!r}")
        sys.exit(1)
    given = iter(answers)
    for number, source, what, text, line, expected in all_asked:
        got = next(given) if line else "another answer"
        if got != expected:
            wrong += 1
            print(f"random: {what}, grammar {number} of seed {seed}:\n{source.decode()}text {text!r}\ngot      {got}\nexpected {expected}")
    print(f"random: {count} grammars, {len(questions)} questions, {', '.join(f'{n} {what}' for what, n in seen.most_common())}, {wrong} differences")
    sys.exit(1 if wrong else 0)


if __name__ == "__main__":
    main()
