#!/usr/bin/env python3
"""One record for each symbol of a node list, and the line and column of a position (02, par. 2), against both worked out here from the document alone.

Each byte that lies in a node of a symbol is marked, and the marks are counted; the lengths of those nodes of it that are in no other must give the same. This
model first has to answer the stored questions of `replay` as they are answered there: most come from an implementation that shares no code with this one. Then
`replay` is asked, all at once: for the nodes that it lists of matches, for lists with a word changed or cut off, for any words, nodes of one symbol in each
other, 256 levels, with a record too few, just enough, more; for positions in texts with LF, CR LF or neither, at their ends and past them; for long texts.

records.py [SEED]
"""
import random
import re
import sys
from collections import Counter

import random_grammars
from matcher import Grammar, plain_text
from programs import Programs
from questions import LAST_WORD, all_grammars, field, names_of, stored
from trees import DEEPEST, UNTOUCHED, first_bad, grammar_texts, listed, some_list, spoilt

INPUT_MOST = 65535
RECORDS_MOST = 96  # records that `replay` lends
CELLS_MOST, WORDS_MOST = 131072, 65536  # cells and node words
STORED_LEAST = 100  # of either question, lines that are stored
GRAMMARS, POSITIONS = 30, 1000  # random ones
CUT_EVERY = 6  # so manieth list is cut off behind each word


# ── the document ──
def marked(words, symbol, n):
    """How many bytes of the text lie in a node of the symbol."""
    marks = bytearray(n)
    for k in range(0, len(words), 4):
        if words[k] == symbol:
            start, end = words[k + 1:k + 3]
            marks[start:end] = b"\1" * (end - start)
    return sum(marks)


def outermost(words, symbol):
    """The lengths of the symbol's nodes that are in no other node of it, together."""
    around, length = [], 0
    for k in range(0, len(words), 4):
        own, start, end, depth = words[k:k + 4]
        around = around[:depth]
        if own == symbol and symbol not in around:
            length += end - start
        around.append(own)
    return length


def record(words, symbol, n):
    """Nodes, bytes, first, last, present: of a preorder list."""
    numbers = [k for k in range(len(words) // 4) if words[4 * k] == symbol]
    if not numbers:
        return [0, 0, 0, 0, 0]
    covered = marked(words, symbol, n)
    if covered != outermost(words, symbol):
        raise ValueError(f"symbol {symbol} of {words[:400]}: {covered} bytes lie in its nodes, {outermost(words, symbol)} in its outermost ones")
    return [len(numbers), covered, numbers[0], numbers[-1], 1]


def summed(refusal, symbols, n, words, room):
    """The answer, then every record that was lent; `refusal` is the grammar's, by 1 to 8, or None."""
    bad, records = first_bad(words, symbols, n), []
    if refusal:
        said = refusal
    elif n > INPUT_MOST:
        said = f"refused 9 {INPUT_MOST}"
    elif bad is not None:
        said = f"refused 15 {bad}"
    elif room < symbols:
        said = f"refused 17 {symbols}"
    else:
        said, records = f"summary {symbols}", [":".join(map(str, record(words, symbol, n))) for symbol in range(symbols)]
    return " ".join([said, "; records", *records, *["x"] * (room - len(records))])


def place(text, position):
    """Lines are what LF ends; a column is one more than the bytes before it on its line."""
    if len(text) > INPUT_MOST:
        return f"refused 9 {INPUT_MOST}"
    if position > len(text):
        return "refused 14 0"
    before = text[:position].split(b"\n")
    return f"at {len(before)} {len(before[-1]) + 1}"


# ── what is stored ──
BYTES, NUMBERS = r"((?:[0-9a-f]{2})+|-)", r"(\d+(?:,\d+)*|-)"


def answer(line, refusals):
    """The answer to a stored line, of any kind that this is about."""
    asked = re.fullmatch(rf"where {BYTES} (\d+)", line)
    if asked and int(asked[2]) <= LAST_WORD:
        return place(bytes.fromhex(asked[1].strip("-")), int(asked[2]))
    asked = re.fullmatch(rf"summary (lake|plain) {BYTES} {BYTES} {NUMBERS} (\d+)", line)
    words = [int(word) for word in asked[4].split(",") if word != "-"] if asked else []
    if not asked or max(words, default=0) > LAST_WORD or int(asked[5]) > RECORDS_MOST:
        return "unreadable"
    grammar, text = (bytes.fromhex(asked[k].strip("-")) for k in (2, 3))
    refusal = refusals.get((asked[1], grammar))
    return summed(refusal, 0 if refusal else len(names_of(grammar, asked[1] == "plain")), len(text), words, int(asked[5]))


def check_stored():
    """How many stored answers the model has not; too few that are stored are a mistake as well."""
    seen, wrong, refusals = Counter(), 0, {(mode, grammar): refusal for mode, grammar, refusal in all_grammars()}
    for question, expected in zip(stored("stdin"), stored("stdout")):
        kind = question.split(" ")[0]
        if kind not in ("summary", "where"):
            continue
        seen[kind] += 1
        mine = answer(question, refusals)
        if mine != expected:
            wrong += 1
            print(f"records: stored {question[:400]}\nstored   {expected[:400]}\nexpected {mine[:400]}")
    for kind in ("summary", "where"):
        if seen[kind] < STORED_LEAST:
            wrong += 1
            print(f"records: only {seen[kind]} questions `{kind}` are stored, not {STORED_LEAST}")
    print(f"records: {seen['summary']} stored questions on records and {seen['where']} on positions, {wrong} wrong")
    return wrong


# ── grammars and texts ──
def sixty_four():
    """As many symbols as may be, in each other and side by side, with lakes among them."""
    return b"".join(b"s%d <- 'x' s%d? / <l%d>\n" % (k, k + 1, k % 8) for k in range(55)) + b"s55 <- 'y'\n"


def sources(chance):
    """Mode, grammar, its refusal or None, texts: those of tests/grammars and random ones, in lake mode and as their plain texts."""
    for grammar, texts in grammar_texts():
        yield "lake", grammar, None, [*texts, b""]
        yield "plain", plain_text(Grammar(grammar)), None, texts[:2]
    for number in range(GRAMMARS):
        maker = random_grammars.Maker(f"records {chance.randrange(2**32)} {number}")
        source = maker.grammar()
        for _ in range(number % 8):  # most of the first tries have a loop
            if Grammar(source).loop() is not None:
                source = maker.grammar()
        grammar = Grammar(source)
        loop = grammar.loop()
        texts = sorted({maker.text(grammar) for _ in range(4)})
        yield "lake", source, None if loop is None else f"refused 8 {loop}", texts
        if loop is None:
            yield "plain", plain_text(grammar), None, texts[:1]
    yield "lake", sixty_four(), None, [b"x" * 70, b"xyq", b""]


# A long match: of two symbols, so that there are cells enough, with words of any length and a node for each.
LONG_GRAMMAR = b"text <- (word / .)*\nword <- [a-z]+"


def long_text(chance, n):
    words, length = [], 0
    while length < n:
        words.append(b"x" * chance.randrange(3, 20) + chance.choice([b" ", b"\n", b"\r\n", b"; "]))
        length += len(words[-1])
    return b"".join(words)[:n]


class Source:
    """A grammar in a mode, with what is asked of it."""

    def __init__(self, mode, grammar, refusal):
        self.mode, self.grammar, self.refusal = mode, grammar, refusal
        self.symbols = 0 if refusal and not refusal.startswith("refused 8") else len(names_of(grammar, mode == "plain"))

    def match(self, text):
        cells = min(CELLS_MOST, self.symbols * (len(text) + 1))
        return f"match {self.mode} {field(self.grammar)} {field(text)} {cells} {WORDS_MOST if len(text) > 1000 else 8192}"

    def summary(self, text, words, room):
        question = f"summary {self.mode} {field(self.grammar)} {field(text)} {listed(words)} {room}"
        return question, summed(self.refusal, self.symbols, len(text), words, room)


# ── lists ──
def one_changed(chance, words):
    """The same list but for one word."""
    words, i = list(words), chance.randrange(len(words))
    words[i] = chance.choice([word for word in (words[i] + 1, words[i] - 1, 0, 1, 63, 64, DEEPEST, DEEPEST + 1, INPUT_MOST, INPUT_MOST + 1, LAST_WORD)
                              if word not in (words[i], -1) and word <= LAST_WORD])
    return words


def in_each_other(chance, symbols, n):
    """A list of nodes of one symbol in and beside each other, now and then one of another symbol between them."""
    own = chance.randrange(symbols)
    words = some_list(chance, 1, n)
    for _ in range(chance.randrange(4)):
        more = some_list(chance, 1, n)
        words = more if len(more) > len(words) else words
    for k in range(0, len(words), 4):
        words[k] = own if chance.random() < 0.8 else chance.randrange(symbols)
    return words


def tower(symbols, n, levels):
    """So many nodes, each in the one before it and as long as may be, the symbols in turn."""
    return [word for depth in range(levels) for word in (depth % symbols, min(depth, n), n, depth)]


def side_by_side(symbol, n, count):
    """A root of symbol 0 and nodes of a symbol below it, that cover all of the text."""
    ends = [n * k // (count - 1) for k in range(count)]
    return [0, 0, n, 0] + [word for k in range(count - 1) for word in (symbol, ends[k], ends[k + 1], 1)]


# ── questions ──
def rooms(chance, symbols):
    """Records: just enough, one too few, more."""
    return [symbols, max(0, symbols - 1), chance.randint(symbols, RECORDS_MOST), chance.choice([0, symbols + 1, RECORDS_MOST])]


def on_list(chance, source, text, words, cut):
    """Questions on one list, and on others that come of it."""
    for room in rooms(chance, source.symbols):
        yield source.summary(text, words, room)
    for worse in (one_changed(chance, words), one_changed(chance, words), spoilt(chance, words), words[:chance.randrange(len(words))]):
        yield source.summary(text, worse, chance.choice(rooms(chance, source.symbols)))
    yield source.summary(text[:-1], words, source.symbols)
    if cut:
        for k in range(len(words)):
            yield source.summary(text, words[:k], source.symbols)


def on_grammar(chance, source, text):
    """Questions on a grammar and a text, on lists that no match need make."""
    symbols = max(1, source.symbols)
    for words in (some_list(chance, symbols, len(text)), in_each_other(chance, symbols, len(text))):
        yield from on_list(chance, source, text, words, False)
    for _ in range(2):
        words = [chance.choice([0, 1, 2, len(text), LAST_WORD]) for _ in range(chance.randrange(13))]
        yield source.summary(text, words, chance.choice(rooms(chance, symbols)))


def long_ones(chance):
    two, many = Source("lake", LONG_GRAMMAR, None), Source("lake", sixty_four(), None)
    broken, looped = Source("lake", b"a <- (", "refused 2 6"), Source("lake", b"a <- a", "refused 8 0")
    for source in (two, many):
        for n in (0, 1, 255, 300, INPUT_MOST):
            for levels in (DEEPEST, DEEPEST + 1, DEEPEST + 2):
                for symbols in (1, 2):
                    yield source.summary(b"x" * n, tower(symbols, n, levels), source.symbols)
        for room in (source.symbols - 1, source.symbols, RECORDS_MOST):
            yield source.summary(b"x" * INPUT_MOST, side_by_side(1, INPUT_MOST, WORDS_MOST // 4), room)
            yield source.summary(b"x" * INPUT_MOST, side_by_side(0, INPUT_MOST, 1000), room)
    # which refusal comes first: that of the grammar, 9, 15, 17
    for source in (two, many, broken, looped):
        for text in (b"", b"xx", b"x" * (INPUT_MOST + 1)):
            for words in ([], [0, 0, 0, 0], [0, 0, 0, 1], [0, 0, len(text), 0, 64, 0, 0, 1], [0, 0, len(text), 0, 0, 0, len(text), 1]):
                for room in (0, 1, 2, 64):
                    yield source.summary(text, words, room)


def positions(chance):
    texts = [b"", b"\n", b"\r", b"\r\n", b"\n\r", b"\n" * 9, b"\r" * 9, b"\r\n" * 5, b"a\r\nb\n\r\nc", b"\x00\x0a\x0b\x0c\x85\xe2\x80\xa8\x1a"]
    for text in texts:
        for position in [*range(len(text) + 3), LAST_WORD]:
            yield text, position
    for _ in range(POSITIONS):
        text = b"".join(chance.choices([b"\n", b"\r\n", b"\r", b"a", b"bc", bytes([chance.randrange(256)])], k=chance.randrange(30)))
        n = len(text)
        yield text, chance.choice([0, n, n + 1, chance.randrange(n + 1), chance.randrange(n + 1), 2**31, LAST_WORD])
    for n in (INPUT_MOST, INPUT_MOST + 1):
        for text in (b"\n" * n, b"x" * n, (b"\r\n" * n)[:n], long_text(chance, n)):
            for position in (0, n // 2, INPUT_MOST - 1, INPUT_MOST, INPUT_MOST + 1, LAST_WORD):
                yield text, position


# ── asked ──
def ask(programs, questions):
    answers = programs.run("replay", b"", "".join(line + "\n" for line in questions).encode(), seconds=900).decode().split("\n")
    if len(answers) != len(questions) + 1 or answers[-1]:
        print(f"records: {len(questions)} questions, and {len(answers) - 1} lines of answers, the last {[line[:200] for line in answers[-2:]]}")
        sys.exit(1)
    return answers[:-1]


def nodes_of(said):
    """The node words of an answer to `match`; none where nothing was matched."""
    if not said.startswith("match "):
        return []
    words = [int(word) for word in said.split(" ; nodes")[1].split()]
    count = next((k for k in range(len(words) // 4) if words[4 * k] == UNTOUCHED), len(words) // 4)
    return words[:4 * count]


def main():
    chance, asked, wrong = random.Random(sys.argv[1] if sys.argv[1:] else "1"), [], check_stored()
    texts = [(Source(mode, grammar, refusal), text) for mode, grammar, refusal, texts in sources(chance) for text in texts]
    texts.append((Source("lake", LONG_GRAMMAR, None), long_text(chance, INPUT_MOST)))
    matches = 0
    with Programs() as programs:
        for k, ((source, text), said) in enumerate(zip(texts, ask(programs, [source.match(text) for source, text in texts]))):
            words = nodes_of(said)
            if words:
                matches += 1
                if first_bad(words, source.symbols, len(text)) is not None:
                    wrong += 1
                    print(f"records: the nodes of a match are no list: {said[:400]}")
                asked += on_list(chance, source, text, words, k % CUT_EVERY == 0 and len(words) < 200)
            asked += on_grammar(chance, source, text)
        asked += long_ones(chance)
        asked += [(f"where {field(text)} {position}", place(text, position)) for text, position in positions(chance)]
        for (question, expected), got in zip(asked, ask(programs, [question for question, _ in asked])):
            if got != expected:
                wrong += 1
                print(f"records: {question[:400]}\ngot      {got[:400]}\nexpected {expected[:400]}")
    kinds = {word: sum(expected.startswith(word + " ") for _, expected in asked)
             for word in ("summary", "at", "refused 2", "refused 8", "refused 9", "refused 14", "refused 15", "refused 17")}
    print(f"records: {len(asked)} questions, the nodes of {matches} matches among them, {', '.join(f'{n} {word}' for word, n in kinds.items())}; {wrong} wrong")
    sys.exit(1 if wrong or not matches or not all(kinds.values()) else 0)


if __name__ == "__main__":
    main()
