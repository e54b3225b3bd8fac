#!/usr/bin/env python3
"""The tree as JSON (02, par. 1), against a writer and a check of the list that are written here from the document alone.

What `blocks` prints for the grammars of tests/grammars is read by Python's `json`, and is the tree that `spans` prints. Then `replay` is asked, all at once,
for node lists as text and for texts as node lists: of matches, of lists that no match makes, of words at random; texts cut off at every byte, with a byte
changed, with one more, with numbers of a thousand digits, a megabyte of `[`; rooms that are just large enough, and one byte or node short.

trees.py [SEED]
"""
import glob
import json
import os
import random
import re
import sys

from matcher import Grammar, Matcher
from programs import TOP, Programs
from questions import LAST_WORD, field

DEEPEST = 255
UNTOUCHED = 3735928559
BLOCKS_ROOM = 2097152  # bytes that the program `blocks` lends
CUT_EVERY = 5  # so manieth grammar has a text that is cut off at each byte


# ── the document ──
def first_bad(words, symbols, n):
    """The first node at which the words are no preorder list; None if they are one."""
    spans = []  # of the open nodes: where the next child may begin, and the end
    for k in range(len(words) // 4):
        symbol, start, end, depth = words[4 * k:4 * k + 4]
        if (depth == 0) != (k == 0) or depth > DEEPEST or depth > len(spans) or symbol >= symbols or not start <= end <= n:
            return k
        spans = spans[:depth]
        if spans:
            begin, stop = spans[-1]
            if start < begin or end > stop:
                return k
            spans[-1] = (end, stop)
        spans.append((start, end))
    return None if words and len(words) % 4 == 0 else len(words) // 4


def escaped(part):
    return "".join("\\" + chr(byte) if byte in b'"\\' else chr(byte) if 32 <= byte < 127 else f"\\u00{byte:02X}" for byte in part)


def text_of(names, text, words):
    """The JSON text of a list, by its depths."""
    said, last = "", None
    for k in range(len(words) // 4):
        symbol, start, end, depth = words[4 * k:4 * k + 4]
        if last is not None and depth <= last:
            said += "]}" * (last - depth + 1) + ","
        said += f'{{"name":"{names[symbol]}","start":{start},"end":{end},"text":"{escaped(text[start:end])}","children":['
        last = depth
    return (said + "]}" * (last + 1)).encode()


def words_in(names, tree, depth=0):
    words = [names.index(tree["name"]), tree["start"], tree["end"], depth]
    for child in tree["children"]:
        words += words_in(names, child, depth + 1)
    return words


def list_of(names, text, said):
    """The list that has this text; None if there is none."""
    try:
        words = words_in(names, json.loads(said))
        if first_bad(words, len(names), len(text)) is None and text_of(names, text, words) == said:
            return words
    except (ValueError, KeyError, TypeError, RecursionError):
        pass
    return None


# ── questions ──
def listed(words):
    return ",".join(map(str, words)) or "-"


def written(grammar, names, text, words, room):
    question = f"json lake {field(grammar)} {field(text)} {listed(words)} {room}"
    bad = first_bad(words, len(names), len(text))
    if bad is not None:
        return question, f"refused 15 {bad}"
    said = text_of(names, text, words)
    return question, f"text {said.hex()}" if len(said) <= room else f"refused 13 {len(said)}"


def read(grammar, names, text, said, room):
    question = f"unjson lake {field(grammar)} {field(text)} {field(said)} {room}"
    words = list_of(names, text, said)
    if words is None:
        answer, words = "refused 16 0", []
    elif room // 4 < len(words) // 4:
        answer, words = f"refused 12 {room // 4}", []
    else:
        answer = f"nodes {len(words) // 4}"
    return question, " ".join([answer, "; nodes", *map(str, words + [UNTOUCHED] * (room - len(words)))])


def handed(words):
    return f"handed {listed(words)}", " ".join(["handed", *map(str, words[:len(words) // 4 * 4])])


def some_list(chance, symbols, n):
    """A list that no match need make: any symbols, spans that nest."""
    words, spans = [], []
    for k in range(chance.randint(1, 9)):
        depth = chance.randint(1, len(spans)) if k else 0
        begin, stop = spans[depth - 1] if k else (0, n)
        start = chance.randint(begin, stop)
        end = chance.randint(start, stop)
        spans = spans[:depth]
        if k:
            spans[-1] = (end, stop)
        spans.append((start, end))
        words += [chance.randrange(symbols), start, end, depth]
    return words


def spoilt(chance, words):
    """The same with a word changed, lost, or one more."""
    words, i = list(words), chance.randrange(len(words))
    way = chance.randrange(4)
    if way == 0:
        words[i] = chance.choice([words[i] + 1, max(0, words[i] - 1), 0, 255, 256, 65536, LAST_WORD])
    elif way == 1:
        del words[i]
    elif way == 2:
        words.insert(i, chance.randrange(4))
    else:
        words[i], words[i - 1] = words[i - 1], words[i]
    return words


def changed(chance, said):
    i = chance.randrange(len(said))
    return chance.choice([said[:i] + said[i + 1:], said[:i] + bytes([chance.choice(b'0a"\\{}[],: x\xff\x00')]) + said[i + 1:],
                          said[:i] + bytes([chance.choice(b'0 "]},')]) + said[i:], re.sub(rb'":(\d+)', rb'":0\1', said, count=1),
                          said.replace(b"\\u00", b"\\u00", 1).lower(), said + b"\n", said + said])


def on_grammar(chance, grammar, texts, cut):
    """Questions on the texts, and if asked for on what is left of one when it is cut off at each byte."""
    names = Grammar(grammar).symbols
    for text in texts:
        match = [word for node in Matcher(Grammar(grammar), text).nodes() for word in node]
        for words in ([match] if match else []) + [some_list(chance, len(names), len(text)) for _ in range(3)]:
            said = text_of(names, text, words)
            yield written(grammar, names, text, words, len(said))
            yield written(grammar, names, text, words, len(said) - 1)
            yield read(grammar, names, text, said, len(words) + 3)
            yield read(grammar, names, text, said, len(words) - 1)
            yield handed(words)
            for _ in range(4):
                worse = spoilt(chance, words)
                yield written(grammar, names, text, worse, 4 * len(said))
                yield handed(worse)
                yield read(grammar, names, text, changed(chance, said), len(words))
        yield written(grammar, names, text, [chance.choice([0, 1, 2, LAST_WORD]) for _ in range(chance.randrange(9))], 99)
    for k in range(len(said) if cut else 0):
        yield read(grammar, names, text, said[:k], len(words))


def long_ones():
    grammar, names, text = b"a <- b b b <- 'x'", ["a", "b"], b"xx"
    said = text_of(names, text, [0, 0, 2, 0, 1, 0, 1, 1])
    most = 2**20 - len(said)  # `replay` takes no longer text
    for much in (b"[" * 2**20, b"{" * 2**20, said[:-4] + b"]}" * (most // 2), said.replace(b":2,", b":" + b"2" * 1000 + b","),
                 said.replace(b":2,", b":" + b"0" * 1000 + b"2,"), said.replace(b"xx", b"x" * most), b'{"name":"' + b"a" * most):
        yield read(grammar, names, text, much, 8)
    deep = [word for depth in range(256) for word in (0, 0, 2, depth)]
    yield written(grammar, names, text, deep, 20000)
    yield written(grammar, names, text, deep + [0, 0, 2, 256], 20000)
    yield read(grammar, names, text, text_of(names, text, deep), 1024)
    yield read(grammar, names, text, text_of(names, text, deep + [0, 0, 2, 256]), 1028)
    wide = b"\x00" * 65535
    yield written(b"a <- .*", ["a"], wide, [0, 0, 65535, 0], 2 * 2**17)
    yield written(b"a <- .*", ["a"], wide, [0, 0, 65535, 0, 0, 0, 65535, 1], 2 * 2**17)
    yield written(b"a <- .*", ["a"], b"x" * 65535, [0, 0, 65535, 0, 0, 9, 65535, 1], 2 * 2**17)


# ── the program `blocks` ──
def lines_of(tree, text, depth=0):
    """The tree as lines of `spans`; None where a text is not the input's."""
    if tree["text"] != text[tree["start"]:tree["end"]].decode("latin-1") or list(tree) != ["name", "start", "end", "text", "children"]:
        return None
    lines = [f"{tree['start']} {tree['end']} {depth} {tree['name']}"]
    for child in tree["children"]:
        below = lines_of(child, text, depth + 1)
        if below is None:
            return None
        lines += below
    return lines


def grammar_texts():
    for path in sorted(glob.glob(os.path.join(TOP, "tests", "grammars", "*.peg"))):
        with open(path, "rb") as file:
            grammar = file.read()
        texts = [line.decode("unicode_escape").encode("latin-1") for line in re.findall(rb"^# text: ?(.*)$", grammar, re.M)]
        yield grammar, texts


def printed(programs, grammar, text):
    spans, blocks = programs.run("spans", grammar, text).decode("latin-1"), programs.run("blocks", grammar, text).decode("latin-1")
    if not spans.startswith("match"):
        return spans == blocks
    tree = json.loads(blocks)
    return lines_of(tree, text) == spans.split("\n")[1:-1]


def stored_spans():
    """Lines `spans GRAMMAR INPUT => text HEX` of the implementation that shares no code with this one."""
    with open(os.path.join(TOP, "tests", "spans.txt"), encoding="ascii") as file:
        for line in file:
            question, answer = line.rstrip("\n").split(" => ")
            yield [bytes.fromhex(part.strip("-")) for part in (*question.split(" ")[1:], answer.split(" ")[1])]


def long_blocks(programs):
    """How many of two long texts `blocks` prints otherwise: one with 15,001 nodes, and one whose text has no room."""
    grammar = b"block <- '{' stmt* '}' stmt <- expr expr <- <lake>* ';'"
    names, bad = ["block", "stmt", "expr", "<lake>"], 0
    for count in (5000, 9000):
        text = b"{" + b"a;" * count + b"}"
        words = [0, 0, len(text), 0]
        for at in range(1, 2 * count, 2):
            words += [1, at, at + 2, 1, 2, at, at + 2, 2, 3, at, at + 1, 3]
        said = text_of(names, text, words)
        expected = said if len(said) <= BLOCKS_ROOM else f"refused 13 {len(said)}\n".encode()
        if programs.run("blocks", grammar, text) != expected:
            bad += 1
            print(f"trees: blocks prints something else for {count} statements")
    return bad


def main():
    seed = sys.argv[1] if sys.argv[1:] else "1"
    chance, asked, wrong, shown = random.Random(seed), [], 0, 0
    for number, (grammar, texts) in enumerate(grammar_texts()):
        asked += on_grammar(chance, grammar, [*texts, bytes(range(256)), b""], number % CUT_EVERY == 0)
    asked += long_ones()
    with Programs() as programs:
        answers = programs.run("replay", b"", "".join(question + "\n" for question, _ in asked).encode(), seconds=600).decode().split("\n")
        if len(answers) != len(asked) + 1 or answers[-1]:
            print(f"trees: {len(asked)} questions, and {len(answers) - 1} lines of answers, the last {answers[-2:]!r}")
            sys.exit(1)
        for (question, expected), got in zip(asked, answers):
            if got != expected:
                wrong += 1
                print(f"trees: {question[:400]}\ngot      {got[:400]}\nexpected {expected[:400]}")
        for grammar, texts in grammar_texts():
            for text in [*texts, b"", b"\x00\xff\"\\\x7f"]:
                shown += 1
                if not printed(programs, grammar, text):
                    wrong += 1
                    print(f"trees: blocks and spans differ on {text!r} by\n{grammar.decode('latin-1')}")
        shown += 2
        wrong += long_blocks(programs)
        for grammar, text, expected in stored_spans():
            shown += 1
            if programs.run("spans", grammar, text) != expected:
                wrong += 1
                print(f"trees: spans on {text!r} by\n{grammar.decode('latin-1')}")
    kinds = {word: sum(answer.startswith(word) for _, answer in asked) for word in ("text", "nodes", "handed", "refused 12", "refused 13", "refused 15", "refused 16")}
    print(f"trees: {len(asked)} questions, {', '.join(f'{n} {word}' for word, n in kinds.items())}; {shown} texts through blocks or spans; {wrong} wrong")
    sys.exit(1 if wrong or not all(kinds.values()) else 0)


if __name__ == "__main__":
    main()
