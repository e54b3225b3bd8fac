#!/usr/bin/env python3
"""Questions on a symbol's name, on node words, on records and positions, as lines of `replay`, each with the answer that documents 01 and 02 and the
independent reader give.

Nothing here comes from the code under test: names are those of the grammar as `matcher.py` reads it, refusals 1 to 8 those of the stored questions.

questions.py   prints those that `replay` has stored, `QUESTION => ANSWER` a line
"""
import os
import re

from matcher import Grammar, Matcher, Reader, symbols_of
from programs import TOP

# more than any name needs: 32 bytes and the brackets of a lake, in plain mode 38 bytes
NAME_ROOM = 40
# the largest word, and the largest number that `replay` reads
LAST_WORD = 2**32 - 1
# of the stored grammars every so manieth is asked for its names and records in `replay` too
EVERY = 10


def field(given):
    return given.hex() or "-"


def stored(name):
    """The lines of one of replay's two files, `stdin` or `stdout`."""
    with open(os.path.join(TOP, "crates", "replay", name), "rb") as file:
        return file.read().decode("ascii").split("\n")[:-1]


# ── names ──
def names_of(grammar, plain):
    return symbols_of(Reader(grammar, plain).rules())


def name_question(mode, grammar, symbol, room):
    return f"name {mode} {field(grammar)} {symbol} {room}"


def name_answer(names, symbol, room):
    """14 for a symbol that the grammar has not comes before 13."""
    if symbol >= len(names):
        return "refused 14 0"
    name = names[symbol].encode()
    return f"text {name.hex()}" if len(name) <= room else f"refused 13 {len(name)}"


def stored_grammars():
    """Each mode and grammar of the stored questions once, with its refusal by 1 to 8, None where it is accepted; but for what is asked here itself."""
    known = {}
    for question, answer in zip(stored("stdin"), stored("stdout")):
        mode = re.match(r"(?!name|summary)\w+ (lake|plain) ([0-9a-f]+|-)( |$)", question)
        if mode and answer != "unreadable":
            refusal = re.match(r"refused [1-8] \d+", answer)
            known[mode[1], bytes.fromhex(mode[2].strip("-"))] = refusal and refusal[0]
    return known


def name_questions(mode, grammar, refusal, far):
    """On one grammar: each symbol in just its room, one a byte short, one past the last and one `far` beyond; any of a grammar that is refused."""
    if refusal:
        return [(name_question(mode, grammar, symbol, room), refusal) for symbol, room in ((0, NAME_ROOM), (far, 0))]
    names = names_of(grammar, mode == "plain")
    asked = [(symbol, len(name)) for symbol, name in enumerate(names)]
    short = len(grammar) % len(names)
    asked += [(short, len(names[short]) - 1), (short, NAME_ROOM), (len(names), NAME_ROOM), (len(names), 0), (far, 0)]
    return [(name_question(mode, grammar, symbol, room), name_answer(names, symbol, room)) for symbol, room in asked]


# What the stored grammars have not: names as long as may be, `lake__` in plain mode, a lake beside a symbol of its name, one used under a guard first, no
# grammar, one that breaks off, names that the other mode refuses, texts that are too long.
NAME_CASES = [
    ("lake", f"{'A' * 32} <- <{'b' * 32}> {'A' * 31}9\n{'A' * 31}9 <- 'x'".encode(), None),
    ("plain", f"{'_' * 38} <- {'a' * 37}Z\n{'a' * 37}Z <- '<x>'".encode(), None),
    ("plain", b"lake__ <- lake__x water\nlake__x <- 'x'\nwater <- 'y'", None),
    ("lake", b"x <- !<x> <y> 'x' / (<x> <z>)* # <q>\n<y> <- <w>\nw <- 'w' <v>", None),
    ("lake", b"", "refused 2 0"),
    ("plain", b"", "refused 2 0"),
    ("lake", b"a <- 'x' <b", "refused 2 9"),
    ("plain", b"a <- 'x' <b>", "refused 2 9"),
    ("lake", b"a <- 'x'\nlake__a <- 'x'", "refused 4 9"),
    ("lake", b"a <- 'x'" + b" " * 16377, "refused 1 16384"),
    ("plain", b"a <- 'x'" + b" " * 1048569, "refused 1 1048576"),
]


def all_grammars():
    """Mode, grammar and its refusal, or None, of those that are stored and those above."""
    return [(mode, grammar, refusal) for (mode, grammar), refusal in stored_grammars().items()] + NAME_CASES


def all_name_questions(far):
    return [asked for case in all_grammars() for asked in name_questions(*case, far)]


# ── nodes ──
def span(words, k, n):
    """Start and end of node k, where it lies whole in the words with start ≤ end ≤ n."""
    if 4 * (k + 1) > len(words):
        return None
    start, end = words[4 * k + 1:4 * k + 3]
    return (start, end) if start <= end <= n else None


def node_questions(text, words, k):
    """Whether a node is sound, its text, and where in the input it is; of an unsound node the empty part at 0."""
    listed, found = ",".join(map(str, words)) or "-", span(words, k, len(text))
    start, end = found or (0, 0)
    return [(f"sound {listed} {k} {len(text)}", f"sound {int(found is not None)}"),
            (f"text {field(text)} {listed} {k}", f"text {field(text[start:end])}"),
            (f"span {field(text)} {listed} {k}", f"span {start} {end - start}")]


# A text, words and a node each: sound ones with all of the text, a part and none of it; ends before starts, ends past the text, words that are too few, a
# node past them, words as large as may be.
NODE_CASES = [(text, words, k) for text, words in [
    (b"{a;}", [0, 0, 4, 0, 1, 1, 3, 1, 2, 1, 3, 2, 3, 1, 2, 3]),
    (b"abc", [7, 0, 0, 0, 7, 1, 1, 9, 7, 3, 3, 0, 7, 2, 1, 0, 7, 3, 4, 0, 7, 4, 4, 0]),
    (b"abc", [LAST_WORD, 1, 2, LAST_WORD, 0, 0, LAST_WORD, 0, 0, LAST_WORD, LAST_WORD, 0, 0, LAST_WORD, 1, 0]),
    (b"abc", [0, 0, 3, 0, 0, 1, 2]), (b"abc", [0, 0, 3]), (b"abc", []), (b"", []), (b"", [0, 0, 0, 0, 0, 0, 1, 0, 0, 1, 1, 0]), (b"\x00\xff\n ", [1, 1, 4, 1]),
] for k in [*range(len(words) // 4 + 2), LAST_WORD // 4, LAST_WORD // 4 + 1, LAST_WORD]]


# ── records and positions ──
ABSENT, LENT = "0:0:0:0:0", "x"


def summary_questions(mode, grammar, refusal):
    """On one grammar, of an empty node of its last symbol: just enough records, one more, one too few; of a symbol that it has not; of a refused grammar."""
    count = 2 if refusal else len(names_of(grammar, mode == "plain"))
    lent = lambda said, records, left: " ".join([said, "; records", *records, *[LENT] * left])
    good, bad = f"{count - 1},0,0,0", f"{count},0,0,0"
    records = [ABSENT] * (count - 1) + ["1:0:0:0:1"]
    asked = [(good, count, lent(f"summary {count}", records, 0)), (good, count + 1, lent(f"summary {count}", records, 1)),
             (good, count - 1, lent(f"refused 17 {count}", [], count - 1)), (bad, 0, lent("refused 15 0", [], 0))]
    if refusal:
        asked = [(good, count, lent(refusal, [], count))]
    return [(f"summary {mode} {field(grammar)} - {words} {room}", answer) for words, room, answer in asked]


def all_summary_questions():
    return [asked for case in all_grammars() for asked in summary_questions(*case)]


def place_question(text, position, line, column):
    return f"where {field(text)} {position}", f"at {line} {column}" if line else "refused 14 0"


# Texts with the line and column of each position, from 0 to their end, read off the document: LF ends a line and stands on it, and nothing else does.
PLACE_CASES = [
    (b"", [(1, 1)]), (b"a", [(1, 1), (1, 2)]), (b"\n", [(1, 1), (2, 1)]), (b"\n\n\n", [(1, 1), (2, 1), (3, 1), (4, 1)]),
    (b"a\r\nb", [(1, 1), (1, 2), (1, 3), (2, 1), (2, 2)]), (b"\r\r", [(1, 1), (1, 2), (1, 3)]), (b"\n\ra\n", [(1, 1), (2, 1), (2, 2), (2, 3), (3, 1)]),
    (b"\x0b\x0c\x85\n\xc3\xa4", [(1, 1), (1, 2), (1, 3), (1, 4), (2, 1), (2, 2), (2, 3)]),
]


def place_questions():
    asked = [place_question(text, position, *place) for text, places in PLACE_CASES for position, place in enumerate(places)]
    return asked + [place_question(text, position, None, None) for text, _ in PLACE_CASES for position in (len(text) + 1, LAST_WORD)]


# Lines that begin as questions on names, nodes, records and positions, and are none.
UNREADABLE = [
    "name lake 61 x 3", "name lake 61", "name water 61 0 3", "name plain 6g 0 3", "sound", "sound - 0", "sound - x 1", "sound x 0 1", "sound -1 0 1",
    "sound ,1 0 1", "sound 1, 0 1", "sound 1,,2 0 1", "sound 4294967296,0,0,0 0 1", "text", "text 6 - 0", "text zz - 0", "text - - x", "text - 1;2 0",
    "text - 42949672950 0", "summary", "summary lake 61203c2d202e", "summary lake 61203c2d202e - 0,0,0,0", "summary lake 61203c2d202e - - 97",
    "summary lake 61203c2d202e - 0;0 1", "summary lake 61203c2d202e - 4294967296 1", "summary water 61203c2d202e - - 1", "summary plain 6g - - 1",
    "summary lake 61203c2d202e 6 - 1", "where", "where -", "where - x", "where 6 0", "where zz 0", "where - 4294967296", "where - 18446744073709551616",
]


def first_nodes():
    """The match of the first grammar of the documents on its text."""
    parts = [open(os.path.join(TOP, "docs", name), "rb").read() for name in ("first.peg", "first.txt")]
    words = [word for node in Matcher(Grammar(parts[0]), parts[1].strip()).nodes() for word in node]
    return [(parts[1].strip(), words, k) for k in range(len(words) // 4 + 1)]


def to_store():
    """What `replay` has stored of all this. A text of 1 MiB is left to the library."""
    grammars = [(mode, grammar, refusal) for (mode, grammar), refusal in stored_grammars().items()]
    cases = [case for case in [*grammars[::EVERY], *NAME_CASES] if len(case[1]) < 2**16]
    names = [asked for case in cases for asked in name_questions(*case, LAST_WORD)]
    nodes = [asked for case in [*first_nodes(), *NODE_CASES] for asked in node_questions(*case)[:2]]
    records = [asked for case in cases for asked in summary_questions(*case)]
    return [*dict.fromkeys([*names, *nodes, *records, *place_questions()]), *((line, "unreadable") for line in UNREADABLE)]


if __name__ == "__main__":
    for question, answer in to_store():
        print(f"{question} => {answer}")
