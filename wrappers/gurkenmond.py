"""Gurkenmond in Python, by ctypes over libgurkenmond.so of this machine (./build shared).

    gurkenmond = Gurkenmond()
    gurkenmond.match(grammar, text)     # Match, None for no match, or Refused

Texts are str or bytes. Of a str places are those of Python, in characters; a place within a character is the character's begin. No call raises an error for
what a grammar or a text holds: it is refused, as document 01 says.
"""
import ctypes
import os
from bisect import bisect_right
from itertools import accumulate
from typing import Callable, NamedTuple, Optional, Union

Text = Union[str, bytes]
LAKE, PLAIN = 0, 1
NO_MATCH, NO_CELLS, NO_ROOM_FOR_NODE, NO_ROOM = 100, 10, 12, 13
# refusals 1 to 5 have their place in the grammar's text
LAST_IN_TEXT = 5
NODE_WORDS, NODES_FIRST, NODES_MOST, ROOM_FIRST = 4, 1 << 12, 1 << 18, 1 << 12
SYMBOLS_MOST, LAST_WORD, LAST_NUMBER = 64, 2**32 - 1, 2**64 - 1
WHAT = ("", "grammar text too long", "syntax", "name, literal or parentheses over their bound", "name given twice, or reserved", "name without a rule",
        "too many symbols, terminals or expressions", "translation too large", "loop", "input too long", "too few work cells", "too deep", "too many nodes",
        "room too small", "no such expression, symbol, lake or position", "not a list of nodes", "not the JSON text of a list of nodes", "too few records")
WAYS = ("not", "rule", "water", "skip")

# document 01's number and place; line and column, from 1, where the place is one of the grammar's text
Refused = NamedTuple("Refused", [("number", int), ("place", int), ("line", Optional[int]), ("column", Optional[int]), ("what", str)])
Read = NamedTuple("Read", [("symbols", int), ("terminals", int), ("expressions", int)])
Set = NamedTuple("Set", [("symbols", list[int]), ("terminals", list[int])])
Sets = NamedTuple("Sets", [("rounds", int), ("beginning", Set), ("succeed", Set), ("alt", Set), ("epsilon", bool)])
Node = NamedTuple("Node", [("symbol", int), ("name", str), ("start", int), ("end", int), ("depth", int)])
Match = NamedTuple("Match", [("taken", int), ("nodes", list[Node])])
# of a symbol: how many nodes it has, how many bytes its outermost ones cover, the numbers of its first and last in the list; all 0 if it is not present
Summary = NamedTuple("Summary", [("symbol", int), ("name", str), ("present", bool), ("nodes", int), ("bytes", int), ("first", int), ("last", int)])
Position = NamedTuple("Position", [("line", int), ("column", int)])


class _Record(ctypes.Structure):
    _fields_ = [*((name, ctypes.c_uint64) for name in ("nodes", "bytes", "first", "last")), ("present", ctypes.c_uint8)]


class _Given:
    """A text's bytes, and the place of each byte."""

    def __init__(self, text: Text):
        self.text = text
        self.bytes = text.encode("utf-8", "surrogatepass") if isinstance(text, str) else bytes(text)
        self._ends: Optional[list[int]] = None

    def lent(self) -> tuple:
        return ctypes.c_char_p(self.bytes), ctypes.c_size_t(len(self.bytes))

    def ends(self) -> list[int]:
        """Of each character the byte behind it."""
        if self._ends is None:
            self._ends = list(accumulate(len(c.encode("utf-8", "surrogatepass")) for c in self.text))
        return self._ends

    def place(self, byte: int) -> int:
        return byte if not isinstance(self.text, str) or self.text.isascii() else bisect_right(self.ends(), byte)

    def byte(self, place: int) -> int:
        """The first byte of a place; one that lies outside of the text still does."""
        if not isinstance(self.text, str) or self.text.isascii() or place <= 0:
            return place
        within = min(place, len(self.text))
        return self.ends()[within - 1] + place - within

    def position(self, place: int) -> tuple[int, int]:
        before, end = self.text[:place], "\n" if isinstance(self.text, str) else b"\n"
        return before.count(end) + 1, place - (before.rfind(end) + 1) + 1


def _bits(word: int) -> list[int]:
    return [i for i in range(64) if word >> i & 1]


def _within(number: int, last: int) -> int:
    """A number as it is handed over; one that does not fit is the last, which no text and no list of nodes has."""
    return number if 0 <= number <= last else last


class Gurkenmond:
    def __init__(self, library: str = os.path.join(os.path.dirname(os.path.abspath(__file__)), "libgurkenmond.so")):
        self._library = ctypes.CDLL(library)

    def _call(self, call: str, *given) -> list[int]:
        out, function = (ctypes.c_uint64 * 9)(), getattr(self._library, call)
        function.restype = ctypes.c_uint64
        function(*given, out)
        return list(out)

    def _ask(self, call: str, mode: int, *given) -> list[int]:
        return self._call(call, ctypes.c_uint8(mode), *given)

    def _refused(self, grammar: _Given, out: list[int]) -> Refused:
        number, place = out[:2]
        if number > LAST_IN_TEXT:
            return Refused(number, place, None, None, WHAT[number])
        place = grammar.place(place)
        return Refused(number, place, *grammar.position(place), WHAT[number])

    def _on(self, call: str, good: Callable, grammar: Text, mode: int, *more):
        """A call on a grammar: what `good` makes of the numbers, or the refusal."""
        text = _Given(grammar)
        out = self._ask(call, mode, *text.lent(), *more)
        return self._refused(text, out) if out[0] else good(out)

    def read(self, grammar: Text, mode: int = LAKE) -> Union[Read, Refused]:
        return self._on("gm_read", lambda out: Read(*out[1:4]), grammar, mode)

    def sets(self, grammar: Text, expression: int, mode: int = LAKE) -> Union[Sets, Refused]:
        """BEGINNING, SUCCEED and ALT of an expression of the intermediate grammar, from 1."""
        good = lambda out: Sets(out[1], *(Set(_bits(out[i]), _bits(out[i + 1])) for i in (2, 4, 6)), bool(out[8]))
        return self._on("gm_sets", good, grammar, mode, ctypes.c_size_t(expression))

    def cannot_skip(self, grammar: Text, mode: int = LAKE) -> Union[list[int], Refused]:
        return self._on("gm_cannot_skip", lambda out: _bits(out[1]), grammar, mode)

    def _write(self, call: str, grammar: Text, mode: int, *more) -> Union[bytes, Refused]:
        """A call that writes: where the room is too small it says how many bytes it needs."""
        text, length = _Given(grammar), ROOM_FIRST
        while True:
            room = ctypes.create_string_buffer(length)
            out = self._ask(call, mode, *text.lent(), *more, room, ctypes.c_size_t(length))
            if out[0] != NO_ROOM:
                return self._refused(text, out) if out[0] else room.raw[:out[1]]
            length = out[1]

    def write_own(self, grammar: Text, mode: int = LAKE) -> Union[bytes, Refused]:
        return self._write("gm_write_own", grammar, mode)

    def write_plain(self, grammar: Text, mode: int = LAKE) -> Union[bytes, Refused]:
        return self._write("gm_write_plain", grammar, mode)

    def symbol_name(self, grammar: Text, symbol: int, mode: int = LAKE) -> Union[str, Refused]:
        """The name of a symbol, by its number, as it stands in the grammar: a lake's with its brackets."""
        name = self._write("gm_symbol_name", grammar, mode, ctypes.c_size_t(symbol))
        return name.decode() if isinstance(name, bytes) else name

    def names(self, grammar: Text, mode: int = LAKE) -> Union[list[str], Refused]:
        read = self.read(grammar, mode)
        return read if isinstance(read, Refused) else [self.symbol_name(grammar, symbol, mode) for symbol in range(read.symbols)]

    def _on_input(self, call: str, text: _Given, given: _Given, mode: int, *more) -> list[int]:
        """A call on a grammar and an input: lent no work cells it says how many it needs."""
        cells = 0
        while True:
            out = self._ask(call, mode, *text.lent(), *given.lent(), (ctypes.c_uint32 * max(cells, 1))(), ctypes.c_size_t(cells), *more)
            if out[0] != NO_CELLS:
                return out
            cells = out[1]

    def _matched(self, rules: _Given, given: _Given, mode: int) -> tuple:
        """A match's numbers, and the words that were lent for its nodes."""
        most = NODES_FIRST
        while True:
            words = (ctypes.c_uint32 * (NODE_WORDS * most))()
            out = self._on_input("gm_match", rules, given, mode, words, ctypes.c_size_t(len(words)))
            if out[0] != NO_ROOM_FOR_NODE or most >= NODES_MOST:
                return out, words
            most *= 8

    def _listed(self, grammar: Text, given: _Given, words, count: int, mode: int) -> list[Node]:
        nodes = [words[i:i + NODE_WORDS] for i in range(0, NODE_WORDS * count, NODE_WORDS)]
        names = {symbol: self.symbol_name(grammar, symbol, mode) for symbol in {node[0] for node in nodes}}
        return [Node(symbol, names[symbol], given.place(start), given.place(end), depth) for symbol, start, end, depth in nodes]

    def match(self, grammar: Text, text: Text, mode: int = LAKE) -> Union[Match, None, Refused]:
        rules, given = _Given(grammar), _Given(text)
        out, words = self._matched(rules, given, mode)
        if out[0]:
            return None if out[0] == NO_MATCH else self._refused(rules, out)
        return Match(given.place(out[1]), self._listed(grammar, given, words, out[2], mode))

    def json(self, grammar: Text, text: Text, mode: int = LAKE) -> Union[bytes, None, Refused]:
        """The tree of a match as JSON text; places in it are bytes of the text."""
        rules, given = _Given(grammar), _Given(text)
        out, words = self._matched(rules, given, mode)
        if out[0]:
            return None if out[0] == NO_MATCH else self._refused(rules, out)
        return self._write("gm_write_json", grammar, mode, *given.lent(), words, ctypes.c_size_t(NODE_WORDS * out[2]))

    def read_json(self, grammar: Text, text: Text, json: Text, mode: int = LAKE) -> Union[list[Node], Refused]:
        """The node list that such a text says, of the same grammar and text; any other text is refused 16."""
        rules, given, said, most = _Given(grammar), _Given(text), _Given(json), NODES_FIRST
        while True:
            words = (ctypes.c_uint32 * (NODE_WORDS * most))()
            out = self._ask("gm_read_json", mode, *rules.lent(), *given.lent(), *said.lent(), words, ctypes.c_size_t(len(words)))
            if out[0] != NO_ROOM_FOR_NODE or most >= NODES_MOST:
                return self._refused(rules, out) if out[0] else self._listed(grammar, given, words, out[1], mode)
            most *= 8

    def summarise(self, grammar: Text, text: Text, nodes: list[Node], mode: int = LAKE) -> Union[list[Summary], Refused]:
        """One record a symbol, by its number, of a list of nodes such as `match` and `read_json` answer; `bytes` are bytes also of a str."""
        rules, given = _Given(grammar), _Given(text)
        listed = [_within(word, LAST_WORD) for symbol, _, start, end, depth in nodes for word in (symbol, given.byte(start), given.byte(end), depth)]
        words, records = (ctypes.c_uint32 * max(len(listed), 1))(*listed), (_Record * SYMBOLS_MOST)()
        out = self._ask("gm_summarise", mode, *rules.lent(), *given.lent(), words, ctypes.c_size_t(len(listed)), records, ctypes.c_size_t(SYMBOLS_MOST))
        if out[0]:
            return self._refused(rules, out)
        return [Summary(symbol, self.symbol_name(grammar, symbol, mode), bool(record.present), record.nodes, record.bytes, record.first, record.last)
                for symbol, record in enumerate(records[:out[1]])]

    def line_and_column(self, text: Text, position: int) -> Union[Position, Refused]:
        """Line and column of a position in a text, both from 1; of a str the column is counted in characters too."""
        given = _Given(text)
        byte = given.byte(position)
        out = self._call("gm_line_and_column", *given.lent(), ctypes.c_size_t(_within(byte, LAST_NUMBER)))
        if out[0]:
            return self._refused(given, out)
        return Position(out[1], position - given.place(byte - (out[2] - 1)) + 1)

    def lake_at(self, grammar: Text, text: Text, lake: int, place: int, mode: int = LAKE) -> Union[str, Refused]:
        """How a lake, by its symbol number, matches at a place of the text."""
        rules, given = _Given(grammar), _Given(text)
        out = self._on_input("gm_lake_at", rules, given, mode, ctypes.c_size_t(lake), ctypes.c_size_t(given.byte(place)))
        return self._refused(rules, out) if out[0] else WAYS[out[1]]
