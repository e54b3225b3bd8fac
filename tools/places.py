#!/usr/bin/env python3
"""Places in crates/*/src that an older form may stand in, by the points of docs/DESIGN-PASS.md.

    tools/places.py             how many of each point
    tools/places.py POINT       each of them, as file:line: text

It reads the text alone: what it lists is to be looked at, not each of it is to be changed.
"""

import re
import sys
from collections import defaultdict
from pathlib import Path

TOP = Path(__file__).resolve().parent.parent


def sources():
    for path in sorted(TOP.glob("crates/*/src/**/*.rt")):
        yield path.relative_to(TOP), path.read_text(encoding="utf-8").split("\n")


FUNCTION = re.compile(r"^\s*(?:pub )?(?:extern \"C\" )?fn (\w+)")


class Function:
    """A function: its name, its place, the comment above it, its parameters, its result and its body."""

    def __init__(self, path, lines, at):
        self.path, self.at = path, at
        self.name = FUNCTION.match(lines[at]).group(1)
        indent = re.match(r"\s*", lines[at]).group(0)
        above = at - 1
        comment = []
        while above >= 0 and re.match(r"\s*(//|#\[)", lines[above]):
            comment.append(lines[above].strip())
            above -= 1
        self.comment = " ".join(reversed(comment))
        end = at
        while end < len(lines) and lines[end] != indent + "}":
            end += 1
        text = "\n".join(lines[at:end + 1])
        opens = text.index("(", text.index("fn "))
        depth, close = 0, opens
        for close in range(opens, len(text)):
            depth += {"(": 1, ")": -1}.get(text[close], 0)
            if depth == 0:
                break
        self.parameters = [p.strip() for p in split(text[opens + 1:close]) if p.strip()]
        behind = text[close + 1:]
        found = re.match(r"\s*->\s*([^\n{]+)", behind)
        self.result = found.group(1).strip() if found else ""
        start = re.search(r"\n" + indent + r"\{\n|\{\n|\{", behind)
        clauses = re.search(r"\n" + indent + r"\{\n", behind)
        self.body = behind[(clauses or start).end():] if (clauses or start) else ""

    def place(self, text=None):
        return f"{self.path}:{self.at + 1}: {text or 'fn ' + self.name}"


def split(text):
    """A list of parameters at its commas, those within brackets left alone."""
    out, depth, now = [], 0, ""
    for c in text:
        depth += {"(": 1, "[": 1, "<": 1, ")": -1, "]": -1, ">": -1}.get(c, 0)
        if c == "," and depth == 0:
            out.append(now)
            now = ""
        else:
            now += c
    return out + [now]


def functions():
    for path, lines in sources():
        for at, line in enumerate(lines):
            if FUNCTION.match(line):
                yield Function(path, lines, at)


def point1():
    """A number or a flag that says which kind of answer there is."""
    none = re.compile(r"\b(0|n|4,096|256|number of symbols|one more|as many|their number|1 \+ (the|its) (place|number)[^.]*;? 0|1,025)\b"
                      r"[^.;]*\b(where|if|for|says|none|there is)\b|: (width|size|number) 0|\bnone: |0:? none|number 0\b")
    for f in functions():
        number = re.search(r"(?<![\w\[; ])(usize|u8|u32)$", f.result)
        if number and none.search(f.comment):
            yield f.place(f"-> {f.result}  {f.comment[:110]}")
    for path, lines in sources():
        struct = None
        for at, line in enumerate(lines):
            found = re.match(r"^(?:pub )?struct (\w+)", line)
            if found:
                struct = found.group(1)
            elif line.startswith("}"):
                struct = None
            elif struct and re.match(r"^    (?:pub )?\w+: bool,", line):
                yield f"{path}:{at + 1}: struct {struct}: {line.strip()}"
            elif struct and re.match(r"^    (?:pub )?(kind|mode|why|wanted|found): u(8|size),", line):
                yield f"{path}:{at + 1}: struct {struct}: {line.strip()}"
            kind = re.match(r"^(?:pub )?const ([A-Z_]+): (?:usize|u8|u32) = (\d+);", line)
            if kind and not re.search(r"_AT$|WORDS|ROOM|MOST|BYTES|LENGTH|PLACES|COUNT|KEY$|SIZE|ENTRIES|BLOCKS|RUNS|TEXT|INPUT|CELLS|NODES$|LINE|GAPS|"
                                      r"RECORDS|RANGES|LANES|ABOUT|CONTENT|NAME$|BODY|LEFT|RIGHT|START|PAST|ENDS|DEPTH|SYMBOLS|PARTS|TASKS|KEYS|AROUND",
                                      kind.group(1)):
                yield f"{path}:{at + 1}: const {kind.group(1)} = {kind.group(2)}"


def skeleton(text):
    """A body with its names and numbers by order of appearance, so that twins come out the same."""
    names = {}
    out = []
    text = re.sub(r"//[^\n]*", "", text)
    keep = {"let", "mut", "while", "loop", "for", "in", "if", "else", "return", "match", "as", "usize", "u8", "u32", "u64", "true", "false", "len"}
    for token in re.findall(r"\w+|[^\s\w]", text):
        if token in keep or not re.match(r"\w", token):
            out.append(token)
        else:
            out.append(names.setdefault(token, f"#{len(names)}"))
    return " ".join(out)


def point2():
    """Functions whose bodies are the same but for names, numbers and types."""
    groups = defaultdict(list)
    for f in functions():
        if f.body.count("\n") >= 4:
            groups[skeleton(f.body)].append(f)
    for same in groups.values():
        for f in same[1:]:
            yield f.place(f"fn {f.name} is as {same[0].path.parts[1]}::{same[0].name}")


def point3():
    """Loops that count."""
    for path, lines in sources():
        for at, line in enumerate(lines):
            if not re.match(r"^\s*(while |loop \{)", line):
                continue
            indent = re.match(r"\s*", line).group(0)
            end = at + 1
            while end < len(lines) and lines[end] != indent + "}":
                end += 1
            body = "\n".join(lines[at:end])
            counts = re.findall(r"\n\s*(\w+) [+-]= 1;", body)
            condition = line.strip()
            if any(re.search(rf"\b{c}\b", condition) for c in counts):
                yield f"{path}:{at + 1}: {condition}"


def point4():
    """Equality, order, copying, conversion and printing by hand."""
    names = re.compile(r"^(same|equal|less|copy|clear|unmark|least|lesser|wide|bit|bit_of|fits|index|word_of|digit|number|hex|is_octal|below|cap|span|either|before|"
                       r"mode_of|way_of|not_matched|has_of|with|ones_of)(_\w+)?$")
    for f in functions():
        if names.match(f.name):
            yield f.place(f"fn {f.name}({', '.join(f.parameters)}) -> {f.result}")
    for path, lines in sources():
        for at, line in enumerate(lines):
            if re.search(r"\bVerdict::Refused \{$|Outcome::Refused \{$", line):
                yield f"{path}:{at + 1}: {line.strip()}"


def point5():
    """Three parameters or more that three functions or more of a crate take together."""
    groups = defaultdict(list)
    for f in functions():
        kinds = [re.sub(r"&mut ", "&", p) for p in f.parameters]
        for i in range(len(kinds) - 2):
            groups[f.path.parts[1], tuple(kinds[i:i + 3])].append(f)
    for (crate, three), users in sorted(groups.items()):
        if len(users) >= 3:
            yield f"crates/{crate}: {', '.join(three)}: {len(users)} functions, {users[0].name} .. {users[-1].name}"


def point6():
    """A run with how much of it counts beside it, and runs that belong together."""
    for f in functions():
        text = ", ".join(f.parameters)
        if re.search(r"\[[^\]]*\][^,]*, (count|laid|room|d|m): usize", text) or len(re.findall(r": &(?:mut )?\[[^,]*\]", text)) >= 4:
            yield f.place(f"fn {f.name}({text[:120]})")


def point7():
    """A flag or a number that says what a function does."""
    for f in functions():
        flags = [p for p in f.parameters if re.search(r": bool$", p) or re.match(r"(kind|write|op|way): (u8|usize)$", p)]
        if flags:
            yield f.place(f"fn {f.name}: {', '.join(flags)}")


def point8():
    """Proofs by hand: a file of answers or invariants each."""
    for path in sorted(TOP.glob("crates/*/proofs/**/*.antt")):
        if path.name in ("Answers.antt", "Invariants.antt"):
            count = len(path.read_text(encoding="utf-8").split("\n"))
            yield f"{path.relative_to(TOP)}: {count} lines"


POINTS = {"1": point1, "2": point2, "3": point3, "4": point4, "5": point5, "6": point6, "7": point7, "8": point8}


def main():
    if len(sys.argv) > 1:
        for place in POINTS[sys.argv[1]]():
            print(place)
        return
    for number, places in POINTS.items():
        print(f"{number}: {len(list(places()))}  {places.__doc__.splitlines()[0]}")


if __name__ == "__main__":
    main()
