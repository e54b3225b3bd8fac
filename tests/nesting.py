#!/usr/bin/env python3
"""Every operator nested as deep as parentheses go, through `replay`: the answers of the independent matcher, in a time that does not double by the level.

Each operator is nested alone and by turns with each other one, around a part that may take nothing and around a symbol, and as a lake's rule and water.
The questions on a nest of 32 levels take at most FACTOR times the processor time of those on one of 16. Were a part asked twice at one place by every
second level, it would be 256 times without the time to read, which is most of what a question takes: the four copies and the short texts make that show.
"""
import itertools
import resource
import subprocess
import sys

from matcher import Grammar, Matcher, matched
from programs import Programs

LEVELS = 32
FACTOR = 4
NODE_WORDS = 64
WRAPS = ["({})?", "({})*", "({})+", "&({})", "!({})", "({} / 'x')", "('y' / {})", "({} 'x'?)", "('x'? {})", "({} .)*"]


def nest(levels, inner, outer, core):
    for level in range(levels):
        core = (outer if level % 2 else inner).format(core)
    return core


def match(source, grammar, text):
    """A question and its answer."""
    cells = len(grammar.symbols) * (len(text) + 1)
    return f"match lake {source.hex()} {text.hex() or '-'} {cells} {NODE_WORDS}", matched(grammar, text, cells, NODE_WORDS)


def lake(source, grammar, text, name, place):
    matcher = Matcher(grammar, text)
    table = matcher.cells()
    return (f"lake lake {source.hex()} {text.hex() or '-'} {len(table)} {grammar.symbols.index(name)} {place}",
            " ".join([f"value {matcher.lake(name, place)[0]}", "; cells", *map(str, table)]))


def questions(levels, inner, outer):
    empty, symbol, other = (nest(levels, *pair) for pair in ((inner, outer, "'x'?"), (inner, outer, "b"), (outer, inner, "'x'")))
    for rules, texts in ((f"s <- {empty} 'z' / {empty} 'z' / {empty} 'z' / {empty}\n", [b"", b"x", b"y", b"xy"]),
                         (f"s <- {symbol}\nb <- 'x'\n", [b"xxyx", b"xxxx"]),
                         (f"s <- <l>* 'y'\n<l> <- {symbol}\nwater <- {other}\nb <- 'x'\n", [b"xy"])):
        source, grammar = rules.encode(), Grammar(rules.encode())
        for text in texts:
            yield match(source, grammar, text)
            if "<l>" in grammar.symbols:
                for place in range(len(text) + 1):
                    yield lake(source, grammar, text, "<l>", place)


def processor_time():
    used = resource.getrusage(resource.RUSAGE_CHILDREN)
    return used.ru_utime + used.ru_stime


def ask(programs, asked):
    """The wrong answers, and the processor time of all; None if there was no end."""
    before = processor_time()
    try:
        said = programs.run("replay", b"", "".join(line + "\n" for line, _ in asked).encode()).decode().split("\n")
    except subprocess.TimeoutExpired as late:
        return [f"no answer in {late.timeout} s"], None
    taken = processor_time() - before
    said += [""] * len(asked)
    return [f"{line}\n  {got}, not\n  {right}" for (line, right), got in zip(asked, said) if got != right], taken


def problems(programs, inner, outer):
    """What is wrong with a nest, and how many times as long it takes at twice the levels."""
    found, half = ask(programs, list(questions(LEVELS // 2, inner, outer)))
    more, whole = ask(programs, list(questions(LEVELS, inner, outer)))
    found += more
    if half is None or whole is None:
        return found, 0
    if whole > FACTOR * half:
        found.append(f"{whole:.2f} s at {LEVELS} levels, {half:.2f} s at {LEVELS // 2}")
    return found, whole / half


def main():
    wrong, worst = 0, 0
    with Programs() as programs:
        for inner, outer in itertools.product(WRAPS, WRAPS):
            found, times = problems(programs, inner, outer)
            worst = max(worst, times)
            wrong += bool(found)
            for problem in found:
                print(f"nesting: {inner} in {outer}: {problem}")
    print(f"nesting: {len(WRAPS) ** 2} nests of {LEVELS} levels, at most {worst:.1f} times as long as those of {LEVELS // 2}, {wrong} wrong")
    return 1 if wrong else 0


if __name__ == "__main__":
    sys.exit(main())
