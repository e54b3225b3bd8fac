#!/usr/bin/env python3
"""The worst grammars within a narrow stack: no proof sees the stack, and a program that runs out of it is killed.

stack.py [KIB]     the answers below, with KIB of stack (default: STACK_KIB)
stack.py --least   what each public call of the library has used of a painted stack, the most on these cases, then the least stack, in steps of 64 KiB, with
                   which the programs still answer each case
"""
import os
import platform
import re
import subprocess
import sys
import tempfile

from matcher import Grammar, plain_text
from programs import TOP, Programs

STACK_KIB = 640


def nest(levels):
    """The spans of `levels` nodes a, each in the one before it, over as many bytes."""
    return [f"match {levels}"] + [f"{k} {levels} {k} a" for k in range(levels)]


def cases():
    """Name, grammar, text, lines of the answer."""
    # 'x', a, ? and 169 times 'y'? with the 170 sequences between: 511 expressions
    wide = "a <- 'x' a?" + " 'y'?" * 169
    yield "255 levels of 171 parts", wide, "x" * 255, nest(255)
    yield "256 levels of 171 parts", wide, "x" * 256, nest(256)
    yield "depth 256 of 171 parts", wide, "x" * 257, ["refused 11 256"]
    choices = "a <- " + "'y' / " * 253 + "'x' a / 'x'"
    yield "256 levels of 255 alternatives", choices, "x" * 256, nest(256)
    folded = "a <- 'x' " + "(" * 32 + "a" + ")?" * 32
    yield "256 levels of 32 parentheses", folded, "x" * 256, nest(256)
    yield "depth 256 of 32 parentheses", folded, "x" * 257, ["refused 11 256"]
    mixed = "a <- 'x' " + "('y' / 'y'? (" * 16 + "a?" + ")? 'y'?)?" * 16
    yield "256 levels of 32 parentheses with choices and sequences", mixed, "x" * 256, nest(256)
    guarded = "a <- 'x' " + "&(" * 31 + "a / !." + ")" * 31 + " a?"
    yield "256 levels of 31 guards", guarded, "x" * 256, nest(256)
    doubled = "\n".join(f"r{k} <- r{k + 1} r{k + 1}" for k in range(63)) + "\nr63 <- 'x'?"
    yield "2^64 - 1 nodes", doubled, "", ["refused 12 1024"]
    yield "2^64 - 1 nodes and a byte", doubled, "x", ["refused 12 1024"]
    deep = "\n".join(f"r{k} <- r{k + 1}" for k in range(63)) + "\nr63 <- 'x' r0?"
    yield "64 symbols a level", deep, "x" * 4, ["match 4"] + [f"{k // 64} 4 {k} r{k % 64}" for k in range(256)]
    yield "64 symbols a level, too deep", deep, "x" * 5, ["refused 11 256"]
    yield "a sequence of 256 parts", "a <- " + " ".join(["'x'"] * 256), "x" * 256, ["match 256", "0 256 0 a"]
    yield "a choice of 256 alternatives", "a <- " + "'y' / " * 255 + "'x'", "x", ["match 1", "0 1 0 a"]
    right = "a <- " + "'y' / !'y' (" * 32 + "'x'" + ")" * 32
    yield "32 parentheses on the right", right, "x", ["match 1", "0 1 0 a"]
    left = "a <- " + "(" * 32 + "'x'" + " 'y' / 'x')" * 32
    yield "32 parentheses on the left", left, "x", ["match 1", "0 1 0 a"]
    both = "a <- " + "('x' / " * 32 + " / ".join(["'y' 'z'"] * 100) + ")" * 32
    yield "32 parentheses around 100 alternatives", both, "yz", ["match 2", "0 2 0 a"]
    lake = "a <- 'x' <l>* ';'\n<l> <- " + " / ".join(["'p'"] * 120) + "\nwater <- " + " / ".join(["'q'"] * 120)
    yield "a lake of 240 alternatives", lake, "xpqr;", ["match 5", "0 5 0 a", "1 2 1 <l>", "2 3 1 <l>", "3 4 1 <l>"]
    flooded = "a <- 'x' <l> a?" + "\nwater <- " + " / ".join(["'q'"] * 169)
    nodes = [[f"{2 * k} 510 {k} a", f"{2 * k + 1} {2 * k + 2} {k + 1} <l>"] for k in range(255)]
    yield "255 levels of a lake with 169 alternatives of water", flooded, "xr" * 255, ["match 510", *sum(nodes, [])]
    # in plain each lake has a copy of water: 1,024 expressions, and 1,025
    full = "a <- 'x' <l>* <m>* ';'\nwater <- " + " / ".join(["'q'"] * 168)
    yield "1,024 expressions in plain", full, "xqr;", ["match 4", "0 4 0 a", "1 2 1 <l>", "2 3 1 <l>"]
    over = "a <- 'x' <l>* <m>* <n>* ';' / 'z'\nwater <- " + " / ".join(["'q'"] * 125)
    yield "1,025 expressions in plain", over, "xqr;", ["refused 7 1025"]
    yield "32 parentheses", "a <- " + "(" * 32 + "'x'" + ")" * 32, "x", ["match 1", "0 1 0 a"]
    yield "33 parentheses", "a <- " + "(" * 33 + "'x'" + ")" * 33, "x", ["refused 3 37"]
    yield "16,384 bytes of parentheses", "(" * 16384, "x", ["refused 2 0"]
    yield "16,379 parentheses after an arrow", "a <- " + "(" * 16379, "x", ["refused 3 37"]
    yield "16,385 bytes of parentheses", "(" * 16385, "x", ["refused 1 16384"]
    yield "100,000 bytes of parentheses", "(" * 100000, "x", ["refused 1 16384"]
    yield "1,489 rules", "".join(f"a{k}<-'x' " for k in range(1489)), "x", ["refused 6 1"]
    yield "3,276 rules", "a<-b " * 3276, "x", ["refused 4 5"]
    yield "16,383 bytes of input", "a <- 'x'*", "x" * 16383, ["match 16383", "0 16383 0 a"]
    yield "16,384 bytes of input", "a <- 'x'*", "x" * 16384, ["refused 10 16385"]
    yield "65,535 bytes of input", "a <- 'x'*", "x" * 65535, ["refused 10 65536"]
    yield "65,536 bytes of input", "a <- 'x'*", "x" * 65536, ["refused 9 65535"]
    yield "100,000 bytes of input", "a <- 'x'*", "x" * 100000, ["refused 9 65535"]


def wrong(kib):
    """The cases that do not answer as they should."""
    with Programs(kib) as programs:
        for name, grammar, text, lines in cases():
            answer = programs.spans(grammar.encode(), text.encode())
            if answer != "".join(line + "\n" for line in lines).encode():
                yield name, answer[:60], lines[0]
            written = programs.plain(grammar.encode())
            if written != plain_of(grammar, lines[0]):
                yield name + " in plain", written[:60], plain_of(grammar, lines[0])[:60]


def plain_of(grammar, line):
    """What `plain_text` writes where `spans` begins with that line: the refusal if it is one of 1 to 8."""
    if re.match("refused [1-8] ", line):
        return line.encode() + b"\n"
    return plain_text(Grammar(grammar.encode()))


def calls():
    """Each kind of question, as `replay` names it, with the most bytes of stack that its call has used."""
    import library  # which takes its worst questions from here

    subprocess.run([os.path.join(TOP, "build"), platform.machine()], check=True)
    with tempfile.TemporaryDirectory() as folder:
        harness = library.compile_harness(folder, platform.machine())
        asked = subprocess.run([harness, "paint"], input=library.lines(library.worst_questions()[0]), capture_output=True, check=True)
    return [line.split() for line in asked.stderr.decode().splitlines()]


def least():
    for kind, used in calls():
        print(f"{int(used) / 1024:7.1f} KiB  the call of `{kind}`")
    for name, grammar, text, lines in cases():
        low, high = 0, 8192 // 64
        while high - low > 1:
            middle = (low + high) // 2
            with Programs(64 * middle) as programs:
                answers = [programs.spans(grammar.encode(), text.encode()), programs.plain(grammar.encode())]
            if any(answer.startswith(b"ended") for answer in answers):
                low = middle
            else:
                high = middle
        print(f"{64 * high:7} KiB  {name}")


if __name__ == "__main__":
    if sys.argv[1:] == ["--least"]:
        least()
        sys.exit(0)
    kib = int(sys.argv[1]) if sys.argv[1:] else STACK_KIB
    problems = list(wrong(kib))
    for name, got, expected in problems:
        print(f"stack: {name}: {got!r}, expected {expected!r}")
    print(f"stack: {len(list(cases()))} cases with {kib} KiB, {len(problems)} wrong")
    sys.exit(1 if problems else 0)
