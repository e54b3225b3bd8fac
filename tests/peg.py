#!/usr/bin/env python3
"""Parsers that Debian's `peg` makes of our plain texts take as many bytes as `spans` says, on the grammars of tests/grammars: on their texts, and on these cut
off anywhere, so that a lake's repeat reaches the text's end (02, par. 4). Where `peg` is not there, it is installed; where it cannot be had, the test fails:
nothing was compared.

A line `# text: ..` of a grammar is a text for it. A repeat of `peg` with an empty round never ends; in these grammars no round may take nothing.
"""
import glob
import os
import re
import subprocess
import sys
import tempfile

from packages import lacks
from programs import TOP, Programs

# bytes taken: those read less those left behind the match
MAIN = r"""
#include <stdio.h>
static int come;
#define YY_INPUT(buf, result, max_size) { int c = getchar(); result = c == EOF ? 0 : (*(buf) = c, ++come, 1); }
#include "parser.c"
int main(void) { if (yyparse()) printf("match %d\n", come - yyctx->__limit); else printf("none\n"); return 0; }
"""
PACKAGES = {"peg": ["peg"], "gcc": ["gcc", "libc6-dev"]}
# the text on which the parser of grammar G ran for ever, as long as a lake could take nothing at the text's end
FIRST_GRAMMAR, FIRST_CUT = "block.peg", b"{a"
LEAST_CUTS = 100
# lent to a match of a text cut off: nodes for each of its bytes
NODES_A_BYTE = 8


def make_parser(folder, written):
    """What peg and the compiler complain of; the parser is folder/parser."""
    with open(f"{folder}/parser.peg", "wb") as file:
        file.write(written)
    with open(f"{folder}/main.c", "w") as file:
        file.write(MAIN)
    made = subprocess.run(["peg", "-o", "parser.c", "parser.peg"], cwd=folder, capture_output=True, text=True, errors="replace")
    # a lake has a copy of water's right side, so that often nothing else names the rule
    said = made.stderr.replace("rule 'water' defined but not used\n", "")
    if said or made.returncode:
        return f"peg: {said} status {made.returncode}"
    built = subprocess.run(["gcc", "-w", "-o", "parser", "main.c"], cwd=folder, capture_output=True, text=True, errors="replace")
    return built.stderr or None


def taken_by_peg(folder, text):
    try:
        return subprocess.run([f"{folder}/parser"], input=text, capture_output=True, timeout=10).stdout.split(b"\n")[0].decode()
    except subprocess.TimeoutExpired:
        return "no end"


def cut_off(texts):
    """Every text of which one of these is more, the empty one too."""
    return sorted({text[:end] for text in texts for end in range(len(text))}, key=lambda cut: (len(cut), cut))


def taken_by_us(programs, grammar, cuts):
    """What `replay` says of a match of each."""
    name = grammar.hex()
    symbols = int(programs.run("replay", b"", f"read lake {name}\n".encode()).split(b" ")[1])
    asked = [f"match lake {name} {cut.hex() or '-'} {symbols * (len(cut) + 1)} {4 * NODES_A_BYTE * (len(cut) + 1)}" for cut in cuts]
    said = programs.run("replay", b"", "".join(line + "\n" for line in asked).encode()).decode().split("\n")[:-1]
    assert len(said) == len(cuts)
    return [line.split(" ;")[0] for line in said]


def check(path, programs, folder):
    """How many texts were compared, how many of these cut off, and what was wrong."""
    with open(path, "rb") as file:
        grammar = file.read()
    written = programs.plain(grammar)
    if written.startswith((b"refused", b"unreadable", b"ended")):
        return 0, 0, [f"plain_text: {written!r}"]
    problem = make_parser(folder, written)
    if problem:
        return 0, 0, [problem]
    texts = [line.decode("unicode_escape").encode("latin-1") for line in re.findall(rb"^# text: (.*)$", grammar, re.MULTILINE)]
    cuts = cut_off(texts)
    wrong = [] if len(texts) >= 3 else ["it has fewer than three texts"]
    if os.path.basename(path) == FIRST_GRAMMAR and FIRST_CUT not in cuts:
        wrong.append(f"{FIRST_CUT!r} is no text cut off")
    ours = [programs.spans(grammar, text).split(b"\n")[0].decode() for text in texts] + taken_by_us(programs, grammar, cuts)
    for text, we in zip(texts + cuts, ours):
        they = taken_by_peg(folder, text)
        if we != they:
            wrong.append(f"text {text!r}: we say {we}, peg's parser {they}")
    return len(texts), len(cuts), wrong


def main():
    problem = lacks(PACKAGES)
    if problem:
        print(f"{problem}\npeg: FAILED: {' and '.join(PACKAGES)} of Debian are needed, and could not be installed")
        return 1
    paths = sorted(glob.glob(os.path.join(TOP, "tests", "grammars", "*.peg")))
    compared = ends = failed = 0
    with Programs() as programs, tempfile.TemporaryDirectory() as folder:
        for path in paths:
            texts, cuts, wrong = check(path, programs, folder)
            compared += texts
            ends += cuts
            failed += bool(wrong)
            for problem in wrong:
                print(f"peg: {os.path.basename(path)}: {problem}")
    if ends < LEAST_CUTS:
        failed += 1
        print(f"peg: {ends} texts cut off, and {LEAST_CUTS} are wanted")
    print(f"peg: {len(paths)} grammars, {compared} texts, {ends} more cut off anywhere, {failed} grammars wrong")
    return 1 if failed or not paths else 0


if __name__ == "__main__":
    sys.exit(main())
