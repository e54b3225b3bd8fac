#!/usr/bin/env python3
"""Texts of 1 and 16 KB through `replay`: matching and listing a byte of the long text takes at most RATIO times as long as one of the short text.

In each grammar the symbols are small and what they hold is not: parts without a symbol that look far ahead and are asked anew at every place. A list that
walked them would take 16 times as long a byte. A text of 16 KB has half a megabyte of cells and nodes, one of 1 KB lies in the processor's nearest cache:
where others use the caches too that has made 1.25 times of a time that is linear, so that RATIO lies between. 16,000 nodes are what `replay` has room for.
"""
import resource
import subprocess
import sys

from programs import Programs

SHORT, LONG = 1000, 16000
RATIO = 2
RUNS, MOST_RUNS = 3, 12  # where it seems to take longer, it is measured again: others use the processors too
ASKED = 4  # of the long text, and as many bytes of the short one, so that both take the same time
CASES = [
    ("a body that looks far ahead", "s <- t*\nt <- 'x'* 'y' / .\n"),
    ("a guard that looks far ahead", "s <- t*\nt <- !('x'* 'y') .\n"),
    ("an option that looks far ahead", "s <- t*\nt <- ('x'* 'y')? .\n"),
    ("a run that is asked for beside a symbol", "s <- ('x'* 'y' / t)*\nt <- .\n"),
]


def question(rules, size):
    """`size` bytes that are matched one by one."""
    return f"match lake {rules.encode().hex()} {(b'x' * size).hex()} {2 * (size + 1)} {4 * (size + 1)}\n"


def answer(size):
    """Its first words: all is matched, by nodes of one byte each."""
    return f"match {size} ; cells"


def nodes(size):
    words = [0, 0, size, 0]
    for place in range(size):
        words += [1, place, place + 1, 1]
    return "; nodes " + " ".join(map(str, words))


def taken(programs, rules, size):
    """The processor time of one run, or what is wrong."""
    asked = ASKED * LONG // size
    before = resource.getrusage(resource.RUSAGE_CHILDREN)
    try:
        lines = programs.run("replay", b"", (question(rules, size) * asked).encode()).decode().split("\n")[:-1]
    except subprocess.TimeoutExpired as late:
        return None, f"{size} bytes: no answer in {late.timeout} s"
    after = resource.getrusage(resource.RUSAGE_CHILDREN)
    if len(lines) != asked or any(not line.startswith(answer(size)) or not line.endswith(nodes(size)) for line in lines):
        return None, f"{size} bytes: {lines[0][:60] if lines else 'no answer'}"
    return after.ru_utime + after.ru_stime - before.ru_utime - before.ru_stime, None


def growth(programs, rules):
    """How many times as long a byte of the long text takes, by the least times of some runs by turns, or what is wrong."""
    least = {}
    for run in range(MOST_RUNS):
        for size in (SHORT, LONG):
            time, problem = taken(programs, rules, size)
            if problem:
                return None, problem
            least[size] = min(time, least.get(size, time))
        times = least[LONG] / least[SHORT]
        if run + 1 < RUNS:
            continue
        if times <= RATIO:
            return times, None
        if times > 2 * RATIO:
            break
    return times, f"a byte of {LONG} takes {times:.2f} times as long as one of {SHORT}"


def main():
    wrong, worst = 0, 0
    with Programs() as programs:
        for name, rules in CASES:
            times, problem = growth(programs, rules)
            worst = max(worst, times or 0)
            wrong += bool(problem)
            if problem:
                print(f"growth: {name}: {problem}")
    print(f"growth: {len(CASES)} grammars, at most {worst:.2f} times as long a byte for {LONG // SHORT} times the text, {wrong} wrong")
    return 1 if wrong else 0


if __name__ == "__main__":
    sys.exit(main())
