#!/usr/bin/env python3
"""Long plain texts through `replay`: a text of 1 MiB is answered, whatever it holds, in at most RATIO times the time, a byte, of a lake text of 16 KB.

long_texts.py           the answers, and the bound on the time
long_texts.py --times   the ratio of each text
"""
import itertools
import random
import resource
import sys

from pieces import MOST, cut
from programs import Programs

LAKE_MOST = 16384
RATIO = 5
RUNS = 3
FIRST = "abcdefghijklmnopqrstuvwxyzABCDEFGHIJKLMNOPQRSTUVWXYZ_"
LATER = FIRST + "0123456789"


def rules(count, last=""):
    return "".join(f"r{i} <- 'x'\n" for i in range(count)) + last


def short_names():
    for size in range(1, 4):
        for name in itertools.product(FIRST, *[LATER] * (size - 1)):
            yield "".join(name)


def shortest():
    """The most rules that have room."""
    return cut(f"{name}<-." for name in short_names())


def turned(text):
    """The rules of a text, the last first."""
    return "".join(reversed(text.split(".")[:-1])).replace("<-", "<-.")


def one_slot():
    """Names that a polynomial with 16,777,619 sends to one remainder by 4,294,967,291 and then by 32,768, as an index once did."""
    prime, factor, slots = 4294967291, 16777619, 32768

    def share(name, start):
        for byte in name:
            start = (start * factor + ord(byte)) % prime
        return start

    ends = {}
    for end in itertools.product(LATER, repeat=3):
        value = share(end, 0)
        ends.setdefault(value % slots, []).append((value, "".join(end)))

    def names():
        for name in itertools.product(FIRST, LATER, LATER):
            value = share(name, 1) * factor ** 3 % prime
            for more, end in ends.get(-value % slots, []):
                if value + more < prime:
                    yield "".join(name) + end

    return cut(f"{name}<-.\n" for name in names())


def random_names(seed):
    chance = random.Random(seed)
    while True:
        yield "".join(chance.choice(FIRST) for _ in range(8))


def many_uses():
    names = sorted(set(itertools.islice(random_names(3), 20000)))
    chance = random.Random(4)
    defined = "".join(f"{name}<-.\n" for name in names)
    return defined + cut(itertools.chain(["x<-"], (f"{chance.choice(names)} " for _ in itertools.count())), MOST - len(defined))


def questions():
    many = rules(69000)
    short = shortest()
    yield "1 MiB of (", "(" * MOST, "refused 2 0"
    yield "one byte more", "(" * (MOST + 1), f"refused 1 {MOST}"
    yield "69,000 rules", many, "refused 6 1"
    yield "the last rule has the first one's name", rules(69000, "r0 <- 'y'\n"), f"refused 4 {len(many)}"
    yield "the last rule uses a name without a rule", rules(69000, "z <- y\n"), f"refused 5 {len(many) + 5}"
    yield "1 MiB of blanks", " " * MOST, f"refused 2 {MOST}"
    yield "1 MiB of comment behind a rule", "a <- b b <- .#".ljust(MOST, "#"), "read 2 1 2"
    yield "as many rules as have room", short, "refused 6 1"
    yield "the same, the last rule first", turned(short), "refused 6 1"
    yield "the same, and the last has the first one's name", short[:-6] + "a<-.", f"refused 4 {len(short) - 6}"
    yield "the same, and the last uses a name without a rule", short[:-12] + "_aa<-_bb", f"refused 5 {len(short) - 7}"
    yield "random names", cut(f"{name}<-.\n" for name in random_names(2)), "refused 6 1"
    yield "names that begin alike", cut(f"{'a' * 31}{i:07}<-.\n" for i in itertools.count()), "refused 6 1"
    yield "names of one slot", one_slot(), "refused 6 1"
    yield "one name used again and again", cut(itertools.chain(["a<-"], itertools.repeat("a "))), "refused 6 3"
    yield "20,000 names used at random", many_uses(), "refused 6 1"


def lake_text():
    """A lake text of 16 KB that is accepted, with 64 symbols, 63 terminals and 480 expressions."""
    names = [f"symbol_number_{k:02}_of_sixty_two" for k in range(62)]
    lines = [f"first <- <lake>* {names[0]}\n"]
    for k, name in enumerate(names):
        text = f"terminal number {k:02} of sixty-two, and some bytes more"
        later = f" / {names[k + 5]} {names[k // 2]}" if k + 5 < 62 else ""
        lines.append(f"{name} <- '{text}' {names[(k + 1) % 62]}?{later}\n")
    return "".join(lines).ljust(LAKE_MOST, "#")


def asked(mode, text, times=1):
    return f"read {mode} {text.encode().hex()}\n".encode() * times


def seconds(programs, lines):
    """The answers, and the least processor time of some runs."""
    times = []
    for _ in range(RUNS):
        start = resource.getrusage(resource.RUSAGE_CHILDREN).ru_utime
        answers = programs.run("replay", b"", lines)
        times.append(resource.getrusage(resource.RUSAGE_CHILDREN).ru_utime - start)
    return answers.decode().split("\n"), min(times)


def main(show):
    wrong = 0
    with Programs() as programs:
        # what is not reading: the program's start, and the bytes of a question
        idle = seconds(programs, asked("none", " " * MOST))[1]
        lake = lake_text()
        answers, taken = seconds(programs, asked("lake", lake, MOST // LAKE_MOST))
        if not answers[0].startswith("read "):
            wrong += 1
            print(f"long: the lake text: {answers[0]}")
        unit = (taken - idle) / MOST
        texts = list(questions())
        for name, text, expected in texts:
            answers, taken = seconds(programs, asked("plain", text))
            ratio = (taken - idle) / len(text) / unit
            if show:
                print(f"long: {ratio:5.2f}  {name}: {answers[0]}")
            if answers[0] != expected:
                wrong += 1
                print(f"long: {name}: {answers[0]}, not {expected}")
            if ratio > RATIO:
                wrong += 1
                print(f"long: {name}: {ratio:.1f} times a lake text, a byte")
    print(f"long: {len(texts)} texts, {wrong} wrong")
    return 1 if wrong else 0


if __name__ == "__main__":
    sys.exit(main(sys.argv[1:] == ["--times"]))
