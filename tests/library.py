#!/usr/bin/env python3
"""The library for other languages on every target: C on x86-64 and aarch64, that of the other machine emulated; wasm32 under Node; Python; a page in Chromium.

Nothing proves the back end, the change of target or the wrappers, so each target answers every stored question of `replay`, 10,000 random ones with guards
around all that is lent, and the worst grammars within the stack that the header asks for. What the tests need is installed from Debian's packages.
"""
import functools
import html
import http.server
import json
import os
import platform
import random
import re
import subprocess
import sys
import tempfile
import threading
import time
import urllib.parse
from concurrent.futures import ThreadPoolExecutor

import questions as known
import random_grammars
import records
import stack
import trees
from matcher import Matcher, plain_text
from packages import lacks
from programs import TOP, Programs

MADE = os.path.join(TOP, "target", "library")
HERE = os.path.join(TOP, "tests", "library")
OTHER = {"x86_64": "aarch64", "aarch64": "x86_64"}[platform.machine()]  # the machine that is emulated
RANDOM_COUNT, RANDOM_SEED = 10000, 12
NODE_QUESTIONS, NAME_QUESTIONS, RECORD_QUESTIONS = 1000, 1000, 1000
STACK_KIB = 360  # what the header asks for, and the harness gives its threads
OUTSIDE = {"memcpy", "memset"}  # all that the archive asks its linker for, as the header says
WRAPPER_COUNT = 300
# the commands that the tests call, and Debian's packages that have them
PACKAGES = {"gcc": ["gcc", "libc6-dev"], "node": ["nodejs"], "chromium": ["chromium"], f"qemu-{OTHER}": ["qemu-user"],
            f"{OTHER}-linux-gnu-gcc": {"x86_64": ["gcc-x86-64-linux-gnu", "libc6-dev-amd64-cross"], "aarch64": ["gcc-aarch64-linux-gnu", "libc6-dev-arm64-cross"]}[OTHER]}
problems = []


def wrong(what):
    problems.append(what)
    print(f"library: {what}")


def run(words, seconds=600, **more):
    return subprocess.run(words, capture_output=True, timeout=seconds, **more)


# ── what is needed, and what is tested ──
def install():
    """Whether all commands are there, after an attempt to install those that are not."""
    problem = lacks(PACKAGES)
    if problem:
        wrong(problem)
    return not problem


def build():
    for target in ("x86_64", "aarch64", "wasm32", "shared"):
        ended = run([os.path.join(TOP, "build"), target], seconds=3600)
        if ended.returncode:
            wrong(f"./build {target}: {ended.stdout.decode()[-2000:]}{ended.stderr.decode()[-2000:]}")
            return False
    for name in ("x86_64/libgurkenmond.a", "aarch64/libgurkenmond.a", "gurkenmond.wasm", "libgurkenmond.so"):
        print(f"library: {name} has {os.path.getsize(os.path.join(MADE, name)):,} bytes")
    return True


def compile_harness(folder, machine):
    """The harness in C for a machine; linked whole, so that an emulator needs nothing beside it."""
    compiler = "gcc" if machine == platform.machine() else f"{machine}-linux-gnu-gcc"
    harness = os.path.join(folder, "harness-" + machine)
    ended = run([compiler, "-O2", "-Wall", "-Wextra", "-Werror", f"-DSTACK_KIB={STACK_KIB}", "-static", "-pthread", "-I" + MADE, "-o", harness, os.path.join(HERE, "harness.c"),
                 os.path.join(MADE, machine, "libgurkenmond.a")])
    if ended.returncode:
        wrong(f"harness for {machine}: {ended.stderr.decode()[-2000:]}")
    return harness


class Target:
    """A way to ask questions: the words that start a harness. An emulator shares two threads' work badly, so there only the worst grammars have both."""

    def __init__(self, name, words, threads=()):
        self.name, self.words, self.threads = name, words, list(threads)

    def ask(self, questions, threads=()):
        ended = run([*self.words, *threads], input=questions)
        if ended.returncode:
            wrong(f"{self.name}: status {ended.returncode}, {ended.stderr.decode()[-500:]}")
        self.said = ended.stderr.decode()
        return ended.stdout.decode().split("\n")[:-1]


def targets(folder):
    own = platform.machine()
    found = [Target(f"{own} in C", [compile_harness(folder, own)], ["2"]),
             Target(f"{OTHER} in C, emulated", [f"qemu-{OTHER}", compile_harness(folder, OTHER)])]
    found.append(Target("wasm32 in Node", ["node", os.path.join(HERE, "harness.mjs"), os.path.join(MADE, "gurkenmond.wasm")]))
    return found


def check_outside():
    """The names that the archives need from outside."""
    for machine in (platform.machine(), OTHER):
        ended = run(["nm" if machine == platform.machine() else f"{machine}-linux-gnu-nm", "-u", os.path.join(MADE, machine, "libgurkenmond.a")])
        names = set(re.findall(r"^ +U (\S+)$", ended.stdout.decode(), re.M))
        if ended.returncode or names != OUTSIDE:
            wrong(f"the archive for {machine} asks its linker for {sorted(names)}, not {sorted(OUTSIDE)}: {ended.stderr.decode()[-500:]}")
    print(f"library: the archives ask their linker for {' and '.join(sorted(OUTSIDE))}")


# ── the header against the proved source ──
def read(*path):
    with open(os.path.join(TOP, *path), encoding="utf-8") as file:
        return file.read()


def exported():
    """The C prototype of each exported function, made from its Rattle signature."""
    types = {"u8": "uint8_t {0}", "usize": "size_t {0}", "&[u8]": "const uint8_t *{0}, size_t {0}_len", "&[u32]": "const uint32_t *{0}, size_t {0}_len",
             "&mut [u8]": "uint8_t *{0}, size_t {0}_len", "&mut [u32]": "uint32_t *{0}, size_t {0}_len",
             "&mut [gurkenmond::Summary]": "gm_summary *{0}, size_t {0}_len"}
    for name, given, answer in re.findall(r'#\[unsafe\(no_mangle\)\]\s*pub extern "C" fn (\w+)\((.*?)\) -> (\w+)', read("crates", "library", "src", "lib.rt"), re.S):
        parts = []
        for part in given.rstrip(", \n").split(","):
            part_name, kind = part.strip().split(": ")
            count = re.fullmatch(r"&mut \[u64; (\d+)\]", kind)
            parts.append(f"uint64_t {part_name}[{count[1]}]" if count else types[kind].format(part_name))
        yield name, f"{ {'u64': 'uint64_t'}[answer] } {name}({', '.join(parts)});"


def check_record():
    """A record has the fields of the proved source, in its order; a `usize` has 64 bits on every target."""
    struct = re.search(r"#\[repr\(C\)\]\s*(?:#\[derive\([^\]]*\)\]\s*)?pub struct Summary \{(.*?)\}", read("crates", "tree_summary", "src", "lib.rt"), re.S)
    fields = [({"usize": "uint64_t", "bool": "uint8_t"}[kind], name) for name, kind in re.findall(r"pub (\w+): (\w+)", struct[1] if struct else "")]
    struct = re.search(r"typedef struct \{(.*?)\} gm_summary;", read("include", "gurkenmond.h"), re.S)
    declared = [(kind, name) for kind, names in re.findall(r"(\w+) ([\w, ]+);", struct[1] if struct else "") for name in names.split(", ")]
    if not fields or declared != fields:
        wrong(f"the header declares a record of {declared}, the proved source has {fields}")


def check_header():
    check_record()
    source = dict(exported())
    declared = [" ".join(line.split()) for line in re.findall(r"^uint64_t gm_\w+\([^;]*;", read("include", "gurkenmond.h"), re.M)]
    if declared != list(source.values()):
        wrong(f"the header declares {declared}, the proved source has {list(source.values())}")
    public = re.findall(r"^pub fn (\w+)", read("crates", "gurkenmond", "src", "lib.rt"), re.M)
    names = {"gm_" + {"match_input": "match"}.get(name, name) for name in public}
    if names != set(source):
        wrong(f"public calls and exported functions differ: {sorted(names ^ set(source))}")
    listed = ("WebAssembly.compile(require('fs').readFileSync(process.argv[1])).then(m => console.log(WebAssembly.Module.imports(m).length, "
              "WebAssembly.Module.exports(m).map(e => e.name).sort().join(' ')))")
    ended = run(["node", "-e", listed, os.path.join(MADE, "gurkenmond.wasm")])
    expected = "0 " + " ".join(sorted([*source, "memory", "__heap_base"]))
    if ended.stdout.decode().strip() != expected:
        wrong(f"gurkenmond.wasm has {ended.stdout.decode().strip()}, not {expected}")
    print(f"library: {len(declared)} functions, header and proved source compared")


# ── questions ──
def compare(target, questions, answers, threads=()):
    """How many questions were answered, and answered as expected."""
    got = target.ask(questions, threads)
    good = sum(a == b and a != "unreadable" for a, b in zip(got, answers))
    for k, (mine, theirs) in enumerate(zip(got, answers)):
        if mine != theirs:
            wrong(f"{target.name}: question {k + 1}: {mine[:200]}, not {theirs[:200]}")
            break
    if len(got) != len(answers):
        wrong(f"{target.name}: {len(got)} answers to {len(answers)} questions")
    return good


def lines(questions):
    return "".join(line + "\n" for line in questions).encode()


def check_made():
    """The stored questions on names and nodes are those that questions.py makes."""
    stored = set(zip(known.stored("stdin"), known.stored("stdout")))
    missing = [question for question, answer in known.to_store() if (question, answer) not in stored]
    if missing:
        wrong(f"{len(missing)} questions of questions.py are not stored with their answers, the first: {missing[0][:200]}")


def check_stored(target):
    """All but those on the reader of node words, which is not exported: a caller in another language reads the words itself."""
    kept = [(question, answer) for question, answer in zip(known.stored("stdin"), known.stored("stdout")) if not question.startswith("handed ")]
    questions, answers = lines(question for question, _ in kept), [answer for _, answer in kept]
    asked = sum(answer != "unreadable" for answer in answers)
    good = compare(target, questions, answers, target.threads)
    print(f"library: {target.name}: {good} of {asked} stored questions answered as stored")
    if good != asked:
        wrong(f"{target.name}: only {good} of {asked}")


def check_symbols(target):
    """Every symbol's name and record of every stored grammar, and of some more, by the independent reader; every other mode byte is plain."""
    for what, asked in (("names", known.all_name_questions(2**64 - 1)), ("records", known.all_summary_questions())):
        asked += [(question.replace(" plain ", f" {mode} ", 1), answer) for question, answer in asked if " plain " in question for mode in (2, 255)]
        good = compare(target, lines(question for question, _ in asked), [answer for _, answer in asked], target.threads)
        print(f"library: {target.name}: {good} of {len(asked)} questions on {what} answered as the independent reader does")


def worst_questions():
    """Every call on the worst grammars, and what `match` answers first."""
    deep = ",".join(f"0,0,0,{depth}" for depth in range(256))
    questions, firsts = [], []
    for _, grammar, text, expected in stack.cases():
        rules, given = known.field(grammar.encode()), known.field(text.encode())
        cells = min(64 * (len(text) + 1), 16384)
        questions += [f"match lake {rules} {given} {cells} 4096", f"lake lake {rules} {given} {cells} 1 0", f"lake lake {rules} {given} {cells} 2 0",
                      f"sets lake {rules} 1", f"skip lake {rules}", f"read lake {rules}", f"own lake {rules} 100000", f"plain lake {rules} 200000", f"plain plain {rules} 200000",
                      f"name lake {rules} 1 34", f"name plain {rules} 0 38", f"json lake {rules} {given} {deep} 100000", f"unjson lake {rules} {given} 7b 4096",
                      f"summary lake {rules} {given} {deep} 64", f"where {given} {len(text)}", f"sound {deep} 255 {len(text)}", f"text {given} {deep} 255"]
        firsts.append(expected[0])
    return questions, firsts


def ask_worst(target):
    """The answers on the worst grammars, within the header's stack: the threads of the harness have no more; two at once in C."""
    return target.ask(lines(worst_questions()[0]), () if "Node" in target.name else ["2"])


def check_worst(target, got, others):
    """`others` are the answers of another target."""
    questions, firsts = worst_questions()
    bad = sum(answer.split(" ;")[0] != first for answer, first in zip(got[::len(questions) // len(firsts)], firsts))
    bad += sum(mine != theirs or mine in ("broken", "unreadable") for mine, theirs in zip(got, others)) + abs(len(got) - len(questions))
    if bad:
        wrong(f"{target.name}: {bad} answers on the worst grammars are broken or others than expected")
    used = f", stack {int(target.said):,} bytes" if "Node" in target.name else f", two threads at once, {STACK_KIB} KiB of stack each"
    print(f"library: {target.name}: {len(questions)} questions on the worst grammars, {bad} wrong{used}")


def check_target(target):
    """All that one target is asked beside the random questions; its answers on the worst grammars, which the targets are compared by."""
    check_stored(target)
    check_symbols(target)
    return ask_worst(target)


SOUP = [b"a", b"b", b"s", b" <- ", b"<-", b"'x'", b'"ab"', b"<l>", b"<l", b"water", b"/", b" / ", b"(", b")", b"*", b"?", b"+", b"&", b"!", b".", b"[a-c]",
        b"[^a]", b"[", b"\\", b"\\n", b"'", b"#", b"\n", b" ", b"lake__x"]
NUMBERS = [0, 1, 2, 3, 5, 8, 13, 40, 200, 2**16, 2**32 - 1, 2**32, 2**62, 2**63, 2**64 - 1]


def random_bytes(r, most):
    return bytes(r.randrange(256) for _ in range(r.randrange(most + 1)))


def loopless_grammar(r):
    """A grammar that is accepted, mostly; most of the first tries have a loop."""
    maker = random_grammars.Maker(r.randrange(2**32))
    for _ in range(8):
        grammar = maker.grammar()
        if random_grammars.Grammar(grammar).loop() is None:
            break
    return grammar


def random_grammar(r):
    kind = r.random()
    if kind < 0.25:
        return random_bytes(r, 64 if r.random() < 0.95 else 20000)
    if kind < 0.4:
        return b"".join(r.choices(SOUP, k=r.randrange(30)))
    text = bytearray(loopless_grammar(r))
    for _ in range(r.choice([0, 0, 0, 0, 1, 2])):
        text[r.randrange(len(text))] = r.randrange(256)
    return bytes(text)


def random_question(r):
    number = lambda: r.choice(NUMBERS) if r.random() < 0.3 else r.randrange(12)
    kind = r.choice(["read", "sets", "skip", "match", "match", "match", "lake", "lake", "own", "plain", "name"])
    question = f"{kind} {r.choice([0, 0, 1, r.randrange(256)])} {known.field(random_grammar(r))}"
    if kind in ("match", "lake"):
        text = bytes(r.choices(random_grammars.TEXT, k=r.randrange(24))) if r.random() < 0.8 else random_bytes(r, 48)
        question += f" {known.field(text)} {r.choice([r.randrange(400), 64 * (len(text) + 1)])}"
    more = {"sets": [number()], "match": [r.choice([r.randrange(40), 400])], "lake": [number(), number()],
            "own": [r.randrange(700)], "plain": [r.randrange(700)], "name": [number(), r.randrange(10)]}
    return " ".join([question, *map(str, more.get(kind, []))])


def node_question(r):
    """A question on node words that hold anything, and its answer by the words of document 01."""
    n = r.randrange(6)
    words = [r.choice([0, 1, 2, n, n + 1, 7, 2**31, 2**32 - 1]) for _ in range(r.randrange(18))]
    return r.choice(known.node_questions(bytes(r.randrange(256) for _ in range(n)), words, r.choice([*range(6), *NUMBERS])))


def grammar_or_plain(r):
    """A random grammar or its plain text, a mode byte for it, its names by the independent reader, and its refusal or None."""
    source, mode = loopless_grammar(r), 0
    grammar = random_grammars.Grammar(source)
    loop, names = grammar.loop(), grammar.symbols
    if loop is None and r.random() < 0.5:
        source, mode = plain_text(grammar), r.randrange(1, 256)
        names = known.names_of(source, True)
    return source, mode, names, None if loop is None else f"refused 8 {loop}"


def random_name_question(r):
    """A question on a name, and its answer by the independent reader."""
    source, mode, names, refusal = grammar_or_plain(r)
    symbol = r.choice([*range(len(names))] * 4 + [len(names), *NUMBERS])
    room = r.choice([0, known.NAME_ROOM, *(len(name) + k for name in names for k in (-1, 0, 1))])
    return known.name_question(mode, source, symbol, room), refusal or known.name_answer(names, symbol, room)


def random_record_question(r):
    """A question on records of nodes that nest, of such with something wrong, or of any words; or on a position; and its answer by the model of records.py."""
    text = b"".join(r.choices([b"a", b"b", b"\n", b"\r\n", bytes([r.randrange(256)])], k=r.randrange(12)))
    if r.random() < 0.3:
        position = r.choice([*range(len(text) + 2), known.LAST_WORD])
        return f"where {known.field(text)} {position}", records.place(text, position)
    source, mode, names, refusal = grammar_or_plain(r)
    words = r.choice([trees.some_list, records.in_each_other])(r, len(names), len(text))
    words = r.choice([words, words, words, trees.spoilt(r, words), words[:r.randrange(len(words))], [r.choice(NUMBERS[:11]) for _ in range(8)]])
    room = r.choice(records.rooms(r, len(names)))
    return (f"summary {mode} {known.field(source)} {known.field(text)} {trees.listed(words)} {room}",
            records.summed(refusal, len(names), len(text), words, room))


def check_random(found):
    r = random.Random(RANDOM_SEED)
    asked = [random_question(r) for _ in range(RANDOM_COUNT)]
    answered = [node_question(r) for _ in range(NODE_QUESTIONS)] + [random_name_question(r) for _ in range(NAME_QUESTIONS)]
    answered += [random_record_question(r) for _ in range(RECORD_QUESTIONS)]
    questions = lines([*asked, *(question for question, _ in answered)])
    with ThreadPoolExecutor(2) as pool:
        answers = list(pool.map(lambda target: target.ask(questions, target.threads), found))
    for target, got in zip(found, answers):
        if got[RANDOM_COUNT:] != [answer for _, answer in answered]:
            wrong(f"{target.name}: node words, names, records or positions answered otherwise")
        bad = [k for k, (mine, theirs) in enumerate(zip(got, answers[0])) if mine != theirs or mine in ("broken", "unreadable")]
        if bad or len(got) != RANDOM_COUNT + len(answered):
            wrong(f"{target.name}: {len(got)} answers, {len(bad)} broken, unread or other than those of {found[0].name}; "
                  f"the first: {questions.decode().split(chr(10))[bad[0]][:300] if bad else ''}")
    accepted = sum(not answer.startswith("refused") for answer in answers[0][:RANDOM_COUNT])
    print(f"library: {RANDOM_COUNT:,} random questions ({accepted:,} not refused), {NODE_QUESTIONS:,} on node words, {NAME_QUESTIONS:,} on names and "
          f"{RECORD_QUESTIONS:,} on records and positions on {len(found)} targets, guards whole")


# ── samples, wrappers and the page, against `spans` and the independent matcher ──
BROKEN = "a <- 'x'\nb <- ("


def sample_cases():
    yield "block <- '{' stmt* '}'\nstmt <- expr_stmt / block\nexpr_stmt <- <elake>* ';'\n", "{a;{b c;}}"
    yield "a <- 'x' <y>", "xz"
    yield "a <- 'x'", "y"
    yield BROKEN, "y"
    yield "A <- <x>* 'y' / B\nB <- <x>* 'z'", "y"
    yield "x <- (y / <x>)* z <z>\nz <- 'z'\ny <- 'y' <x>?\n<z> <- 'q'\nwater <- '#'", "ayb#yzq"


def spanned(source, text):
    """What `spans` prints, by the independent matcher; it reads no broken grammar."""
    if source == BROKEN:
        return f"refused 2 {len(BROKEN)}\n".encode()
    grammar = random_grammars.Grammar(source.encode())
    if grammar.loop() is not None:
        return f"refused 8 {grammar.loop()}\n".encode()
    nodes = Matcher(grammar, text.encode()).nodes()
    if not nodes:
        return b"none\n"
    return lines([f"match {nodes[0][2]}", *(f"{start} {end} {depth} {grammar.symbols[symbol]}" for symbol, start, end, depth in nodes)])


def check_samples(folder):
    """The samples in C, JavaScript and Python, and `spans`, print what the independent matcher says."""
    sample = os.path.join(folder, "sample")
    ended = run(["gcc", "-O2", "-Wall", "-Wextra", "-Werror", "-I" + MADE, "-o", sample, os.path.join(TOP, "samples", "sample.c"),
                 os.path.join(MADE, platform.machine(), "libgurkenmond.a")])
    if ended.returncode:
        wrong(f"sample.c: {ended.stderr.decode()[-2000:]}")
        return
    commands = {"sample.c": [sample], "sample.mjs": ["node", os.path.join(TOP, "samples", "sample.mjs")],
                "sample.py": [sys.executable, "-B", os.path.join(TOP, "samples", "sample.py")]}
    with Programs() as programs:
        for grammar, text in sample_cases():
            names = [os.path.join(folder, name) for name in ("g.peg", "t.txt")]
            for name, content in zip(names, (grammar, text)):
                with open(name, "w", encoding="utf-8") as file:
                    file.write(content)
            expected = spanned(grammar, text)
            printed = {"spans": (programs.spans(grammar.encode(), text.encode()), b"")}
            for name, words in commands.items():
                ended = run([*words, *names])
                printed[name] = (ended.stdout, ended.stderr)
            for name, (said, problem) in printed.items():
                if said != expected:
                    wrong(f"{name}: {said[:300]!r}{problem[-500:]!r}, not {expected!r}")
    print(f"library: {len(commands)} samples print what spans and the independent matcher say, {len(list(sample_cases()))} times")


def widths(text):
    """For each byte of a text, and its end: the place in characters and in UTF-16 units."""
    characters, units, at_characters, at_units = 0, 0, [], []
    for character in text:
        width = len(character.encode("utf-8", "surrogatepass"))
        at_characters += [characters] * width
        at_units += [units] * width
        characters, units = characters + 1, units + (2 if ord(character) > 0xFFFF else 1)
    return [*at_characters, characters], [*at_units, units]


def begins(text):
    """For each byte of a text, and its end: the first byte of its character."""
    at = []
    for character in text:
        at += [len(at)] * len(character.encode("utf-8", "surrogatepass"))
    return [*at, len(at)]


def summary_of(names, nodes, n, at):
    """The records of a match's nodes by the model of records.py, where `at` says for each byte at which one a node there begins or ends."""
    words = [word for node in nodes for word in (node.symbol, at[node.start], at[node.end], node.depth)]
    for symbol, name in enumerate(names):
        count, covered, first, last, present = records.record(words, symbol, n)
        yield [symbol, name, bool(present), count, covered, first, last]


def spot_of(text, places, position):
    """Line and column of a position as a language counts it, or the number of the refusal; `places` are those of the bytes."""
    said = text.encode()
    if len(said) > records.INPUT_MOST:
        return 9
    if position not in places:
        return 14
    before = said[:places.index(position)]
    return [before.count(b"\n") + 1, position - places[before.rfind(b"\n") + 1] + 1]


def check_summary(library, grammar, text, said):
    """Whether both wrappers have the records of a match, on strings at the begin of each character, and refuse what is no list of nodes."""
    names, n = known.names_of(grammar.encode(), False), len(text.encode())
    for rules, given, at in ((grammar.encode(), text.encode(), range(n + 1)), (grammar, text, begins(text))):
        nodes = library.match(rules, given).nodes
        expected = list(summary_of(names, library.match(grammar.encode(), text.encode()).nodes, n, at))
        odd = [[], [node._replace(depth=node.depth + 2**32) for node in nodes], [node._replace(start=-1) for node in nodes]]
        if [list(record) for record in library.summarise(rules, given, nodes)] != expected:
            return False
        if any(library.summarise(rules, given, some)[:2] != (15, 0) for some in odd):
            return False
    return said == expected


def check_spots(library, text, said):
    """Whether both wrappers have line and column of each position, as many as gurkenmond.js was asked for."""
    characters, units = widths(text)
    value = lambda answer: answer.number if hasattr(answer, "number") else list(answer)
    for given, places in ((text, characters), (text.encode(), range(len(characters)))):
        if any(value(library.line_and_column(given, k)) != spot_of(text, places, k) for k in [*range(len(said)), -1, 2**64 - 1, 2**64]):
            return False
    return said == [spot_of(text, units, k) for k in range(len(said))]


def placed(answer, grammar, text):
    """An answer of the Python wrapper on bytes, as JSON's, with its places mapped."""
    if answer is None:
        return {"kind": "none"}
    if hasattr(answer, "number"):
        if answer.number > 5:
            return {"kind": "refused", "number": answer.number, "place": answer.place, "line": None, "column": None}
        before = bytes(grammar.encode("utf-8", "surrogatepass"))[:answer.place]
        place, start = (widths(grammar)[text][k] for k in (answer.place, before.rfind(b"\n") + 1))
        return {"kind": "refused", "number": answer.number, "place": place, "line": before.count(b"\n") + 1, "column": place - start + 1}
    return answer


def check_wrappers():
    """Both wrappers on strings with characters of one to four bytes: places are those of the language, refusals have line and column, nothing throws."""
    sys.path.insert(0, MADE)
    import gurkenmond as wrapper
    library = wrapper.Gurkenmond()
    r = random.Random(RANDOM_SEED)
    odd = ["ä", "€", "😀", "\n", "\r\n", "x", "'ä'", "[ä-ö]", "\ud800", "\0"]
    easy = ["s <- .*", "s <- (w / <l>)*\nw <- 'ä' / '€' / '😀x' / 'ab'", "# ä\ns <- t*\nt <- . u?\nu <- [b-x]", "s <- 'ä'* <l>* '😀'"]
    cases = [("a <- 'ä'* <w>* '😀'", "ää€😀"), ("a <- .* ", "a😀b"), ("# ä\na <- ä", ""), ("", ""), ("a <- 'x'", "x" * 70000), ("(" * 2000000, "")]
    cases += sample_cases()
    while len(cases) < WRAPPER_COUNT:
        # characters of several bytes in a comment and, sometimes, in the midst
        grammar = r.choice(["# ä€😀\n", ""]) + r.choice([random_grammar(r).decode("utf-8", "replace"), r.choice(easy)])
        for _ in range(r.choice([0, 0, 1, 2])):
            k = r.randrange(len(grammar) + 1)
            grammar = grammar[:k] + r.choice(odd) + grammar[k:]
        cases.append((grammar, "".join(r.choices(["a", "b", "c", *odd], k=r.randrange(12)))))
    ended = run(["node", os.path.join(HERE, "wrapper.mjs"), os.path.join(MADE, "gurkenmond.js")], input=json.dumps(cases).encode())
    if ended.returncode:
        wrong(f"gurkenmond.js: {ended.stderr.decode()[-2000:]}")
        return
    matched = named = 0
    for (grammar, text), (said, summary, spots, values) in zip(cases, json.loads(ended.stdout)):
        # a lone surrogate has three bytes in either language, of which JavaScript makes those of U+FFFD
        grammar, text = (given.replace("\ud800", "\ufffd") for given in (grammar, text))
        by_bytes = library.match(grammar.encode(), text.encode())
        for mapping, answer in ((0, library.match(grammar, text)), (1, said)):
            expected = placed(by_bytes, grammar, mapping)
            if isinstance(expected, wrapper.Match):
                places = widths(text)[mapping]
                nodes = [[n.symbol, n.name, places[n.start], places[n.end], n.depth] for n in expected.nodes]
                expected = {"kind": "match", "taken": places[expected.taken], "nodes": nodes}
            if not isinstance(answer, dict):
                answer = as_object(answer)
            if {key: value for key, value in answer.items() if key != "what"} != expected:
                wrong(f"{('gurkenmond.py', 'gurkenmond.js')[mapping]} on {grammar[:200]!r} and {text[:100]!r}: {str(answer)[:300]}, not {str(expected)[:300]}")
                return
        if isinstance(by_bytes, wrapper.Match) and not check_summary(library, grammar, text, summary):
            wrong(f"records of a wrapper on {grammar[:200]!r} and {text[:100]!r}: {str(summary)[:300]} of gurkenmond.js")
            return
        if not check_spots(library, text, spots):
            wrong(f"lines and columns of a wrapper in {text[:100]!r}: {str(spots)[:300]} of gurkenmond.js")
            return
        others = other_values(wrapper, library, grammar, text)
        if values != others:
            wrong(f"the wrappers differ on {grammar[:200]!r} and {text[:100]!r}: {str(values)[:300]}, {str(others)[:300]}")
            return
        for plain, names in enumerate(values[-2:]):
            if isinstance(names, dict):
                named += 1
                if names["names"] != known.names_of(grammar.encode(), bool(plain)):
                    wrong(f"names of {grammar[:200]!r}: {names['names']}, not {known.names_of(grammar.encode(), bool(plain))}")
        matched += isinstance(by_bytes, wrapper.Match)
    print(f"library: {len(cases)} grammars and texts through gurkenmond.js and gurkenmond.py, {matched} matched, places as the languages count them, "
          f"{named} times all names as the independent reader has them")


def back(library, grammar, text):
    """The list of the match, written and read again."""
    said = library.json(grammar, text)
    if not isinstance(said, bytes):
        return said
    nodes = library.read_json(grammar, text, said)
    if nodes != library.match(grammar, text).nodes:
        wrong(f"gurkenmond.py: the nodes of {text[:100]!r} by {grammar[:200]!r} are others when written and read again")
    return nodes


def other_values(wrapper, library, grammar, text):
    """What wrapper.mjs says of the calls beside `match`."""
    decoded = lambda written: {"text": written.decode("utf-8", "replace")}
    asked = [(library.read(grammar), lambda read: read._asdict()),
             (library.sets(grammar, 1), lambda sets: {name: value._asdict() if hasattr(value, "symbols") else value for name, value in sets._asdict().items()}),
             (library.cannot_skip(grammar), lambda lakes: {"lakes": lakes}),
             (library.lake_at(grammar, text, 1, 0), lambda way: {"way": way}),
             (library.write_own(grammar), decoded), (library.write_plain(grammar), decoded),
             (library.symbol_name(grammar, 1), lambda name: {"text": name}), (library.symbol_name(grammar, 64), lambda name: {"text": name}),
             (library.json(grammar, text), lambda said: {"text": said.decode()} if said is not None else {}),
             (back(library, grammar, text), lambda nodes: {"nodes": len(nodes)} if nodes is not None else {}),
             (library.read_json(grammar, text, "[" * 1000), lambda nodes: {"nodes": len(nodes)}),
             (library.names(grammar), lambda names: {"names": names}), (library.names(grammar, wrapper.PLAIN), lambda names: {"names": names})]
    return [answer.number if hasattr(answer, "number") else value(answer) for answer, value in asked]


def as_object(answer):
    if answer is None:
        return {"kind": "none"}
    if hasattr(answer, "number"):
        return {"kind": "refused", **answer._asdict()}
    return {"kind": "match", "taken": answer.taken, "nodes": [list(node) for node in answer.nodes]}


class Quiet(http.server.SimpleHTTPRequestHandler):
    def log_message(self, *words):
        pass


def check_page():
    """The page in a headless browser prints what the independent matcher says."""
    server = http.server.ThreadingHTTPServer(("127.0.0.1", 0), functools.partial(Quiet, directory=TOP))
    threading.Thread(target=server.serve_forever, daemon=True).start()
    shown = 0
    with tempfile.TemporaryDirectory() as profile:
        for grammar, text in sample_cases():
            query = urllib.parse.urlencode({"grammar": grammar, "text": text})
            ended = run(["chromium", "--headless", "--no-sandbox", "--disable-gpu", f"--user-data-dir={profile}", "--virtual-time-budget=20000", "--dump-dom",
                         f"http://127.0.0.1:{server.server_port}/samples/index.html?{query}"])
            found = re.search(r'<pre id="spans">(.*?)</pre>', ended.stdout.decode(), re.S)
            said, expected = html.unescape(found[1]) if found else None, spanned(grammar, text).decode()
            if said != expected:
                wrong(f"the page says {said!r}, not {expected!r}: {ended.stderr.decode()[-300:]}")
            shown += 1
    server.shutdown()
    print(f"library: the page in Chromium prints what the independent matcher says, {shown} times")


def main():
    start = time.monotonic()
    if install() and build():
        with tempfile.TemporaryDirectory() as folder:
            check_header()
            check_outside()
            check_made()
            found = targets(folder)
            if not problems:
                # each is a program of its own, so that two processors have work
                with ThreadPoolExecutor(2) as pool:
                    asked = [pool.submit(check_target, target) for target in found]
                    rest = [pool.submit(check) for check in (functools.partial(check_samples, folder), check_wrappers, check_page)]
                    worst = [answers.result() for answers in asked]
                    for check in rest:
                        check.result()
                for target, got in zip(found, worst):
                    check_worst(target, got, worst[0])
                check_random(found)
    print(f"library: {time.monotonic() - start:.0f} s, {len(problems)} wrong")
    return 1 if problems else 0


if __name__ == "__main__":
    sys.exit(main())
