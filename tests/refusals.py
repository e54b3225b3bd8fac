#!/usr/bin/env python3
"""Refusals in words: what `explain` prints of a wrong grammar, and what ./run says in the place of a program's refusal.

A table of wrong grammars with all that `explain` prints: every number, all that can be wanted at a place and all that can stand there, CR LF, tabs, letters of
more than one byte, lines that are too long to be shown, texts without a line end. Then the grammars of tests/grammars, cut off and changed at random: number
and place are `replay`'s, and line, column, the line and the mark under it are counted here. Last ./run itself, beside what the programs print.

refusals.py [SEED]
"""
import glob
import os
import random
import re
import subprocess
import sys
import tempfile

from matcher import Reader, symbols_of
from programs import TOP, Programs, program_file
from questions import field

CHANGES = 25  # so many changed texts of each grammar
WHOLE_LINE, AROUND = 120, 60  # a longer line is shown from so many bytes before the place to as many behind it

PART = "a name, a lake, a literal, a class, `.`, `(`, `&` or `!`"
PRIMARY = "a name, a lake, a literal, a class, `.` or `(`"
MORE = "another part or a rule"
INSIDE = "a `)` or another part"
LOOP = "can come back to itself before a byte is taken"
TEXT_BOUND = 16384


# ── the table: a grammar, and the three lines that are printed of it ──
def raw(text):
    """The bytes of a text of the table, in which U+DCFF stands for byte 255 alone."""
    return text.encode("utf-8", "surrogateescape")


def on_one_line(grammar, column, sentence):
    """The same for a grammar of one line without a line end, refused at a column."""
    return grammar, f"1:{column}: {sentence}", grammar, " " * (column - 1) + "^"


def too_long():
    """Refusals of number and size, on the bound's other side."""
    long = "a <- 'x'\n#" + " " * (TEXT_BOUND - 10) + "x" * 99
    yield long, "2:16376: a grammar may have 16,384 bytes, and this is the first one behind them", " " * 60 + "x", " " * 60 + "^"
    yield on_one_line("n" * 33 + " <- 'x'", 1, "this name has more than 32 bytes")
    yield on_one_line("a <- <" + "n" * 33 + ">", 6, "this name has more than 32 bytes")
    yield on_one_line("a <- '" + "\\101" * 16 + "x" * 49 + "'", 6, "this literal has more than 64 bytes")
    yield on_one_line("a <- " + "(" * 33 + "'x'" + ")" * 33, 38, "parentheses are nested more than 32 deep here")
    rules = "".join(f"r{k} <- 'x'\n" for k in range(65))
    yield rules, "1:1: the grammar has more than 64 symbols (rules, and lakes without a rule)", "r0 <- 'x'", "^"
    lakes = "# many lakes\na <- " + " ".join(f"<l{k}>" for k in range(64))
    yield lakes, "1:1: the grammar has more than 64 symbols (rules, and lakes without a rule)", "# many lakes", "^"
    literals = "a <-\n" + "\n".join(f"'{k}'" for k in range(64))
    yield literals, "1:1: the grammar has more than 64 terminals (literals, classes and `.`)", "a <-", "^"
    parts = "a <- 'x'\n" + "'x'\n" * 256
    yield parts, "1:1: the grammar has more than 512 expressions (each part and each operator is one)", "a <- 'x'", "^"
    copies = "a <- 'x' <l>* <m>* <n>* ';' / 'z'\nwater <- " + " / ".join(["'q'"] * 125)
    yield copies, "1:1: written as plain PEG the grammar has more than 1,024 expressions", "a <- 'x' <l>* <m>* <n>* ';' / 'z'", "^"


def cases():
    yield from too_long()
    # what is wanted
    yield "", "1:1: a rule is wanted here, and the text ends there", "", "^"
    yield "# nothing yet\n", "2:1: a rule is wanted here, and the text ends there", "", "^"
    yield on_one_line(") <- 'x'", 1, "a rule is wanted here, and `)` stands there")
    yield on_one_line("<- 'x'", 1, "a rule is wanted here, and `<-` stands there")
    yield on_one_line("a", 2, "`<-` is wanted here, and the text ends there")
    yield on_one_line("<a> 'x'", 5, "`<-` is wanted here, and `'x'` stands there")
    yield on_one_line("a <- ", 6, f"{PART} is wanted here, and the text ends there")
    yield on_one_line("a <- 'x' / ", 12, f"{PART} is wanted here, and the text ends there")
    yield on_one_line("a <- 'x' // 'y'", 11, f"{PART} is wanted here, and `/` stands there")
    yield on_one_line("a <- ()", 7, f"{PART} is wanted here, and `)` stands there")
    yield on_one_line("a <- !&'x'", 7, f"{PRIMARY} is wanted here, and `&` stands there")
    yield on_one_line("a <- 'x' & # and what?", 23, f"{PRIMARY} is wanted here, and the text ends there")
    yield on_one_line("a <- 'x')", 9, f"{MORE} is wanted here, and `)` stands there")
    yield on_one_line("a <- ('x'**)", 11, f"{INSIDE} is wanted here, and `*` stands there")
    yield on_one_line("a <- ('x')+?", 12, f"{MORE} is wanted here, and `?` stands there")
    yield on_one_line("a <- (('x')", 12, f"{INSIDE} is wanted here, and the text ends there")
    yield on_one_line("a <- 'x' <- 'y'", 10, f"{MORE} is wanted here, and `<-` stands there")
    # a rule that is not finished, and the next one
    yield "a <-\nb <- 'x'\n", f"2:3: {PART} is wanted before `b`, which begins a rule", "b <- 'x'", "  ^"
    yield "a <- 'x' /\n<b> <- 'x'\n", f"2:5: {PART} is wanted before `<b>`, which begins a rule", "<b> <- 'x'", "    ^"
    yield "a <- 'x' !\nb <- 'x'\n", f"2:3: {PRIMARY} is wanted before `b`, which begins a rule", "b <- 'x'", "  ^"
    yield "a <- (('x')\nb <- 'x'\n", f"2:3: {INSIDE} is wanted before `b`, which begins a rule", "b <- 'x'", "  ^"
    # what stands there
    yield on_one_line("a = 'x'", 3, "`<-` is wanted here, and `=` stands there, which begins nothing")
    yield on_one_line("a <= 'x'", 3, "`<-` is wanted here, and `<` begins neither a lake nor `<-`")
    yield on_one_line("a '", 3, "`<-` is wanted here, and a literal begins here that is not finished")
    yield on_one_line("a <- <my lake>", 6, "`<` begins neither a lake nor `<-`")
    yield on_one_line("a <- 'x' | 'y'", 10, f"{MORE} is wanted here, and `|` stands there, which begins nothing")
    yield on_one_line("1 <- 'x'", 1, "a rule is wanted here, and `1` stands there, which begins nothing")
    yield on_one_line("größe <- 'x'", 3, "`<-` is wanted here, and byte 195 stands there, which begins nothing")
    yield on_one_line("a <- 'x' \0", 10, f"{MORE} is wanted here, and byte 0 stands there, which begins nothing")
    yield on_one_line("a <- 'x' \x7f", 10, f"{MORE} is wanted here, and byte 127 stands there, which begins nothing")
    yield "a <- 'x\nb <- 'y'\n", "2:8: a literal begins here that is not finished", "b <- 'y'", "       ^"
    yield on_one_line('a <- ("x)', 7, "a literal begins here that is not finished")
    yield on_one_line("a <- 'x\\", 6, "a literal begins here that is not finished")
    yield on_one_line("a <- 'x' ''", 10, "an empty literal stands here")
    yield on_one_line("a <- 'x\\n' 'ab\\d'", 12, "the literal here has `\\d`, which is no escape")
    yield on_one_line("a <- !\"\\é\"", 7, "the literal here has `\\é`, which is no escape")
    yield on_one_line("a <- [^a-z", 6, "a class begins here that is not finished")
    yield on_one_line("a <- [0-]", 6, "a class begins here that is not finished")
    yield on_one_line("a <- [0-", 6, "a class begins here that is not finished")
    yield on_one_line("a <- [0-\\", 6, "a class begins here that is not finished")
    yield on_one_line("a <- []", 6, "an empty class stands here")
    yield on_one_line("a <- [^]", 6, "an empty class stands here")
    yield on_one_line("a <- [^\\000-\udcff]", 6, "the class here has no byte")
    yield on_one_line("a <- [0-9a-]", 6, "the class here has `a-]`, which runs backwards")
    yield on_one_line("a <- [\\132-\\101]", 6, "the class here has `\\132-\\101`, which runs backwards")
    yield on_one_line("a <- [a-z\\-]", 6, "the class here has `\\-`, which is no escape")
    yield on_one_line("a <- [a-\\w]", 6, "the class here has `\\w`, which is no escape")
    # tokens that are long, or go on behind the line
    yield on_one_line("a '" + "x" * 38 + "'", 3, "`<-` is wanted here, and `'" + "x" * 38 + "'` stands there")
    yield on_one_line("a '" + "x" * 39 + "'", 3, "`<-` is wanted here, and `'" + "x" * 39 + "..` stands there")
    yield "a 'x\ny'", "1:3: `<-` is wanted here, and `'x..` stands there", "a 'x", "  ^"
    umlauts = "a '" + "ä" * 25 + "'"
    yield umlauts, "1:3: `<-` is wanted here, and `'" + "ä" * 20 + "..` stands there", umlauts, "  ^"
    # names
    yield "a <- 'x'\na <- 'y'", "2:1: `a` has a rule already", "a <- 'y'", "^"
    yield "a <- <b>\n<b> <- 'x'\n <b> <- 'y'", "3:2: `<b>` has a rule already", " <b> <- 'y'", " ^"
    yield on_one_line("a <- lake__b", 6, "`lake__b` is reserved: no name of a grammar with lakes begins with `lake__`")
    yield on_one_line("a <- <lake__>", 6, "`<lake__>` is reserved: no name of a grammar with lakes begins with `lake__`")
    yield "a <- 'x'\nb 'y'\n", "2:1: `b` has no rule", "b 'y'", "^"
    # loops, by the number of a symbol: a rule's, a lake's with a rule, a lake's without one
    yield "# left\na <- a 'x' / 'y'", f"2:1: `a` {LOOP}", "a <- a 'x' / 'y'", "^"
    yield "A <- <x>* 'y' / B\nB <- <x>* 'z'\n", f"2:1: `B` {LOOP}", "B <- <x>* 'z'", "^"
    yield "a <- 'b <-' <x>\n\n  <x> # lake\n<- <x>? 'x'", f"3:3: `<x>` {LOOP}", "  <x> # lake", "  ^"
    yield "a <- <w> <x> <y>\n<w> <- 'w'\nwater <- 'q' / <x> <y>", f"1:10: `<x>` {LOOP}", "a <- <w> <x> <y>", " " * 9 + "^"
    yield "a <- <z> <y>\nwater <- 'q' / <y> 'r'\n<z> <- 'z'", f"1:10: `<y>` {LOOP}", "a <- <z> <y>", " " * 9 + "^"
    # lines
    yield "a <- 'x'\r\nb <- )\r\n", f"2:6: {PART} is wanted here, and `)` stands there", "b <- )", "     ^"
    yield "a <-\r\n\r\n", f"3:1: {PART} is wanted here, and the text ends there", "", "^"
    yield "a <-\r", f"1:6: {PART} is wanted here, and the text ends there", "a <-\r", "     ^"
    yield "\ta\t<-\t)\t\n", f"1:7: {PART} is wanted here, and `)` stands there", "\ta\t<-\t)\t", "\t \t  \t^"
    yield "a <- 'äö€' )\n", f"1:16: {MORE} is wanted here, and `)` stands there", "a <- 'äö€' )", " " * 11 + "^"
    whole = "a <- ) #" + "x" * 112
    yield whole, f"1:6: {PART} is wanted here, and `)` stands there", whole, "     ^"
    yield whole + "x", f"1:6: {PART} is wanted here, and `)` stands there", whole[:65], "     ^"
    wide = "a <- " + "'x' " * 40 + ")" + " 'y'" * 40
    yield wide, f"1:166: {MORE} is wanted here, and `)` stands there", "'x' " * 15 + ")" + " 'y'" * 14 + " 'y", " " * 60 + "^"
    cut = "a <- '" + "ä" * 30 + "' '" + "ä" * 30 + "') #" + "ä" * 60
    yield cut, f"1:131: {MORE} is wanted here, and `)` stands there", "ä" * 29 + "') #" + "ä" * 29, " " * 30 + "^"


# ── random changes ──
def expected(text, position):
    """LINE:COLUMN, the line as it is shown, and the mark."""
    begin = text.rfind(b"\n", 0, position) + 1
    end = text.find(b"\n", position)
    line = text[begin:] if end < 0 else re.sub(rb"\r\Z", b"", text[begin:end])
    at = position - begin
    first, last = 0, len(line)
    if len(line) > WHOLE_LINE:
        first, last = (0 if at <= AROUND else next_letter(line, at - AROUND)), min(len(line), next_letter(line, at + AROUND))
    under = b"".join(b"\t" if byte == 9 else b"" if 128 <= byte < 192 else b" " for byte in line[first:min(at, last)])
    return f"{text.count(10, 0, position) + 1}:{at + 1}: ".encode(), line[first:last], under + b"^"


def next_letter(line, at):
    """A place at which no letter of UTF-8 is cut; a letter has at most three bytes behind its first."""
    return at + len(re.match(rb"[\x80-\xbf]{0,3}", line[at:])[0])


def changed(chance, text):
    """Some changes of which most make the text wrong."""
    for _ in range(chance.randint(1, 3)):
        i = chance.randrange(len(text) + 1)
        way = chance.randrange(7)
        if way == 0:
            text = text[:i] or b"("
        elif way == 1:
            text = text[:i] + text[i + chance.randint(1, 3):] or b")"
        elif way == 2:
            text = text[:i] + chance.choice([b")", b"(", b"'", b'"', b"[", b"/", b"<-", b"<", b"*", b"!", b"\\", b"|", b"x", b"#", b"\xff", b"\x00"]) + text[i:]
        elif way == 3:
            text = text[:i] + chance.choice([b"\t", b"\r\n", b"\n", b"\r", b" " * 70, b"\t" * 30, "ä".encode() * 40, "'€'".encode()]) + text[i:]
        elif way == 4:
            text = text.replace(b"\n", b"\r\n")
        elif way == 5:
            text = b" ".join(re.sub(rb"#.*", b"", line) for line in text.split(b"\n"))
        else:
            text = text + b"\n" + text[:i]
    return text


def grammars():
    for path in sorted(glob.glob(os.path.join(TOP, "tests", "grammars", "*.peg"))):
        with open(path, "rb") as file:
            yield file.read()


def position_of(text, number, place, said):
    """Where a refusal stands; of a symbol on a loop, where it is said to stand if its name stands there."""
    if number != 8:
        return place if number <= 5 else 0
    name = symbols_of(Reader(text, False).rules())[place].encode()
    found = re.match(rb"(\d+):(\d+): `" + re.escape(name) + rb"` can come back", said)
    begins = [0] + [end.end() for end in re.finditer(rb"\n", text)]
    at = begins[int(found[1]) - 1] + int(found[2]) - 1 if found else len(text)
    return at if text.startswith(name, at) else len(text)


def random_ones(programs, chance):
    """How many texts were refused by each number, and how many were explained otherwise than is expected."""
    texts = [changed(chance, grammar) for grammar in grammars() for _ in range(CHANGES)]
    answers = programs.run("replay", b"", "".join(f"read lake {field(text)}\n" for text in texts).encode()).decode().split("\n")
    counts, wrong = {}, 0
    for text, answer in zip(texts, answers):
        said = programs.run("explain", text)
        refusal = re.fullmatch(r"refused (\d+) (\d+)", answer)
        if not refusal:
            good = answer.startswith("read ") and said == b"accepted\n"
        else:
            number, place = map(int, refusal.groups())
            counts[number] = counts.get(number, 0) + 1
            where, line, under = expected(text, position_of(text, number, place, said))
            sentence = said[len(where):].split(b"\n")[0]
            good = said == where + sentence + b"\n" + line + b"\n" + under + b"\n" and sentence and not sentence.startswith(b"refused")
        if not good:
            wrong += 1
            print(f"refusals: {answer} is explained by\n{said!r} of\n{text!r}")
    if len(answers) != len(texts) + 1:
        wrong += 1
        print(f"refusals: {len(texts)} questions and {len(answers) - 1} answers")
    return counts, wrong


# ── ./run ──
PROGRAMS = {"spans": "spans", "json": "blocks", "plain": "plain_text"}
EVERY = 9  # so manieth grammar of the table goes through all three commands, the others through one
WRONG_WORDS = [["spans", "missing.peg"], ["spans"], ["plain", "first.peg", "first.peg"], ["explain", "first.peg"]]


def run_cases():
    """Command, grammar, text, and what is said of them, with the place for `{}`; None where the program's own output is passed on."""
    items = b"a <- b* b <- 'x'"
    nested = b"".join(b"r%d <- r%d\n" % (k, k + 1) for k in range(6)) + b"r6 <- .*"
    water = b"a <- <l>\nwater <- " + b" / ".join([b"'" + b"\x80" * 64 + b"'"] * 230)
    yield "spans", items, b"x" * 65536, "TEXT: the text has more than 65,535 bytes"
    yield "json", items, b"x" * 65536, "TEXT: the text has more than 65,535 bytes"
    yield "spans", items, b"x" * 8192, "TEXT: the match takes {} work cells (symbols times places), and there is no room for so many"
    yield "spans", b"a <- 'x' a?", b"x" * 257, "TEXT: the match is nested more than 255 deep"
    yield "spans", items, b"x" * 1024, "TEXT: the match has more than {} nodes, and there is no room for more"
    yield "json", nested, b"\0" * 60000, "TEXT: as JSON the tree has {} bytes, and there is no room for so many"
    yield "plain", water, b"", "GRAMMAR: as plain PEG the grammar has {} bytes, and there is no room for so many"
    yield "spans", items, b"xxy", None
    yield "spans", b"a <- 'x'", b"y", None
    yield "json", b"a <- .*", b"refused 2 3\n", None
    yield "json", b"a <- b* b <- 'x'+ ';'", b"x;" * 9000, None
    yield "plain", b"refused <- '2 3'", b"", None
    yield "plain", b"a <- '\xc3\xa4\\000'", b"", None


class Runs:
    """Runs of ./run in a folder, and how many of them ended otherwise than is expected."""

    def __init__(self, folder):
        self.folder, self.tried, self.wrong = folder, 0, 0

    def file(self, name, content):
        with open(os.path.join(self.folder, name), "wb") as file:
            file.write(content)

    def run(self, *words, text=b""):
        ended = subprocess.run([os.path.join(TOP, "run"), *words], cwd=self.folder, input=text, capture_output=True, timeout=600)
        return ended.returncode, ended.stdout, ended.stderr

    def check(self, got, right, words):
        self.tried += 1
        if got != right:
            self.wrong += 1
            print(f"refusals: ./run {' '.join(words)} ends with\n{str(got)[:400]}\nand not with\n{str(right)[:400]}")

    def warm(self):
        """Programs are built that are older than a file which has been touched since; what is said of that is not looked at."""
        self.file("first.peg", b"a <- 'x'")
        for command in PROGRAMS:
            self.run(command, "first.peg")

    def grammar(self, programs, command, grammar):
        """A grammar that is refused."""
        self.file("a grammar.peg", grammar)
        said = b"a grammar.peg:" + programs.run("explain", grammar)
        self.check(self.run(command, "a grammar.peg", text=b"x"), (1, b"", said), [command, repr(grammar[:80])])

    def match(self, programs, command, grammar, text, sentence):
        """A text as a file and as standard input."""
        self.file("g.peg", grammar)
        self.file("text", text)
        printed = programs.run(PROGRAMS[command], grammar, text)
        right = (0, printed, b"")
        for words, name in ((["./g.peg", "text"], "text"), (["./g.peg"], "standard input")):
            if sentence:
                said = sentence.replace("TEXT", name).replace("GRAMMAR", "./g.peg").format(f"{int(printed.split()[2]):,}")
                right = (1, b"", said.encode() + b"\n")
            if command != "plain" or len(words) == 1:
                self.check(self.run(command, *words, text=text), right, [command, *words, repr(grammar[:80]), repr(text[:80])])

    def wrong_words(self, words):
        status, said, told = self.run(*words)
        self.check((status, said, told[:5]), (2, b"", b"run: "), words)


def on_run(programs):
    with tempfile.TemporaryDirectory() as folder:
        runs = Runs(folder)
        runs.warm()
        for k, (grammar, *_) in enumerate(cases()):
            for command in PROGRAMS if k % EVERY == 0 else ["plain"]:
                runs.grammar(programs, command, raw(grammar))
        for case in run_cases():
            runs.match(programs, *case)
        for words in WRONG_WORDS:
            runs.wrong_words(words)
    return runs.tried, runs.wrong


def own_output(programs):
    """The programs print their refusals as document 01 has them; how many do not."""
    wrong = 0
    for grammar, refusal in ((b"a <- (", b"refused 2 6\n"), (b"a <- b", b"refused 5 5\n"), (b"A <- <x>* 'y' / B\nB <- <x>* 'z'", b"refused 8 1\n")):
        for program in PROGRAMS.values():
            if programs.run(program, grammar, b"x") != refusal:
                wrong += 1
                print(f"refusals: {program} prints {programs.run(program, grammar, b'x')!r} of {grammar!r}")
    return wrong


def main():
    chance, wrong, told = random.Random(sys.argv[1] if sys.argv[1:] else "1"), 0, 0
    with Programs() as programs:
        for grammar, *lines in cases():
            told += 1
            said, right = programs.run("explain", raw(grammar)), raw("".join(line + "\n" for line in lines))
            if said != right:
                wrong += 1
                print(f"refusals: {grammar[:80]!r} is explained by\n{said!r}, and not by\n{right!r}")
        for grammar in grammars():
            told += 1
            if programs.run("explain", grammar) != b"accepted\n":
                wrong += 1
                print(f"refusals: not accepted is\n{grammar.decode('latin-1')}")
        counts, bad = random_ones(programs, chance)
        wrong += bad + own_output(programs)
        tried, bad = on_run(programs)
        wrong += bad
    with tempfile.TemporaryDirectory() as folder:
        ended = subprocess.run([program_file("explain")], cwd=folder, capture_output=True, timeout=60)
        if ended.stdout != b"unreadable\n":
            wrong += 1
            print(f"refusals: without a file `explain` prints {ended.stdout!r}")
    kinds = ", ".join(f"{count} by {number}" for number, count in sorted(counts.items()))
    print(f"refusals: {told} grammars of the table and of tests/grammars; changed at random {kinds}; {tried} runs of ./run; {wrong} wrong")
    sys.exit(1 if wrong or sum(counts.values()) < 100 else 0)


if __name__ == "__main__":
    main()
