#!/usr/bin/env python3
"""What the repository counts of itself. Each count may only fall: the test fails where one is higher than LEFT says, and says where one is lower.

layout.py          the counts
layout.py NAME..   each place that is counted under these names

To bring a number down: mend places, run the test, write the new number into LEFT. No number goes up.
"""
import functools
import glob
import os
import re
import sys

TOP = os.path.dirname(os.path.dirname(os.path.abspath(__file__)))

# How many places of each kind are left.
LEFT = {
    "table numbers in code": 0,
    "table numbers in definitions": 0,
    "table numbers in laws and proofs": 0,
    "places of records in code": 0,
    "functions with too many parameters": 0,
    "long lines in code": 0,
    "long lines in definitions": 0,
    "long lines in documents": 0,
    "long lines in proofs": 0,
    "names with two meanings": 0,
    "edges never named": 0,
    "definitions outside the tour": 0,
    "tour out of order": 0,
    "edits that do not fit": 0,
    "names in documents without a thing": 0,
}

TABLE_OWNER = "grammar_table"  # the one crate that may say where the table's records lie
TABLE_NUMBERS = r"\b(?:19208|2696|22280)\b|\b8 \+ 42 \*|\b258 \*"
RECORD_PLACE = r"\b(?:SYMBOLS|TERMINALS|EXPRESSIONS)_AT\s*\+\s*(?:\w+::)*(?:SYMBOL|TERMINAL|EXPRESSION)_WORDS \*"  # only records.rt says it
MOST_PARAMETERS = 7
LONGEST_LINE = 160
LONGEST_LINE_OF_A_PROOF = 200
LONGEST_LINE_OF_A_DOCUMENT = 120
TOUR = "docs/READING-ORDER.md"
PICTURE = "docs/stages.svg"
DOCUMENTS = ["README.md", "CONTRIBUTING.md", "docs/PROMISES.md", TOUR]


@functools.cache
def read(path):
    with open(os.path.join(TOP, path), encoding="utf-8") as file:
        return file.read()


@functools.cache
def files(pattern):
    return sorted(os.path.relpath(path, TOP) for path in glob.glob(os.path.join(TOP, pattern), recursive=True) if os.path.isfile(path))


def code():
    return files("crates/*/src/**/*.rt")


def is_law(path):
    return "/specs/laws/" in path or "/proofs/laws/" in path


def definitions():
    return [path for path in files("crates/*/specs/**/*.antt") if not is_law(path)]


def bare(text):
    """Without the lines that are comments."""
    return re.sub(r"(?m)^[ \t]*(//|--).*$", "", text)


def places(path, pattern, text=None):
    """PATH:LINE of each occurrence."""
    text = read(path) if text is None else text
    return [f"{path}:{text.count(chr(10), 0, found.start()) + 1}: {found[0]}" for found in re.finditer(pattern, text)]


# ── numbers that have names, parameters, lines ──

def table_numbers(paths):
    for path in paths:
        if path.split("/")[1] != TABLE_OWNER:
            yield from places(path, TABLE_NUMBERS, bare(read(path)))


def record_places():
    for path in code():
        if path.split("/")[1] != TABLE_OWNER:
            yield from places(path, RECORD_PLACE, bare(read(path)))


def parameters(text, at):
    """How many parameters a list has that begins behind its parenthesis."""
    depth, count, last = 0, 0, ""
    for letter in text[at:]:
        if letter in ")]>" and last + letter != "->":
            if not depth:
                break
            depth -= 1
        depth += letter in "([<"
        count += letter == "," and not depth
        last = letter if letter.strip() else last
    return count + (last not in "(,")


def too_many_parameters():
    for path in code():
        text = bare(read(path))
        for found in re.finditer(r"\bfn (\w+)(?:<[^(]*>)?\(", text):
            count = parameters(text, found.end())
            if count > MOST_PARAMETERS:
                yield f"{path}: {found[1]} has {count}"


def long_lines(paths, most):
    for path in paths:
        for number, line in enumerate(read(path).split("\n"), 1):
            if len(line) > most:
                yield f"{path}:{number}: {len(line)} characters"


def believed():
    """The definitions that have to be believed: those that are not shaped like code."""
    return [path for path in definitions() if "/specs/steps/" not in path]


def two_meanings():
    """Names that two crates give to a definition, a record or a data type."""
    crates_of = {}
    for path in believed():
        for found in re.findall(r"(?m)^\s*(?:abbrev|unfoldable) pub ([^\W\d][\w'′-]*) :|^pub (?:record|data) (\w+)", read(path)):
            crates_of.setdefault(found[0] or found[1], set()).add(path.split("/")[1])
    for name, places in sorted(crates_of.items()):
        if len(places) > 1:
            yield f"{name}: {', '.join(sorted(places))}"


# ── crates.txt: a crate names what it uses, and no more ──

@functools.cache
def crates():
    lines = [line.split("#")[0].split(":") for line in read("crates.txt").split("\n")]
    return {line[0].split()[0]: line[1].split() for line in lines if len(line) == 2}


def one_by_one(text):
    """With a line `use A::X;` for each name that a `use A::{X, Y};` brings in."""
    grouped = r"(?m)^[ \t]*((?:pub )?use (?:\w+::)+)\{([^{}]*)\};"
    return re.sub(grouped, lambda found: "\n".join(f"{found[1]}{name.strip()};" for name in found[2].split(",") if name.strip()), text)


@functools.cache
def source(crate):
    return one_by_one(bare("\n".join(read(path) for path in files(f"crates/{crate}/src/**/*.rt"))))


def type_owners(crate, item, seen):
    """The crates whose structs and enums an item is, or has in its signature or fields: for a value of a type its crate has to be named."""
    if crate not in crates() or (crate, item) in seen:
        return set()
    seen.add((crate, item))
    text, found = source(crate), set()
    if re.search(rf"(?m)^pub (struct|enum) {item}\b", text):
        found.add(crate)
    for handed_on in re.finditer(rf"(?m)^pub use (\w+)(?:::\w+)*::{item};", text):
        found |= type_owners(handed_on[1], item, seen)
    fields = rf"(?ms)^pub (?:fn {item}\b.*?(?=requires|ensures|\{{)|(?:struct|enum|type) {item}\b.*?(?:^\}}|;$))"
    for said in re.findall(fields, text):
        for kind in set(re.findall(r"\b[A-Z]\w+", said)) - {item}:
            near = re.search(rf"\b(\w+)(?:::\w+)*::{kind}\b", said) or re.search(rf"(?m)^(?:pub )?use (\w+)(?:::\w+)*::{kind};", text)
            found |= type_owners(near[1] if near and near[1] in crates() else crate, kind, seen)
    return found


def edges():
    for crate, needs in crates().items():
        rest = [path for folder in ("specs/**/*.antt", "proofs/**/*.antt", "must-fail/*.edit") for path in files(f"crates/{crate}/{folder}")]
        named = set(re.findall(r"\bRattle\.(\w+)", source(crate) + bare("\n".join(map(read, rest)))))
        named |= set(re.findall(r"(?m)^use (\w+);", source(crate)))
        for owner, item in re.findall(r"(?<![\w:])(\w+)(?:::\w+)*::(\w+)", source(crate)):
            named |= {owner} | type_owners(owner, item, set())
        for other in needs:
            if other in crates() and other not in named:
                yield f"crates.txt: {crate} never names {other}"


# ── the tour: definitions in an order in which each needs only what stands before ──

def of_any_crate(name):
    return re.match(r"(NAME|src|specs|proofs|must-fail)/", name) is not None


def paths_in(text):
    """The files of crates that a piece of a document names; a file without folder stands beside the one before it."""
    folder = None
    for found in re.findall(r"`(?:crates/)?([\w./-]+\.(?:antt|rt))`", text):
        folder = os.path.dirname(found) or folder
        if folder and not of_any_crate(found):
            yield os.path.join("crates", folder, os.path.basename(found))


def tour():
    stops = re.findall(r"(?m)^\d+\. (.*):$", read(TOUR))
    return [path for stop in stops for path in paths_in(stop)]


def module_file(crate, names):
    """The file of `Rattle.CRATE.specs.A.B.name`."""
    for count in range(len(names), 0, -1):
        path = f"crates/{crate}/specs/{'/'.join(names[:count])}.antt"
        if os.path.exists(os.path.join(TOP, path)):
            return path
    return None


def out_of_order():
    number = {path: k for k, path in reversed([*enumerate(tour())])}
    for path, k in number.items():
        if not os.path.exists(os.path.join(TOP, path)):
            yield f"{TOUR}: {path} does not exist"
            continue
        needs = re.findall(r"\bRattle\.(\w+)\.specs\.([\w.'-]+)", bare(read(path)))
        for other in sorted({module_file(crate, names.strip(".").split(".")) for crate, names in needs} - {None}):
            if number.get(other, -1) > k:
                yield f"{TOUR}: {path} needs {other}, which stands below it"


def outside_the_tour():
    seen = set(tour())
    for path in files("crates/*/specs/*.antt"):
        only_lists = all(re.match(r"\s*$|--|(pub )?mod ", line) for line in read(path).split("\n"))
        if not only_lists and path not in seen:
            yield path


# ── must-fail edits: what an edit replaces stands once in its file ──

def misfits():
    for path in files("crates/*/must-fail/*.edit"):
        changed = None
        for line in read(path).split("\n"):
            if line.startswith("file: "):
                changed = os.path.join(path.split("/must-fail/")[0], line[6:])
            if line.startswith("old: "):
                times = read(changed).count(line[5:]) if changed and os.path.exists(os.path.join(TOP, changed)) else 0
                if times != 1:
                    yield f"{path}: its old text stands {times} times in {changed}"


# ── documents: what they name exists ──

def is_there(*parts):
    return os.path.exists(os.path.join(TOP, *parts))


def known_name(name):
    """Whether what stands between backticks is no name of a thing of the repository, or one that exists."""
    name = name.split(" ")[0].removeprefix("./")
    if of_any_crate(name):
        return True
    function = re.fullmatch(r"(\w+)((?:::\w+)*)::(\w+)", name)
    if function:
        return function[1] in crates() and re.search(rf"\b(?:fn|struct|enum|const|type|mod) {function[3]}\b", source(function[1])) is not None
    edit = re.fullmatch(r"(\w+)/(\w+)", name)
    if edit and not is_there(name):
        return is_there("crates", edit[1], "must-fail", edit[2] + ".edit") or is_there("crates", name)
    if re.fullmatch(r"[\w.+-]+(/[\w.+*-]*)+", name) and not name.startswith("target/"):
        return any(glob.glob(os.path.join(TOP, start, name)) for start in ("", "crates"))
    return True


def named_in_vain():
    for name in re.findall(r">(\w+_\w+)<", read(PICTURE)):
        if name not in crates():
            yield f"{PICTURE}: there is no crate {name}"
    for path in filter(is_there, DOCUMENTS):
        text = re.sub(r"(?ms)^```.*?^```|^    .*?$", "", read(path))
        for link in re.findall(r"\]\(([^)#:]+)\)|\b(?:src|srcset)=\"([^\":]+)\"", text):
            target = link[0] or link[1]
            if not is_there(os.path.dirname(path), target):
                yield f"{path}: there is no {target}"
        for name in re.findall(r"`([^`\n]+)`", text):
            if not known_name(name):
                yield f"{path}: there is no {name}"
        for block in re.split(r"\n\s*\n|\n(?=\| |- |\d+\. )", text):
            for named in paths_in(block):
                if not is_there(named):
                    yield f"{path}: there is no {named}"
        for names in re.findall(r"(?m)^- ((?:`\w+`(?:, )?)+):", text):
            for name in re.findall(r"`(\w+)`", names):
                if name not in crates():
                    yield f"{path}: there is no crate {name}"


def counted():
    yield "table numbers in code", table_numbers(code())
    yield "table numbers in definitions", table_numbers(definitions())
    yield "table numbers in laws and proofs", table_numbers([*filter(is_law, files("crates/*/specs/**/*.antt")), *files("crates/*/proofs/**/*.antt")])
    yield "places of records in code", record_places()
    yield "functions with too many parameters", too_many_parameters()
    yield "long lines in code", long_lines(code(), LONGEST_LINE)
    yield "long lines in definitions", long_lines(definitions(), LONGEST_LINE)
    yield "long lines in documents", long_lines(files("*.md") + files("docs/*.md"), LONGEST_LINE_OF_A_DOCUMENT)
    yield "long lines in proofs", long_lines([path for path in files("crates/*/proofs/**/*.antt") if not is_law(path)], LONGEST_LINE_OF_A_PROOF)
    yield "names with two meanings", two_meanings()
    yield "edges never named", edges()
    yield "definitions outside the tour", outside_the_tour()
    yield "tour out of order", out_of_order()
    yield "edits that do not fit", misfits()
    yield "names in documents without a thing", sorted(set(named_in_vain()))


def main():
    wrong = 0
    for name, found in counted():
        found = list(found)
        said = f"layout: {len(found)} {name}"
        if len(found) < LEFT[name]:
            said += f", {LEFT[name]} before: write {len(found)} into LEFT"
        if len(found) > LEFT[name]:
            wrong += 1
            said += f", and not more than {LEFT[name]} are allowed"
        for place in found if name in sys.argv[1:] else found[:10] if len(found) > LEFT[name] else []:
            print("    " + place)
        print(said)
    return 1 if wrong else 0


if __name__ == "__main__":
    sys.exit(main())
