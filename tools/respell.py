#!/usr/bin/env python3
"""Respells this repository's own definitions and lemmas as today's Rattle spells names: words in snake case, a fact like a type.

usage: tools/respell.py            at the top of a checkout that port.py has just turned
       tools/respell.py --list     says which names it would turn, and which fall together, and writes nothing

It goes by tokens. In crates/ it reads .antt, .rt and .edit files, in docs/ and the pages at the top only what stands between backquotes. Texts between
double quotes keep their letters. Names of Rust (functions of src/, fields, C's names) have no letter in upper case behind one in lower case, and stay.
"""
import os
import re
import sys

NAME = re.compile(r"""[^\s(){}\[\],.;:"'`⌜⌝|<>=+*/&!?@#$%~^\\·→×⊎≡≢≤∷λ¬∙◌][^\s(){}\[\],.;:"`⌜⌝|<>=+*/&!?@#$%~^\\·→×⊎≡≢≤∷λ¬∙◌]*""")
TEXT = re.compile(r'"(?:\\.|[^"\\\n])*"')
MARKED = re.compile(r"`[^`\n]+`")
CAMEL = re.compile(r"(?<=[a-z0-9])(?=[A-Z])|(?<=[A-Z])(?=[A-Z][a-z])")
DECLARED = re.compile(r"^[ \t]*(?:abbrev |unfoldable |pub |data |record |mutual )*([^\s(){}:]+(?: [^\s(){}:]+)*) :(?= )", re.M)

# A fact is spelled as a type.
OTHERS = {
    "inText": "InText",
}

# Lemmas and local names that a definition would fall together with: in the module, and where it is brought in.
LEMMAS = {
    "demands.specs.laws.Tokens": {"lefts_in": "lefts_in_lem"},
    "match_cells.specs.laws.Runs": {"bodies_of": "bodies_of_lem"},
    "match_firsts.specs.laws.Firsts": {"right_of": "right_part"},
    "match_list.specs.laws.Words": {"node_at": "node_at_lem"},
    "prepare.specs.laws.Chain": {"too_long": "too_long_lem"},
    "prepare.specs.laws.Rights": {"leaves_in": "leaves_in_lem"},
    "tree_json.specs.laws.Heads": {"before_text": "before_text_lem"},
    "tree_json.specs.laws.Numbers": {"is_digit": "is_digit_lem"},
    "tree_list.specs.laws.FirstBad": {"room_of": "room_of_lem"},
    "write_back.specs.laws.Deep": {"right_or": "right_or_lem"},
}


def files(kinds, top="crates"):
    for folder, inner, names in os.walk(top):
        inner[:] = sorted(d for d in inner if d not in ("out", "target", ".git"))
        for name in sorted(names):
            if name.endswith(kinds):
                yield os.path.join(folder, name)


def read(path):
    with open(path, encoding="utf-8") as f:
        return f.read()


def is_camel(name):
    """Whether a name begins in lower case and has a word that begins in upper case: `tokenAt`, `upTo-long`; not `All-append`, `is-InText`."""
    return any(re.match(r"[a-zℕ]", part) and re.search(r"[a-z0-9][A-Z]", part) for part in name.split("-"))


def snake(name):
    return "-".join("_".join(w.lower() for w in CAMEL.split(p)) if re.match(r"[a-z]", p) else p for p in name.split("-"))


def declared():
    found = set()
    for path in files((".antt",)):
        text = re.sub(r"--.*", "", read(path))
        for m in DECLARED.finditer(text):
            found.update(m.group(1).split())
        # fields of records, constructors and names of a module's parameters are declared with a colon, too
        for m in re.finditer(r"[({]([^(){}:]+) :(?= )", text):
            found.update(m.group(1).split())
        for m in re.finditer(r"λ ([^(){}:.]+)\.(?=\s)", text):
            found.update(m.group(1).split())
        for m in re.finditer(r"\blet ([^\s(){}:=]+) (?::|=)", text):
            found.add(m.group(1))
        for m in re.finditer(r"\bas ([^\s,}]+)", text):
            found.add(m.group(1))
    for path in files((".rt",)):
        for line in read(path).splitlines():
            if "ghost use" in line:
                found.update(m.group(1) for m in re.finditer(r"\bas ([^\s,}]+)", line))
            found.update(n for m in re.finditer(r"[({]([^(){}:]+) :(?= )", line) for n in m.group(1).split())
    return found


def table():
    names = declared()
    turned = {n: OTHERS.get(n, snake(n)) for n in names if is_camel(n)}
    return {n: t for n, t in turned.items() if t != n}


def brought(path, text):
    """The lemmas that have another name in this file: its own, and those that it brings in."""
    own = path.replace(os.sep, ".").removeprefix("crates.").removesuffix(".antt")
    found = dict(LEMMAS.get(own, {}))
    for module, lemmas in LEMMAS.items():
        for m in re.finditer(r"use Rattle\." + re.escape(module) + r"\.\{([^}]*)\}", text):
            found.update({n: t for n, t in lemmas.items() if n in re.split(r"[,\s]+", m.group(1))})
    return found


def turn(text, names):
    out, at = [], 0
    for m in TEXT.finditer(text):
        out += [NAME.sub(lambda w: names.get(w.group(), w.group()), text[at : m.start()]), m.group()]
        at = m.end()
    out.append(NAME.sub(lambda w: names.get(w.group(), w.group()), text[at:]))
    return "".join(out)


def pages():
    for name in sorted(os.listdir(".")):
        if name.endswith(".md"):
            yield name
    yield from files((".md",), "docs")


def main(argv):
    names = table()
    spelled = set()
    for path in files((".antt", ".rt", ".edit")):
        spelled.update(m.group() for m in NAME.finditer(read(path)))
    fallen = sorted((t, n) for n, t in names.items() if t in spelled)
    twice = {}
    for n, t in names.items():
        twice.setdefault(t, []).append(n)
    for t, n in fallen:
        print(f"respell: {n} would be {t}, which is there already")
    for t, ns in sorted(twice.items()):
        if len(ns) > 1:
            print(f"respell: {' and '.join(sorted(ns))} would both be {t}")
    print(f"respell: {len(names)} names")
    if "--list" in argv:
        print("\n".join(f"{n} {t}" for n, t in sorted(names.items())))
        left = sorted(w for w in spelled if is_camel(w) and w not in names)
        print("respell: camel case, but not declared here:", *left)
        return 0
    for path in files((".antt", ".rt", ".edit")):
        old = read(path)
        new = turn(old, names | brought(path, old))
        if new != old:
            with open(path, "w", encoding="utf-8") as f:
                f.write(new)
    for path in pages():
        old = read(path)
        new = MARKED.sub(lambda m: turn(m.group(), names), old)
        if new != old:
            with open(path, "w", encoding="utf-8") as f:
                f.write(new)
    return 0


if __name__ == "__main__":
    raise SystemExit(main(sys.argv[1:]))
