#!/usr/bin/env python3
"""Turns a crate's proofs by hand of an older Rattle, proofs/F/Proof.antt, into today's Invariants.antt and Answers.antt.

usage: tools/answers.py CRATE-FOLDER NAMES.json     where NAMES.json is what `rt check --generated DIR --old-names` writes for the crate

A proof of the older form names each goal `tie.Need-X` and walks to a fact by its place, as `c.before.before.if1.true`. Today's goals are named after the
source, and every fact is a field of `c` by its step's name. NAMES.json has both names of each. Answers that only say `search rules` or `omega arith` go,
since the check finds them. What it can't turn it says, with the file.
"""
import json
import os
import re
import sys

STEP = re.compile(r"\b(?P<v>[cw])(?P<up>(?:\.before)*)\.(?P<step>[^\s().,;\[\]{}]+)(?P<rest>(?:\.[^\s().,;\[\]{}]+)*)")
START = {"args", "requires", "ranges", "type_inv", "well_formed"}
MADE = re.compile(r"^use Rattle\.\w+\.proofs\.\S+\.(Statement|Tie|Reads|Lts)(?:\.\{[^}]*\})?(?: as (\S+))?$")
FOUND = {"search rules", "omega arith"}


def norm(name):
    name = name.replace("_", "-").lower()
    return name.removeprefix("overflow-")


def plain(step):
    return re.sub(r"\d+$", "", norm(step))


def blocks(text):
    """Declarations at the left edge, each with its comments before it."""
    out, now = [], []
    fresh = True
    for line in text.split("\n"):
        starts = line and not line[0].isspace() and not line.startswith((")", "]", "}"))
        if starts and now and not all(l.startswith("--") or not l.strip() for l in now):
            head = re.match(r"(?:abbrev |pub |unfoldable )*(\S+)", line).group(1)
            first = next(l for l in now if l.strip() and not l.startswith("--"))
            name = re.match(r"(?:abbrev |pub |unfoldable )*(\S+)", first).group(1)
            # a definition's clauses and its line `unfolding` go on
            if line.startswith("unfolding ") or (head == name and not line.startswith(("use ", "--"))):
                now.append(line)
                continue
            out.append("\n".join(now).strip("\n"))
            now = []
        now.append(line)
    if now:
        out.append("\n".join(now).strip("\n"))
    return [b for b in out if b]


class Names:
    """One function's old and new names."""

    def __init__(self, table):
        self.needs = {}
        self.at = {}
        for (old, new), (place, _) in zip(table["needs"], table["asked_at"]):
            self.needs[norm(old)] = new
            self.at[norm(old)] = place
        self.places = {p[0]: p for p in table["places"]}
        self.arms = {p[0]: a for p, a in zip(table["places"], table["arms"]) if a}
        self.loops = {old: (new, names) for (old, new), names in table["loops"]}
        self.changed = table["changed"]
        self.args = [(a.replace(" ", ""), b.replace(" ", "")) for a, b in table["args"]]
        self.settled = set(map(norm, table["settled"]))
        self.params = table["params"]
        self.cycle = False
        self.by_place = False
        self.lost = []

    def chain(self, place):
        out = []
        while place is not None and place in self.places:
            out.append(self.places[place])
            place = self.places[place][1]
        return out

    def named(self, callee, rest):
        """`.new.1.1.0` goes by position, `.new.t` by name."""
        m = re.match(r"(\.(?:new|auto))((?:\.1)*)\.0(?=\.|$)", rest)
        if not m or callee not in self.params or m.group(2).count("1") >= len(self.params[callee]):
            return rest
        return f"{m.group(1)}.{self.params[callee][m.group(2).count('1')]}{rest[m.end():]}"

    def step(self, place, ups, step, rest):
        if step.replace("-", "_") in START or step.startswith(("told-", "fits-", "lifetimes")):
            step = step.replace("-", "_") if step.replace("-", "_") in START else step
            if self.cycle and step == "requires":
                # the measure's value stood before the clauses
                step, rest = ("decreases", rest[2:]) if rest.startswith(".0") else ("requires", rest[2:])
            path = "." + step + rest
            for old, new in self.args:
                if path == old or path.startswith(old + "."):
                    path = new + path[len(old) :]
                    break
            return path
        chain = self.chain(place)
        order = chain[ups : ups + 1] + chain[ups + 1 :] + chain[:ups][::-1]
        # a step's number may have moved: the place says which is meant
        there = chain[ups][2][0] if ups < len(chain) else ""
        if self.by_place and there and norm(there) != norm(step) and plain(there) == plain(step):
            step = there
        elif self.by_place and not any(norm(p[2][0]) == norm(step) or self.arms.get(p[0]) for p in chain):
            step = next((p[2][0] for p in order if plain(p[2][0]) == plain(step)), step)
        for p in order:
            arm = self.arms.get(p[0])
            for field, old, path in sorted(arm[2] if arm else [], key=lambda f: -len(f[2])):
                way = "".join("." + w for w in path)
                if norm(old) == norm(step) and (rest + ".").startswith(way + "."):
                    return f".{arm[0]}.{field}{rest[len(way):]}"
            old, new = p[2]
            if old and norm(old) == norm(step):
                for was, now in p[4]:
                    if rest == "." + was or rest.startswith("." + was + "."):
                        rest = "." + now + rest[len(was) + 1 :]
                        break
                return "." + new + self.named(p[3], rest)
        if step.endswith("_lem"):
            # tools/respell.py and port.py took a step's name for a lemma's
            return self.step(place, ups, step.removesuffix("_lem"), rest)
        self.lost.append(f"{step} at {place}")
        return "." + step + rest


def unnamed(body):
    """Writes out what a `let` names that is a place or a field of `c`."""
    while True:
        m = re.search(r"\blet (\S+) = (c(?:\.[^\s().,;\[\]{}]+)*) in(?:[ \n]+)", body)
        if not m:
            return body
        rest = re.sub(r"(?<![^\s(){}\[\],;←])" + re.escape(m.group(1)) + r"(?=[.\s)},;\]]|$)", lambda _: m.group(2), body[m.end() :])
        body = body[: m.start()] + rest


def facts(body, names, place):
    body = unnamed(body)

    def sub(m):
        if m.group("v") != "c":
            return m.group()
        return "c" + names.step(place, m.group("up").count("before"), m.group("step"), m.group("rest"))

    return STEP.sub(sub, body)


def head_of(block):
    """The comments, the name, the type and the rest of a block."""
    lines = block.split("\n")
    k = 0
    while lines[k].startswith("--") or not lines[k].strip():
        k += 1
    m = re.match(r"((?:abbrev |pub |unfoldable )*)(\S+) : (.*)", lines[k])
    if not m:
        return lines[:k], None, "\n".join(lines[k:]), ""
    typed = m.group(3)
    k2 = k + 1
    # a type may go over some lines
    while k2 < len(lines) and lines[k2][:1].isspace() and not re.match(re.escape(m.group(2)) + r"\b", lines[k2]):
        typed += "\n" + lines[k2]
        k2 += 1
    return lines[:k], m.group(2), typed, "\n".join(lines[k2:])


PARAM = re.compile(r"(?<![^\s(){}\[\],;])([^\s(){}\[\],;.]+)(?=[\s(){}\[\],;.]|$)")


def of_loop(before, name, body, names, kind, loop, lead=""):
    """An invariant or a measure, and what is wrong with it. The older form took by place every variable as it was when the loop began, then those that it
    changes; today's is a function of `l`."""
    if loop not in names.loops:
        return None, f"no loop {loop}"
    new, variables = names.loops[loop]
    changed = names.changed[list(names.loops).index(loop)]
    fields = [("l.initial." if c else "l.") + v for v, c in zip(variables, changed)] + ["l." + v for v, c in zip(variables, changed) if c]
    d = re.match(re.escape(name) + r"((?: [^\s=]+)*) =\s*(.*)", body, re.S)
    params = d.group(1).split()
    given = dict(zip(params, fields))
    value = PARAM.sub(lambda w: given.get(w.group(1), w.group(1)), d.group(2))
    sep = "\n    " if "\n" in value and re.search(re.escape(name) + r"[^\n]* =\n", body) else " "
    new = f"{kind}-{lead}{new}"
    text = "\n".join(before + [f"abbrev pub {new} : goal.{new}", f"{new} l ={sep}{value}"])
    return text, None if len(params) == len(fields) else f"{name}: {params} but {fields}"


def of_goal(before, name, body, names, old, bound, lead=""):
    """An answer, and what is wrong with it; neither where the check finds the answer by itself. `bound` is what the answer takes."""
    d = re.match(r"((?:unfolding [^\n]*\n(?:[ ]+[^\n]*\n)*)*)" + re.escape(name) + f" {bound}" + r"(?: κs)? =(\s*)(.*)", body, re.S)
    if not d:
        return None, f"{name}: its form"
    opened, space, said = d.groups()
    if said.strip() in FOUND and not opened:
        return None, None
    if norm(old) not in names.needs:
        return None, None if norm(old) in names.settled else f"no goal {old}: {sorted(names.needs)}"
    new = lead + names.needs[norm(old)]
    value = facts(said, names, names.at[norm(old)])
    if value.startswith("⊎_elim") and value.endswith(".branch"):
        # a join's ways are no sum today, and the check takes them one by one
        return None, f"{new}: left to the check: {value[:80]}"
    return "\n".join(before + [f"pub {new} : goal.{new}", *([opened.rstrip("\n")] if opened else []), f"{new} {bound} ={space}{value}"]), None


def pruned(text):
    """The file without the names of its `use` lines that nothing below them says."""
    lines = text.split("\n")
    body = "\n".join(re.sub(r"--.*", "", l) for l in lines if not l.startswith("use "))
    words = set(re.split(r"[\s(){}\[\],;]+", body))
    words |= {part for w in words for part in w.split(".")}

    def said(name):
        name = name.split(" as ")[-1].strip()
        if name == "[]":
            return "[]" in body
        if "◌" in name:
            return all(part in body for part in name.split("◌") if part)
        return name in words

    out = []
    for line in lines:
        m = re.match(r"use (\S+)\.\{([^}]*)\}$", line)
        if m:
            names = [n.strip() for n in m.group(2).split(",") if said(n.strip())]
            if names:
                out.append(f"use {m.group(1)}.{{{', '.join(names)}}}")
            continue
        m = re.match(r"use \S+ as (\S+)$", line)
        if m and m.group(1) not in words:
            continue
        out.append(line)
    return "\n".join(out)


def turn(path, crate, table):
    """Steps go by their names; where a name is not found, their numbers have moved, and all go by their places."""
    with open(path, encoding="utf-8") as f:
        text = f.read()
    said, lost = turn_by(path, crate, table, False)
    if lost:
        with open(path, "w", encoding="utf-8") as f:
            f.write(text)
        said, _ = turn_by(path, crate, table, True)
    return said


def turn_by(path, crate, table, by_place):
    with open(path, encoding="utf-8") as f:
        text = f.read()
    folder = os.path.dirname(path)
    inner = folder.split("/proofs/", 1)[1].replace("/", ".")
    names = Names(table)
    names.by_place = by_place
    uses, made, answers, invariants, kept, comments = [], {}, [], [], [], []
    said = []
    for block in blocks(text):
        if block.startswith("use "):
            for line in block.split("\n"):
                if not line.startswith("use "):
                    if line.startswith("--"):
                        comments.append(line)
                    continue
                m = MADE.match(line)
                if m:
                    made[m.group(2)] = line
                else:
                    uses.append(line)
            continue
        before, name, typed, body = head_of(block)
        if name is None:
            if all(l.startswith(("--", "use ")) or not l.strip() for l in block.split("\n")):
                for line in block.split("\n"):
                    if line.startswith("use "):
                        m = MADE.match(line)
                        if m:
                            made[m.group(2)] = line
                        else:
                            uses.append(line)
                    elif line.startswith("--"):
                        comments.append(line)
                continue
            kept.append(block)
            continue
        if "tie.close" in body:
            continue
        m = re.match(r"tie\.(invariant|decreases)-(loop\d*)$", typed)
        if m:
            part, problem = of_loop(before, name, body, names, *m.groups())
            invariants += [part] if part else []
            said += [problem] if problem else []
            continue
        m = re.match(r"tie\.Need-(\S+)", typed)
        if m:
            part, problem = of_goal(before, name, body, names, m.group(1), "c")
            answers += [part] if part else []
            said += [problem] if problem else []
            continue
        if "tie." in block:
            said.append(f"{name} : {typed[:60]}")
        kept.append(block)
    said += names.lost
    own = f"Rattle.{crate}.proofs.{inner}"
    body = "\n\n".join(kept + answers)
    needed = [line for alias, line in made.items() if alias and alias != "tie" and re.search(r"\b" + re.escape(alias) + r"\.", body)]
    head = [c for c in comments if "meets its contract" not in c]
    if answers or kept:
        with open(os.path.join(folder, "Answers.antt"), "w", encoding="utf-8") as f:
            f.write(pruned("\n".join(head + uses + needed + [f"use {own}.Goals as goal", "", body, ""])))
    if invariants:
        with open(os.path.join(folder, "Invariants.antt"), "w", encoding="utf-8") as f:
            f.write(pruned("\n".join(uses + [f"use {own}.Given as goal", "", "\n\n".join(invariants), ""])))
    os.remove(path)
    return said, names.lost


def turn_cycle(path, crate, tables):
    """The proof of functions that call one another, or of one that calls itself: every name begins with the function's."""
    with open(path, encoding="utf-8") as f:
        text = f.read()
    folder = os.path.dirname(path)
    inner = folder.split("/proofs/", 1)[1].replace("/", ".")
    start = f"Rattle-{crate}-proofs.{inner}.Lts-"
    functions = {norm(k.removeprefix(start)): (k.removeprefix(start), Names(t)) for k, t in tables.items() if k.startswith(start)}
    for _, names in functions.values():
        names.cycle = True
    params = {k.split("::")[-1]: v for t in tables.values() if isinstance(t, dict) and "params" in t for k, v in t["params"].items()}
    uses, answers, invariants, kept, said = [], [], [], [], []
    for block in blocks(text):
        if block.startswith(("use ", "--")) and all(l.startswith(("--", "use ")) or not l.strip() for l in block.split("\n")):
            for line in block.split("\n"):
                if line.startswith("use ") and not MADE.match(line) and not re.search(r"\.proofs\.\S*(Kinds as|Lts-|Tie\.|\{statement\})|borrow\.Fn\.", line):
                    uses.append(line)
            continue
        before, name, typed, body = head_of(block)
        if name is None:
            kept.append(block)
            continue
        if "-claims" in name or re.search(r": ℕ → In \d", block) or " → statement M" in block:
            continue
        m = re.match(r"Measures \d+ (\S+)-kinds\.ps", typed)
        if m:
            func, _ = functions[norm(m.group(1))]
            value = re.sub(r"\ba((?:\.1)*)\.0(?![0-9])", lambda w: "l." + params[func][w.group(1).count("1")], body.split(" =", 1)[1].strip())
            invariants.append(f"abbrev pub decreases-{func} : goal.decreases-{func}\ndecreases-{func} l = {value}")
            continue
        m = re.match(r"(\S+?)-lts\.(invariant|decreases)-(loop\d*)$", typed)
        if m:
            func, names = functions[norm(m.group(1))]
            part, problem = of_loop(before, name, body, names, m.group(2), m.group(3), func + "-")
            invariants += [part] if part else []
            said += [problem] if problem else []
            continue
        m = re.match(r"\(t : ℕ\) → (\S+?)-lts\.Need-(\S+)", typed)
        if m:
            func, names = functions[norm(m.group(1))]
            part, problem = of_goal(before, name, body, names, m.group(2), "t c", func + "-" if len(functions) > 1 else "")
            answers += [part] if part else []
            said += [problem] if problem else []
            continue
        if "-lts." in block:
            said.append(f"{name} : {typed[:60]}")
        kept.append(block)
    for _, names in functions.values():
        said += names.lost
    own = f"Rattle.{crate}.proofs.{inner}"
    with open(os.path.join(folder, "Answers.antt"), "w", encoding="utf-8") as f:
        f.write(pruned("\n".join(uses + [f"use {own}.Goals as goal", "", "\n\n".join(kept + answers), ""])))
    with open(os.path.join(folder, "Invariants.antt"), "w", encoding="utf-8") as f:
        f.write(pruned("\n".join(uses + [f"use {own}.Given as goal", "", "\n\n".join(invariants), ""])))
    os.remove(path)
    return said


def main(argv):
    crate = os.path.basename(os.path.abspath(argv[0]))
    with open(argv[1], encoding="utf-8") as f:
        tables = json.load(f)
    for folder, inner, files in os.walk(os.path.join(argv[0], "proofs")):
        inner.sort()
        if "Proof.antt" not in files:
            continue
        path = os.path.join(folder, "Proof.antt")
        key = "Rattle-" + crate + "-proofs." + folder.split("/proofs/", 1)[1].replace("/", ".") + ".Lts"
        with open(path, encoding="utf-8") as f:
            text = f.read()
        if os.path.basename(folder).startswith("+"):
            for line in turn_cycle(path, crate, tables):
                print(f"{path}: {line}")
            continue
        if "tie.close" not in text:
            print(f"{path}: left: by hand")
            continue
        if key not in tables:
            print(f"{path}: left: no names for {key}")
            continue
        for line in turn(path, crate, tables[key]):
            print(f"{path}: {line}")
    return 0


if __name__ == "__main__":
    raise SystemExit(main(sys.argv[1:]))
