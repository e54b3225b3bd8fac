#!/usr/bin/env python3
"""Draws the two pictures of README.md: docs/stages.svg, and docs/match.svg from what program `spans` prints for docs/first.peg and docs/first.txt.

docs/draw.py           writes both
docs/draw.py --check   writes nothing, and fails if a file is not what it would write
"""
import html
import os
import re
import subprocess
import sys

HERE = os.path.dirname(os.path.abspath(__file__))
TOP = os.path.dirname(HERE)

# Each picture lies on a card of its own, so that it can be read on any page; colours follow the reader's choice of light or dark.
STYLE = """
text { font-family: system-ui, -apple-system, 'Segoe UI', 'DejaVu Sans', sans-serif; font-size: 14px; fill: #1f2328; }
.mono { font-family: ui-monospace, Menlo, Consolas, 'DejaVu Sans Mono', monospace; }
.small { font-size: 12px; }
.head { font-weight: 600; }
.soft { fill: #59636e; }
.card { fill: #ffffff; stroke: #d1d9e0; }
.box { fill: #f6f8fa; stroke: #8c959f; }
.read { fill: #ddf4ff; stroke: #54aeff; }
.lake { fill: #dafbe1; stroke: #4ac26b; }
.match { fill: #fff8c5; stroke: #d4a72c; }
.write { fill: #fbefff; stroke: #c297ff; }
.tree { fill: #fff1e5; stroke: #fb8f44; }
.frame { fill: none; stroke: #8c959f; stroke-dasharray: 5 4; }
.way { fill: none; stroke: #59636e; stroke-width: 1.6; }
.tip { fill: #59636e; }
@media (prefers-color-scheme: dark) {
text { fill: #f0f6fc; }
.soft { fill: #9198a1; }
.card { fill: #0d1117; stroke: #3d444d; }
.box { fill: #161b22; stroke: #656c76; }
.read { fill: #0c2d6b; stroke: #388bfd; }
.lake { fill: #04260f; stroke: #2ea043; }
.match { fill: #341a00; stroke: #bb8009; }
.write { fill: #3c1e70; stroke: #8957e5; }
.tree { fill: #3d1300; stroke: #db6d28; }
.frame { stroke: #656c76; }
.way { stroke: #9198a1; }
.tip { fill: #9198a1; }
}
"""


class Picture:
    def __init__(self, width, height, title):
        self.size, self.parts = (width, height), []
        self.title = title
        self.box(0.5, 0.5, width - 1, height - 1, "card")

    def box(self, x, y, width, height, kind):
        self.parts.append(f'<rect x="{x}" y="{y}" width="{width}" height="{height}" rx="6" class="{kind}"/>')

    def text(self, x, y, words, kind="", anchor="start"):
        self.parts.append(f'<text x="{x}" y="{y}" class="{kind}" text-anchor="{anchor}" xml:space="preserve">{html.escape(words, quote=False)}</text>')

    def way(self, *points):
        """A line through the points, with a tip at the last one."""
        self.parts.append('<polyline points="' + " ".join(f"{x},{y}" for x, y in points) + '" class="way"/>')
        (x0, y0), (x, y) = points[-2:]
        along, across = (1 if x > x0 else -1 if x < x0 else 0), (1 if y > y0 else -1 if y < y0 else 0)
        tip = [(x, y), (x - 9 * along - 5 * across, y - 9 * across - 5 * along), (x - 9 * along + 5 * across, y - 9 * across + 5 * along)]
        self.parts.append('<polygon points="' + " ".join(f"{a},{b}" for a, b in tip) + '" class="tip"/>')

    def svg(self):
        width, height = self.size
        head = f'<svg xmlns="http://www.w3.org/2000/svg" width="{width}" height="{height}" viewBox="0 0 {width} {height}" role="img">'
        return "\n".join([head, f"<title>{html.escape(self.title)}</title>", f"<style>{STYLE}</style>", *self.parts, "</svg>", ""])


# ── the stages: a crate's name begins with its stage ──

STAGES = {
    "read": ("a text into a table", ["read_tokens", "read_spelling", "read_syntax", "read_walks", "read_order", "read_names", "read_entries", "read_grammar"]),
    "lake": ("lakes made plain", ["lake_step_one", "lake_rules", "lake_sets", "lake_analysis", "lake_plain", "lake_before", "lake_step_two", "lake_calls"]),
    "match": ("a text into spans", ["match_meaning", "match_eval", "match_firsts", "match_keys", "match_parts", "match_plan", "match_rounds", "match_cells", "match_list", "match_derived", "match_desk", "match_walks", "match_lone", "match_nodes", "match_lake", "match_run", "match_ask"]),
    "write": ("a table into a text", ["write_rules", "write_leaves", "write_exp", "write_text", "write_put", "write_back"]),
    "tree": ("spans as JSON, records", ["tree_list", "tree_json", "tree_write", "tree_read", "tree_summary"]),
}
BELOW = ["grammar", "grammar_table", "base_facts", "base_words", "base_rounds", "base_lines"]


def missing():
    """What crates.txt and the picture do not have in common."""
    with open(os.path.join(TOP, "crates.txt"), encoding="utf-8") as file:
        have = set(re.findall(r"(?m)^(\w+)(?: \w+)*:", file.read()))
    drawn = {name for _, names in STAGES.values() for name in names} | set(BELOW)
    staged = {name for name in have if name.split("_")[0] in (*STAGES, "grammar", "base")}
    return sorted((drawn - have) | (staged - drawn))


def stage(picture, name, x, y, height):
    words, crates = STAGES[name]
    picture.box(x, y, 170, height, name)
    picture.text(x + 85, y + 24, name, "head", "middle")
    picture.text(x + 85, y + 42, words, "small soft", "middle")
    for k, crate in enumerate(crates):
        picture.text(x + 85, y + 70 + 21 * k, crate, "mono small", "middle")


def stages():
    # boxes are as high as their crates need
    rows = {name: 21 * len(crates) for name, (_, crates) in STAGES.items()}
    left, match_high, write_high = 75 + max(rows["read"], rows["lake"]), 58 + rows["match"], 63 + rows["write"]
    below = 146 + left
    write = 102 + match_high + 4
    tree, tree_high = write + write_high + 4, 58 + rows["tree"]
    under = max(tree + tree_high, below + 60) + 8
    picture = Picture(960, under + 42, "The stages: a grammar's text is read, its lakes are made plain; then a text is matched, its spans become JSON, or the grammar is written")
    picture.text(480, 34, "programs: spans, blocks, plain_text, explain, replay", "mono small soft", "middle")
    picture.way((480, 42), (480, 58))
    picture.box(20, 60, 920, 36, "box")
    picture.text(480, 83, "gurkenmond: the public calls", "head", "middle")
    picture.box(110, 116, 440, left + 42, "frame")
    picture.text(330, 134, "prepare: what every call does first, refusals 1 to 8", "small soft", "middle")
    for name, x, y, height in (("read", 130, 146, left), ("lake", 360, 146, left), ("match", 610, 102, match_high), ("write", 610, write, write_high),
                               ("tree", 610, tree, tree_high)):
        stage(picture, name, x, y, height)
    picture.text(62, 220, "grammar", "small", "middle")
    picture.text(62, 236, "as text", "small", "middle")
    picture.way((92, 226), (128, 226))
    picture.way((300, 226), (358, 226))
    picture.text(329, 218, "table", "small soft", "middle")
    picture.way((530, 200), (608, 200))
    picture.text(578, 192, "plain", "small soft", "middle")
    picture.way((530, 300), (566, 300), (566, write + 30), (608, write + 30))
    picture.text(578, 292, "plain", "small soft", "middle")
    picture.way((215, below), (215, write + 90), (608, write + 90))
    picture.text(400, write + 84, "table as read", "small soft", "middle")
    picture.text(880, 148, "input", "small", "middle")
    picture.way((838, 144), (782, 144))
    picture.way((780, 200), (826, 200))
    picture.text(880, 197, "nested", "small", "middle")
    picture.text(880, 213, "spans", "small", "middle")
    picture.way((780, write + 45), (826, write + 45))
    picture.text(880, write + 42, "plain PEG,", "small", "middle")
    picture.text(880, write + 58, "or its own text", "small", "middle")
    picture.way((912, 205), (946, 205), (946, tree + 30), (782, tree + 30))
    picture.way((780, tree + 70), (826, tree + 70))
    picture.text(880, tree + 71, "JSON,", "small", "middle")
    picture.text(880, tree + 87, "records", "small", "middle")
    picture.box(20, under, 920, 30, "box")
    picture.text(480, under + 20, "under all: " + ", ".join(BELOW), "mono small", "middle")
    return picture.svg()


# ── one match: a box for each node under the bytes that it spans ──

def lines_of_spans():
    said = subprocess.run([os.path.join(TOP, "run"), "spans", os.path.join(HERE, "first.peg"), os.path.join(HERE, "first.txt")],
                          capture_output=True, text=True, check=True).stdout.split("\n")
    taken = int(re.fullmatch("match ([0-9]+)", said[0])[1])
    nodes = [re.fullmatch(r"(\d+) (\d+) (\d+) (\S+)", line).groups() for line in said[1:] if line]
    return taken, [(int(start), int(end), int(depth), name) for start, end, depth, name in nodes]


def match():
    taken, nodes = lines_of_spans()
    with open(os.path.join(HERE, "first.txt"), encoding="utf-8") as file:
        text = file.read()[:taken]
    unit, left, first, row = 84, 24, 92, 40
    depth = max(node[2] for node in nodes)
    picture = Picture(2 * left + unit * taken, first + row * (depth + 1) + 16, "One match: every node lies under the bytes that it spans")
    for place, letter in enumerate(text):
        x = left + unit * place
        picture.box(x + 2, 34, unit - 4, 36, "box")
        picture.text(x + unit / 2, 58, letter, "mono head", "middle")
        picture.text(x, 24, str(place), "small soft", "middle")
    picture.text(left + unit * taken, 24, str(taken), "small soft", "middle")
    for start, end, level, name in nodes:
        x, y = left + unit * start, first + row * level
        picture.box(x + 2, y, unit * (end - start) - 4, row - 6, "lake" if name.startswith("<") else "read")
        picture.text(x + unit * (end - start) / 2, y + 22, name, "mono small", "middle")
    return picture.svg()


def main():
    other = missing()
    if other:
        sys.exit(f"draw: crates.txt and the picture of the stages differ in {' '.join(other)}")
    stale = []
    for name, drawn in (("stages.svg", stages()), ("match.svg", match())):
        path = os.path.join(HERE, name)
        if "--check" in sys.argv:
            old = open(path, encoding="utf-8").read() if os.path.exists(path) else None
            stale += [name] if old != drawn else []
        else:
            with open(path, "w", encoding="utf-8") as file:
                file.write(drawn)
    if stale:
        sys.exit(f"draw: {' '.join(stale)} is not what docs/draw.py draws")


if __name__ == "__main__":
    main()
