#!/usr/bin/env python3
"""report.py TIMES [--times] [--strict]: the ratios and growths of what `measure` printed to TIMES, beside the aims; no times unless asked for.

A `!` marks an aim that is missed. Fails if a peer answers otherwise than we do, with --strict also if an aim is missed.
"""
import sys

GROWTH = 4.4
TABLE = 1.2
LPEG = {"g": 0.15, "java": 1, "sums": 0.5, "calls": 0.6, "json": 0.4, "seldom": 2}
READING = 5
PRINTING = 3
SUMMING = 3
PLACING = 3
TITLES = {"g": "G", "java": "Java", "sums": "sums", "calls": "calls between water", "json": "JSON", "seldom": "57 rules that seldom begin"}
BYTES = {"16K": 16384, "64K": 65536, "256K": 262144, "1M": 1048576}
NEXT = {"1K": "4K", "4K": "16K", "16K": "64K"}


class Measured:
    def __init__(self, path):
        self.times, self.over, self.same, self.differs, self.reads, self.trees, self.records, self.places = {}, set(), [], [], {}, {}, {}, {}
        with open(path, encoding="utf-8") as file:
            for line in file:
                kind, name, size, *rest = line.split()
                if kind == "time":
                    self.times[name, size, rest[0]] = float(rest[1])
                elif kind == "over":
                    self.over.add((name, size))
                elif kind == "read":
                    self.reads[name, size] = rest
                elif kind == "same":
                    self.same.append((name, size))
                elif kind == "tree":
                    self.trees[name, size] = int(rest[0])
                elif kind == "records":
                    self.records[name, size] = int(rest[0])
                elif kind == "place":
                    self.places[name, size] = int(rest[0])
                else:
                    self.differs.append(line.strip())

    def names(self, peer):
        """Those that ran with a peer, in order."""
        return list(dict.fromkeys(name for name, _, who in self.times if who == peer))

    def ratio(self, name, size, peer):
        here = self.times.get((name, size, "ours")), self.times.get((name, size, peer))
        return here[0] / here[1] if all(here) else None

    def growth(self, name, peer, small):
        here = self.times.get((name, small, peer)), self.times.get((name, NEXT[small], peer))
        return here[1] / here[0] if all(here) else None


class Aims:
    def __init__(self):
        self.met = self.missed = 0

    def judged(self, value, aim, over=False):
        """A figure with its verdict, ten wide."""
        if value is None and not over:
            return f"{'-':>9} "
        bad = over or value > aim
        self.met, self.missed = self.met + (not bad), self.missed + bad
        return ("over" if value is None else figure(value)).rjust(9) + ("!" if bad else " ")


def figure(value):
    return "-" if value is None else f"{value:.2f}" if value < 9.995 else f"{value:.1f}" if value < 99.95 else f"{value:.0f}"


def plain(value):
    return figure(value).rjust(9) + " "


def on_texts(measured, aims):
    print("Our CPU time over the peer's. The last column is LPeg at its cheapest, a flat list of numbers in place of nodes; it has no aim.\n")
    print(f"{'':27}|{'LPeg with nodes':^40}|{'C table':^40}|{'growth 16K to 64K':^20}| flat list")
    print(f"{'':27}|{'4K':>9} {'16K':>9} {'64K':>9} {'aim':>9} |{'4K':>9} {'16K':>9} {'64K':>9} {'aim':>9} |{'':>9} {'aim':>9} |{'64K':>9}")
    for name, title in TITLES.items():
        line = f"{title:27}|"
        for peer, aim in (("lpeg", LPEG[name]), ("table", None if name == "seldom" else TABLE)):
            line += plain(measured.ratio(name, "4K", peer)) + plain(measured.ratio(name, "16K", peer))
            last = measured.ratio(name, "64K", peer)
            line += (aims.judged(last, aim, (name, "64K") in measured.over) + f"{aim:>9} |") if aim else plain(last) + f"{'':>9} |"
        grown = measured.growth(name, "ours", "16K")
        line += plain(None) + f"{'':>9} |" if name == "seldom" else aims.judged(grown, GROWTH, (name, "64K") in measured.over) + f"{GROWTH:>9} |"
        print(line + plain(measured.ratio(name, "64K", "flat")).rstrip())


def on_worst(measured, aims):
    print(f"\nWorst cases: growth for four times the text, aim {GROWTH} from 16K to 64K. 'over': not run, the sizes before it say it takes too long.\n")
    print(f"{'':27}|{'ours, growth':^30}| C table's | over the C table")
    print(f"{'':27}|{'1K to 4K':>9} {'to 16K':>9} {'to 64K':>9} |{'to 64K':>10} |{'16K':>9}")
    for name in measured.names("table"):
        if name in TITLES:
            continue
        line = f"{name:27}|" + "".join(plain(measured.growth(name, "ours", small)) for small in ("1K", "4K"))
        line += aims.judged(measured.growth(name, "ours", "16K"), GROWTH, (name, "64K") in measured.over) + "|"
        print(line + plain(measured.growth(name, "table", "16K")).rjust(11) + "|" + plain(measured.ratio(name, "16K", "table")).rstrip())


def on_trees(measured, aims):
    print(f"\nThe nodes as JSON text: our time over that of a C program that prints the same text with stdio; aim {PRINTING} at 64K. Behind it bytes a byte of text.\n")
    print(f"{'':27}|{'4K':>9} {'16K':>9} {'64K':>9} |{'text':>9}")
    for name, title in TITLES.items():
        here = [measured.ratio(name + ":tree", size, "stdio") for size in ("4K", "16K", "64K")]
        much = measured.trees.get((name, "64K"))
        print(f"{title:27}|" + plain(here[0]) + plain(here[1]) + aims.judged(here[2], PRINTING) + "|" + plain(much and much / BYTES["64K"]).rstrip())


def on_records(measured, aims):
    print(f"\nThe records of the nodes: our time over that of one pass in C, aim {SUMMING} at 64K where rules are few, and its growth. A pass checks nothing;")
    print("our call checks the list and prepares the grammar. 'bare': ours without the grammar; then the grammar's part of our time. Last, line and column")
    print(f"of the text's end over a loop in C, aim {PLACING}, and the lines.\n")
    print(f"{'':27}|{'4K':>9} {'16K':>9} {'64K':>9} {'growth':>9} |{'bare':>9} {'grammar':>9} {'symbols':>9} |{'place':>9} {'lines':>9}")
    for name, title in TITLES.items():
        key, aimed = name + ":records", name != "seldom"
        ours, passed, grammar = (measured.times.get((key, "64K", who)) for who in ("ours", "pass", "grammar"))
        known = None not in (ours, passed, grammar)
        last, grown = measured.ratio(key, "64K", "pass"), measured.growth(key, "ours", "16K")
        line = f"{title:27}|" + plain(measured.ratio(key, "4K", "pass")) + plain(measured.ratio(key, "16K", "pass"))
        line += aims.judged(last, SUMMING) + aims.judged(grown, GROWTH) + "|" if aimed else plain(last) + plain(grown) + "|"
        line += plain((ours - grammar) / passed if known else None) + plain(grammar / ours if known else None)
        line += f"{measured.records.get((name, '64K'), '-'):>9} |" + aims.judged(measured.ratio(name + ":place", "64K", "loop"), PLACING)
        print(line + f"{measured.places.get((name, '64K'), '-'):>9}")


def on_reading(measured, aims):
    assert measured.reads["lake", "16K"][0] == "0", "the lake text is refused"
    base = measured.times["lake", "16K", "ours"] / BYTES["16K"]
    print(f"\nReading plain texts: time a byte over that of a lake text of 16 KB; aim {READING} at 1 MiB.\n")
    print(f"{'':27}|{'64K':>9} {'256K':>9} {'1M':>9}")
    for name in dict.fromkeys(name for name, _ in measured.reads if name != "lake"):
        each = {size: measured.times[name, size, "ours"] / BYTES[size] / base for size in ("64K", "256K", "1M") if (name, size, "ours") in measured.times}
        over = any((name, size) in measured.over for size in ("256K", "1M"))
        print(f"{name:27}|" + plain(each.get("64K")) + plain(each.get("256K")) + aims.judged(each.get("1M"), READING, over).rstrip())


def main():
    measured, aims = Measured(sys.argv[1]), Aims()
    for line in measured.differs:
        print("DIFFERS", line.split(" ", 1)[1])
    print(f"answers: {len(measured.same)} texts alike, {len(measured.differs)} not: bytes taken, number of nodes, nodes; with the C table cells too\n")
    on_texts(measured, aims)
    on_worst(measured, aims)
    on_trees(measured, aims)
    on_records(measured, aims)
    on_reading(measured, aims)
    print(f"\n{aims.met} aims met, {aims.missed} missed")
    if "--times" in sys.argv:
        for (name, size, peer), seconds in measured.times.items():
            print(f"{name:27} {size:5} {peer:7} {seconds * 1000:12.4f} ms")
    return 1 if measured.differs or not measured.same or ("--strict" in sys.argv and aims.missed) else 0


if __name__ == "__main__":
    sys.exit(main())
