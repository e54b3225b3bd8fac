#!/usr/bin/env python3
"""Says which definitions and laws of this checkout read otherwise than in another folder, wherever in their crate they stand.

usage: tools/same_laws.py FOLDER     at the top; FOLDER is a checkout of an earlier commit that port.py and tools/respell.py have turned

It compares what stands at the left edge of specs/**/*.antt, proofs/*.antt and proofs/laws/*.antt, crate by crate, without `use` lines and layout; whether a law
is cited below specs.laws or proofs.laws is left out. `-` is there alone, `+` here.
"""
import collections
import glob
import re
import sys

from move_laws import blocks, read


def gather(top):
    found = collections.defaultdict(collections.Counter)
    for pattern in ("specs/**/*.antt", "proofs/*.antt", "proofs/laws/*.antt"):
        for path in glob.glob(f"{top}/crates/*/{pattern}", recursive=True):
            crate = path[len(top) :].split("/")[2]
            for block in blocks(re.sub(r"(?m)^use [^\n{]*\{[^}]*\}", "", read(path))):
                said = "\n".join(l for l in block.split("\n") if not l.startswith(("use ", "pub mod ", "mod ", "--")))
                text = re.sub(r"\.(?:specs|proofs)\.laws\.", ".laws.", " ".join(said.split()))
                if text:
                    found[crate][text] += 1
    return found


def main(argv):
    there, here = gather(argv[0]), gather(".")
    for crate in sorted({*there, *here}):
        for mark, texts in (("-", there[crate] - here[crate]), ("+", here[crate] - there[crate])):
            for text in texts:
                print(mark, crate, text)
    print(sum(sum(texts.values()) for texts in there.values()), "there,", sum(sum(texts.values()) for texts in here.values()), "here")
    return 0


if __name__ == "__main__":
    raise SystemExit(main(sys.argv[1:]))
