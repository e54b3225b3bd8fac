"""sample.py GRAMMAR TEXT: the spans of a text, as `./run spans` prints them, after `./build shared`."""
import os
import sys

sys.path.insert(0, os.path.join(os.path.dirname(os.path.abspath(__file__)), "..", "target", "library"))
from gurkenmond import Gurkenmond, Refused

grammar, text = (open(name, "rb").read() for name in sys.argv[1:3])
answer = Gurkenmond().match(grammar, text)
if isinstance(answer, Refused):
    print("refused", answer.number, answer.place)
    if answer.line:
        print(f"line {answer.line}, column {answer.column}: {answer.what}", file=sys.stderr)
elif answer is None:
    print("none")
else:
    print("match", answer.taken)
    for node in answer.nodes:
        print(node.start, node.end, node.depth, node.name)
