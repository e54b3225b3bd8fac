"""Texts filled with whole pieces, for the tests and for bench/."""

# The most bytes that a plain text may have (01, Notation).
MOST = 1048576


def cut(pieces, size=MOST):
    """As many of the pieces, from the first on, as have room."""
    text, length = [], 0
    for piece in pieces:
        length += len(piece)
        if length > size:
            break
        text.append(piece)
    return "".join(text)
