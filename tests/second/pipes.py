#!/usr/bin/env python3
"""Sends captures to `replay` or `expect` through pipes, in pieces of odd sizes.

usage: pipes.py PROGRAM SECOND CAPTURE..

PROGRAM has to answer as SECOND does to the same capture as a file, however the pieces cut the
header, a record or a block.
"""

import os
import sys

import ask

BLOCK = 32768
# The size of the first piece and that of the others: all alike, then the header cut in two.
CUTS = [(size, size) for size in (1, 3, 5, 7, 13, 4093, BLOCK - 1, BLOCK + 1, 65535)]
CUTS += [(first, BLOCK) for first in range(1, 12)]
# A long capture takes too long in small pieces.
MOST_PIECES = 700
MOST_SHOWN = 3


def ways(data):
    """The cuts of a capture that differ, each as a list of pieces."""
    cuts = []
    for first, size in CUTS:
        cut = list(ask.pieces(data, lambda at, first=first, size=size: size if at else first))
        if len(cut) <= MOST_PIECES and cut not in cuts:
            cuts.append(cut)
    return cuts


def check(program, second, name):
    """How many ways to send a capture were tried, and how many of them got a wrong answer."""
    want = ask.answer_from_file(second, name)
    with open(name, "rb") as source:
        cuts = ways(source.read())
    wrong = 0
    for cut in cuts:
        got = ask.answer_in_pieces(program, cut)
        if got != want:
            wrong += 1
            if wrong <= MOST_SHOWN:
                sizes = ", ".join(str(len(piece)) for piece in cut[:3])
                print("%s in pieces of %s ..: %s, should be %s"
                      % (name, sizes, ask.brief(got), ask.brief(want)))
    return len(cuts), wrong


def main():
    if len(sys.argv) < 4:
        sys.exit(__doc__.strip())
    _, program, second, *names = sys.argv
    tried, wrong = map(sum, zip(*(check(program, second, name) for name in names)))
    print("pipes, %s: %d captures, %d times in pieces, %d wrong"
          % (os.path.basename(program), len(names), tried, wrong))
    sys.exit(1 if wrong else 0)


if __name__ == "__main__":
    main()
