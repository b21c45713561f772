#!/usr/bin/env python3
"""Checks that `calls` answers each line of a script as soon as it has read it.

usage: prompt.py PROGRAM SCRIPT ANSWERS

The script goes through a pipe: line by line, then in pieces of odd sizes that cut lines and join
them. A piece is sent only when every line that has ended is answered.
"""

import sys

import ask
from states import picker

SIZES = (1, 3, 5, 7, 11, 101, 4093)


def trouble(program, parts, answers):
    """What is wrong with the answers to lines that come in these parts, or None."""
    try:
        written, status = ask.answer_as_read(program, parts)
    except (EOFError, OSError) as silence:
        return silence
    if status:
        return "status %d" % status
    return None if written == answers else "other answers"


def main():
    if len(sys.argv) != 4:
        sys.exit(__doc__.strip())
    program = sys.argv[1]
    with open(sys.argv[2], "rb") as source:
        lines = source.readlines()
    with open(sys.argv[3], "rb") as source:
        answers = source.read()
    pick = picker(16750)
    odd = ask.pieces(b"".join(lines), lambda _: SIZES[pick(len(SIZES))])
    wrong = 0
    for way, parts in (("line by line", lines), ("in pieces", odd)):
        found = trouble(program, parts, answers)
        if found:
            print("%s: %s" % (way, found))
            wrong += 1
    print("answered as soon as read: %d lines, 2 ways, %d wrong" % (len(lines), wrong))
    sys.exit(1 if wrong else 0)


if __name__ == "__main__":
    main()
