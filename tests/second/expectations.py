#!/usr/bin/env python3
"""Holds `expect` to captures: to the second program's, and to what `replay` says of them.

usage: expectations.py EXPECT SECOND REPLAY CAPTURE..

EXPECT has to write and say what SECOND does. REPLAY has to agree with what is written. And a capture
whose differing reads are mended, each with the byte that REPLAY names as the model's, is what is
expected of it, up to the place at which REPLAY refuses it.
"""

import sys

import ask

HEADER = 8
WORD = 4


def refused(data, number, place):
    """What is expected of a capture that is refused: nothing of a header, the records before a bad one."""
    of_header = number != 8 or len(data) < HEADER
    return b"" if of_header else data[:HEADER + WORD * place], b"%d\n" % number, 0


def mended(replay, data):
    """What is expected of a capture, by the answers of `replay`."""
    data = bytearray(data)
    while True:
        line, _, _ = ask.answer_apart([replay], input=data)
        outcome, *numbers = line.split()
        numbers = list(map(int, numbers))
        if outcome == b"agreed":
            return bytes(data), b"", 0
        if outcome == b"refused":
            return refused(bytes(data), *numbers)
        place, _, model = numbers
        data[HEADER + WORD * place] = model


def troubles(programs, name):
    """What is wrong with what is expected of a capture."""
    expect, second, replay = programs
    got = ask.answer_from_file(expect, name)
    with open(name, "rb") as source:
        data = source.read()
    if got != ask.answer_from_file(second, name):
        yield "not as the second program"
    if got != mended(replay, data):
        yield "not the capture with its reads mended"
    if got[0] and ask.answer_apart([replay], input=got[0]) != (b"agreed\n", b"", 0):
        yield "what is written does not agree"


def main():
    if len(sys.argv) < 5:
        sys.exit(__doc__.strip())
    programs, names = sys.argv[1:4], sys.argv[4:]
    wrong = 0
    for name in names:
        for trouble in troubles(programs, name):
            print("%s: %s" % (name, trouble))
            wrong += 1
    print("expected: %d captures, %d wrong" % (len(names), wrong))
    sys.exit(1 if wrong else 0)


if __name__ == "__main__":
    main()
