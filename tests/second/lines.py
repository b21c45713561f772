#!/usr/bin/env python3
"""Checks how `calls` reads lines: their forms, their ends, their lengths, blocks and pipes.

usage: lines.py PROGRAM
"""

import random
import sys

import ask
from prompt import trouble
from states import PLACES

TICK = b"0 0 1 0 0 0 0 0\n"
BAD = b"bad\n"
REFUSED = b"9 0 0\n"
LARGEST = b"load" + b" 4294967295" * PLACES
AGREED = b"agreed\n"
READ_LSR = b" %d" % 0x10000560  # agrees on a fresh device
MOST_WORDS = 1024
REPLAY = b"replay 65535" + b" 4294967295" * MOST_WORDS
LONGEST = b"expect 65535 1024" + b" 4294967295" * MOST_WORDS
UNWRITTEN = b" 2863311530"
DCD = b" %d" % 0x40000008  # modem pins: a record of ten digits

CASES = [
    (b"", b""), (b"\n", BAD), (b"\n\n", BAD * 2), (b"tick", TICK), (b"tick\n", TICK),
    (b"tick\n\n", TICK + BAD), (b"tick\r\n", BAD), (b"tick\0\n", BAD), (b"\0", BAD),
    (b"tick\0", BAD), (b"TICK\n", BAD), (b"ti\n", BAD), (b" tick\n", BAD), (b"tick \n", BAD),
    (b"\ttick\n", BAD), (b"tick 1\n", BAD),
    (b"read  0\n", BAD), (b"read 0 \n", BAD), (b"read 00\n", BAD), (b"read +0\n", BAD),
    (b"read -0\n", BAD), (b"read\n", BAD), (b"read \n", BAD), (b"read 1 2\n", BAD),
    (b"read 255\n", b"2 0 0 0 0 0 0 0\n"), (b"read 256\n", BAD),
    (b"write 0 255\n", TICK), (b"write 0 256\n", BAD), (b"write 256 0\n", BAD),
    (b"sin 255\n", b"3 0 0 0 0 0 0 0\n"), (b"sin 256\n", BAD), (b"modem 256\n", BAD),
    (b"level 4294967295\n", b"0 1\n"), (b"level 4294967296\n", BAD),
    (b"level 9999999999\n", BAD), (b"level " + b"1" * 40 + b"\n", BAD),
    (b"level 18446744073709551616\n", BAD), (b"ticks 0\n", BAD), (b"ticks 1", TICK),
    (b"run 0\n", b"0 0\n"), (b"run 4294967295\n", b"0 0\n"), (b"run 4294967296\n", BAD),
    (b"x" * 1000000, BAD), (b"x" * 1000000 + b"\ntick\n", BAD + TICK),
    (b"tick" + b" " * 5000 + b"\ntick", BAD + TICK),
    (LARGEST + b"\nstate\npins", b"0\n" + LARGEST[5:] + b"\n1 0 0 0 0 0 0\n"),
    (LARGEST + b"\n" + b"state\n" * 100, b"0\n" + (LARGEST[5:] + b"\n") * 100),
    (LARGEST + b" \n", BAD), (LARGEST + b"1\n", BAD), (LARGEST + b" 1\n", BAD),
    (b"load" + b" 0" * (PLACES - 1), BAD), (b"load" + b" 0" * (PLACES + 1), BAD), (b"load" + b" 0" * PLACES, b"0\n"),
]
CASES += [
    (b"replay 1\n", AGREED), (b"replay 1", AGREED), (b"replay\n", BAD), (b"replay \n", BAD),
    (b"replay 1 \n", BAD), (b"replay  1\n", BAD), (b"replay 01\n", BAD), (b"replay 1 00\n", BAD),
    (b"replay 1  0\n", BAD), (b"replay 1 0 \n", BAD), (b"replay 1 -1\n", BAD), (b"replay x\n", BAD),
    (b"replay 0\nreplay 2\nreplay 65535\n", b"refused 7 0\n" * 3), (b"replay 65536\n", BAD),
    (b"replay 256\nreplay 257\nreplay 65281\n", b"refused 7 0\n" * 3),  # the low byte of two is 1
    (b"replay 1 0 65535\n", AGREED), (b"replay 1 65536\n", b"refused 8 0\n"),
    (b"replay 1 0 4294967295\n", b"refused 8 1\n"), (b"replay 1 4294967296\n", BAD),
    (b"replay 1" + READ_LSR + b" %d\n" % 0x10000561, b"differs 1 97 96\n"),
    (b"replay 1" + READ_LSR * MOST_WORDS + b"\n", AGREED),
    (b"replay 1" + READ_LSR * (MOST_WORDS + 1) + b"\n", BAD),
    (b"replay 2" + b" 0" * (MOST_WORDS + 1) + b"\n", BAD), (b"replay 1" + b" 0" * 5000 + b"\n", BAD),
    (REPLAY + b"\n", b"refused 7 0\n"), (REPLAY, b"refused 7 0\n"), (REPLAY + b" \n", BAD),
    (REPLAY + b"1\n", BAD), (REPLAY[:-1] + b"6\n", BAD),
    (b"replay 1" + b" 4294967295" * MOST_WORDS + b"\ntick\n", b"refused 8 0\n" + TICK),
]
CASES += [
    (b"part\n", b"0 0\n"), (b"part", b"0 0\n"), (LARGEST + b"\npart\n", b"0\n1 1\n"),
    (b"part 0\n", BAD), (b"part 1\n", BAD), (b"part \n", BAD), (b" part\n", BAD), (b"parts\n", BAD),
]
CASES += [
    (b"divisor 3072000 7200\n", b"0 27 -12345\n"), (b"divisor 3072000 7200", b"0 27 -12345\n"),
    (b"divisor 0 0\n", REFUSED), (b"divisor 4294967295 4294967295\n", REFUSED),
    (b"divisor 15999999 1000000\n", b"0 1 0\n"), (b"divisor 16000000 1\n", b"0 65535 14259021\n"),
    (LARGEST + b"\ndivisor 1 1000000\nstate\n", b"0\n0 1 -999999\n" + LARGEST[5:] + b"\n"),
    (b"divisor\n", BAD), (b"divisor \n", BAD), (b"divisor 1\n", BAD), (b"divisor 1 \n", BAD),
    (b"divisor 1 2 3\n", BAD), (b"divisor 1 2 \n", BAD), (b"divisor  1 2\n", BAD), (b"divisor 1  2\n", BAD),
    (b"divisor 01 2\n", BAD), (b"divisor 1 02\n", BAD), (b"divisor -1 2\n", BAD), (b"divisor 1 -2\n", BAD),
    (b"divisor 4294967296 1\n", BAD), (b"divisor 1 4294967296\n", BAD), (b"divisor 1 2\r\n", BAD),
    (b"divisor 1\t2\n", BAD), (b"divisors 1 2\n", BAD), (b"Divisor 1 2\n", BAD), (b"divisor1 2\n", BAD),
]
CASES += [
    (b"expect 1 0\n", b"0 0\n"), (b"expect 1 0", b"0 0\n"), (b"expect 1 2\n", b"0 0" + UNWRITTEN * 2 + b"\n"),
    (b"expect 1 2 %d\n" % 0x10000561, b"0 1" + READ_LSR + UNWRITTEN + b"\n"),
    (b"expect 1 1" + READ_LSR * 2 + b"\n", b"16 1" + READ_LSR + b"\n"), (b"expect 1 0 0\n", b"16 0\n"),
    (b"expect 1 1 65536\nexpect 1 0 65536\n", b"8 0" + UNWRITTEN + b"\n8 0\n"),
    (b"expect 0 0\nexpect 2 0\nexpect 257 0 0\nexpect 65535 0\n", b"7 0\n" * 4),
    (LARGEST + b"\nexpect 0 1 0\nexpect 1 0\npart\n", b"0\n1 0" + UNWRITTEN + b"\n1 0\n1 1\n"),
    (b"expect\n", BAD), (b"expect \n", BAD), (b"expect 1\n", BAD), (b"expect 1 \n", BAD), (b"expect 1 0 \n", BAD),
    (b"expect  1 0\n", BAD), (b"expect 1  0\n", BAD), (b"expect 1 0  0\n", BAD), (b" expect 1 0\n", BAD),
    (b"expect 65536 0\n", BAD), (b"expect 1 1025\n", BAD), (b"expect 1 65535\n", BAD), (b"expect 1 4294967296\n", BAD),
    (b"expect 1 0 4294967296\n", BAD), (b"expect 01 0\n", BAD), (b"expect 1 00\n", BAD), (b"expect 1 0 00\n", BAD),
    (b"expect -1 0\n", BAD), (b"expect 1 -1\n", BAD), (b"expect +1 0\n", BAD), (b"expect 1 0 -1\n", BAD),
    (b"expect x 0\n", BAD), (b"expect 1 x\n", BAD), (b"expect 1 0\r\n", BAD), (b"expect 1\t0\n", BAD),
    (b"expect 1 0\t0\n", BAD), (b"expected 1 0\n", BAD), (b"Expect 1 0\n", BAD), (b"expect1 0\n", BAD),
    (b"expect 1 1024" + DCD * MOST_WORDS + b"\ntick\n", b"0 1024" + DCD * MOST_WORDS + b"\n" + TICK),
    (b"expect 1 1023" + DCD * MOST_WORDS + b"\n", b"16 1023" + DCD * (MOST_WORDS - 1) + b"\n"),
    ((b"expect 1 1024" + DCD * MOST_WORDS + b"\n") * 12, (b"0 1024" + DCD * MOST_WORDS + b"\n") * 12),
    (b"expect 1 1024" + b" 0" * (MOST_WORDS + 1) + b"\n", BAD), (b"expect 1 1024" + b" 0" * 5000 + b"\n", BAD),
    (LONGEST + b"\n", b"7 0" + UNWRITTEN * MOST_WORDS + b"\n"), (LONGEST, b"7 0" + UNWRITTEN * MOST_WORDS + b"\n"),
    (LONGEST + b" \n", BAD), (LONGEST + b"1\n", BAD), (LONGEST[:-1] + b"6\n", BAD),
]
CASES += [
    (b"jump 0\n", b"0 0\n"), (b"jump 1", b"0 1\n"), (b"jump 4294967295\n", b"0 1\n"),
    (b"jumprun 0\n", b"0 0 0\n"), (b"jumprun 4294967295", b"0 0 0\n"),
    (b"write 0 65\njumprun 1\njumprun 4294967295\n", TICK + b"0 1 1\n0 4294967295 1\n"),
    (LARGEST + b"\njump 4294967295\njumprun 4294967295\npart\n", b"0\n1 0\n1 0 0\n1 1\n"),
    (b"jump run 1\n", BAD), (b"jum 1\n", BAD), (b"jumpru 1\n", BAD), (b"Jump 1\n", BAD), (b"JUMPRUN 1\n", BAD),
]
for name in (b"jump", b"jumprun"):
    CASES += [(name + rest + b"\n", BAD)
              for rest in (b"", b" ", b" 1 ", b"  1", b" 1 2", b" 00", b" 01", b" -1", b" +1", b" x", b" 1.0", b"\t1",
                           b" 1\t", b" 1\r", b"1", b"s 1", b" 4294967296", b" 9999999999", b" 42949672950",
                           b" 18446744073709551616", b" " + b"1" * 40)]
    CASES += [(b" " + name + b" 1\n", BAD)]
for length in (3831, 3832, 3833, 3834, 11275, 11276, 11277, 11280, 11281, 11282, 65535, 65536, 65537, 131072):
    CASES += [(b"y" * length, BAD), (b"y" * length + b"\n", BAD),
              (b"y" * length + b"\ntick", BAD + TICK)]


TEXT_LINES = 300
TEXT = (b"tick", b"read 5", b"", LARGEST, b"fresh", b"state", b"level 3", b"z" * 7000, LONGEST, REPLAY,
        b"replay 1" + READ_LSR * MOST_WORDS, b"expect 1 1024" + DCD * MOST_WORDS, b"jumprun 4294967295")


def trouble_in_pieces(program):
    """What is wrong with the answers to a text that comes in pieces of odd lengths, or None."""
    pick = random.Random(3)
    text = b"\n".join(pick.choice(TEXT) for _ in range(TEXT_LINES))
    whole, _ = ask.answer(program, text)
    if whole.count(b"\n") != TEXT_LINES:
        return "%d answers to %d lines" % (whole.count(b"\n"), TEXT_LINES)
    parts = ask.pieces(text, lambda _: pick.choice((1, 7, 100, 4000, 65535)))
    return trouble(program, parts, whole)


def main():
    if len(sys.argv) != 2:
        sys.exit(__doc__.strip())
    program = sys.argv[1]
    wrong = 0
    for text, want in CASES:
        got = ask.answer(program, text)
        if got != (want, 0):
            print("%r answered %r with status %d, should be %r"
                  % (text[:60], got[0][:60], got[1], want[:60]))
            wrong += 1
    found = trouble_in_pieces(program)
    if found:
        print("a text in pieces: %s" % found)
        wrong += 1
    print("lines: %d cases, %d wrong" % (len(CASES) + 1, wrong))
    sys.exit(1 if wrong else 0)


if __name__ == "__main__":
    main()
