#!/usr/bin/env python3
"""Checks the program capture: listings of the stored captures and back, the forms of a line, bad lines
and files, and that memory does not grow with the file.

usage: capture.py
"""

import os
import pty
import struct
import sys

import common
from common import ROOM, TOP, stored, utr

LONG = 3_000_000  # records of a file that does not fit into the room

# A listing, and its records.
GOOD = (
    ("", []),
    ("\n  \n# only a comment\n", []),
    ("reset", [0x50000000]),
    ("reset\r\nreset # behind\n", [0x50000000] * 2),
    ("\tread  5\t0x60#close\n", [0x10000560]),
    ("read 7 255\nwrite 0 0\nwrite 7 0xfF\n", [0x100007FF, 0x20000000, 0x200007FF]),
    ("sin 0\nsin 1\nmodem 0\nmodem 15\n", [0x30000000, 0x30000001, 0x40000000, 0x4000000F]),
    ("record 0\nrecord 0xFFFFFFFF\nrecord 4294967295\n", [0, 0xFFFFFFFF, 0xFFFFFFFF]),
    ("ticks 0\nticks 1\nticks 65535\n", [0, 1, 65535]),
    ("ticks 65536\n", [65535, 1]),
    ("ticks 131070\n", [65535, 65535]),
    ("ticks 4294967295\n", [65535] * 65537),
    ("reset" + " " * 195 + "# " + "x" * 100000, [0x50000000]),
)

NO_NAME = "no record's name: ticks, read, write, sin, modem, reset, record"

# A listing, and what is said of it.
BAD = (
    ("Reset\n", "line 1, column 1: " + NO_NAME),
    ("reset\n\n  tick 1\n", "line 3, column 3: " + NO_NAME),
    ("5\n", "line 1, column 1: " + NO_NAME),
    ("read 5\n", "line 1, column 7: `read` has 2 numbers, here is 1"),
    ("write\n", "line 1, column 6: `write` has 2 numbers, here are 0"),
    ("sin # 1\n", "line 1, column 5: `sin` has 1 number, here are 0"),
    ("record\n", "line 1, column 7: `record` has 1 number, here are 0"),
    ("reset 0\n", "line 1, column 7: `reset` has 0 numbers, this is one more"),
    ("read 1 2 3 4 5 6 7 8 9 10\n", "line 1, column 10: `read` has 2 numbers, this is one more"),
    ("read 8 0\n", "line 1, column 6: the address is at most 7"),
    ("read 7 256\n", "line 1, column 8: the byte is at most 255"),
    ("write 0x8 0\n", "line 1, column 7: the address is at most 7"),
    ("sin 2\n", "line 1, column 5: the level is at most 1"),
    ("modem 16\n", "line 1, column 7: the value is at most 15"),
    ("ticks 4294967296\n", "line 1, column 7: the count is at most 4294967295"),
    ("ticks 100000000000000000000000\n", "line 1, column 7: the count is at most 4294967295"),
    ("record 0x100000000\n", "line 1, column 8: the word is at most 4294967295"),
    ("ticks -1\n", "line 1, column 7: no digit of a decimal number"),
    ("ticks 1f\n", "line 1, column 8: no digit of a decimal number"),
    ("ticks 0x1g\n", "line 1, column 10: no digit of a hexadecimal number"),
    ("ticks 0x\n", "line 1, column 9: a digit is missing"),
    ("ticks 010\n", "line 1, column 7: a decimal number has no 0 in front; hexadecimal starts with 0x"),
    ("ticks 1\0\n", "line 1, column 8: no digit of a decimal number"),
    ("reset\n" + " " * 201, "line 2, column 201: a line has at most 200 bytes before its comment"),
)

# A file that cannot be listed, and what is said of it.
REFUSED = (
    (b"", "the file has 0 of a header's 8 bytes"),
    (b"UTR\0\1\0\0", "the file has 7 of a header's 8 bytes"),
    (b"UTS\0\1\0\0\0", "the file starts with 55 54 53 00 hex; a capture starts with 55 54 52 00, "
                       "the letters UTR and a zero byte"),
    (b"UTR\0\1\0\0\1", "bytes 6 and 7 of the file are 00 01 hex; in a capture they are zero"),
    (b"UTR\0\2\1\0\0", "the file says version 258; the known version is 1"),
)


def run(data, *arguments, **more):
    """What it writes, its messages and its status."""
    return common.run("capture", data, *arguments, **more)


def listing(words):
    """Written by the second program's own reading of a record."""
    lines = []
    for place, word in enumerate(words):
        parts = utr.parts(word)
        said = "record 0x%08X" % word if parts is None else " ".join(
            [utr.NAMES[parts[0]], *map(str, parts[1:])])
        lines.append("%-20s# %d\n" % (said, place))
    return "".join(lines).encode()


def round_trips():
    """Each stored capture with a good header: its listing, and the capture of that."""
    wrong = count = 0
    for name, data in stored():
        if data[:8] != utr.header():
            continue
        words = utr.unpack(data)
        left = (len(data) - 8) % 4
        said = "capture: %d of a record's 4 bytes are left at the end:" % left
        out, errors, status = run(data, "--list")
        listed = (out == listing(words) and status == (2 if left else 0)
                  and (errors.startswith(said) if left else not errors))
        if not listed or run(out) != (utr.capture(words), "", 0):
            print("%s: its listing, or what is made of it, is wrong" % name)
            wrong += 1
        count += 1
    return wrong, count


def table():
    wrong = [text for text, words in GOOD if run(text.encode()) != (utr.capture(words), "", 0)]
    wrong += [text for text, said in BAD if run(text.encode()) != (b"", "capture: %s\n" % said, 2)]
    wrong += [data for data, said in REFUSED if run(data, "--list") != (b"", "capture: %s\n" % said, 2)]
    for text in wrong:
        print("wrong answer to %r" % text[:60])
    return len(wrong), len(GOOD) + len(BAD) + len(REFUSED)


def arguments_and_streams():
    """Arguments, a folder to read, a full device to write: a message and status 2."""
    folder = os.open(TOP, os.O_RDONLY)
    with open("/dev/full", "wb") as full:
        said = [
            run(b"", "--lists")[1:] == ("capture: --lists: no such argument; see capture --help\n", 2),
            run(b"", "--list", "x")[1:] == ("capture: x: no such argument; see capture --help\n", 2),
            run(b"", "--help")[0].startswith(b"usage: capture <LISTING >CAPTURE\n"),
            run(None, stdin=folder) == (b"", "capture: reading: Is a directory\n", 2),
            run(None, "--list", stdin=folder) == (b"", "capture: reading: Is a directory\n", 2),
            run(b"reset\n", stdout=full)[1:] == ("capture: writing: No space left on device\n", 2),
            run(utr.capture([0]), "--list", stdout=full)[1:] ==
            ("capture: writing: No space left on device\n", 2),
        ]
    os.close(folder)
    for number, right in enumerate(said):
        if not right:
            print("arguments and streams: case %d is wrong" % number)
    return said.count(False), len(said)


def terminals():
    """On a terminal it is told what is awaited; here the terminal ends at once."""
    wrong = 0
    for arguments, said in (([], "a listing is read from the terminal"), (["--list"], "a capture is awaited")):
        near, far = pty.openpty()
        os.write(near, b"\4")
        if not run(None, *arguments, stdin=far)[1].startswith("capture: " + said):
            print("capture %s: no hint on a terminal" % " ".join(arguments))
            wrong += 1
        os.close(near)
        os.close(far)
    return wrong, 2


def memory():
    """A file larger than the memory that there is, there and back."""
    data = utr.header() + struct.pack("<3I", 65535, 0x10000560, 0x60000000) * (LONG // 3)
    assert len(data) > ROOM
    out, errors, status = run(data, "--list", limit=ROOM)
    right = not errors and status == 0 and run(out, limit=ROOM) == (data, "", 0)
    if not right:
        print("a long capture is not listed, or not made, in %d bytes" % ROOM)
    return 0 if right else 1, 1


def main():
    wrong = count = 0
    for part in (round_trips, table, arguments_and_streams, terminals, memory):
        bad, cases = part()
        wrong += bad
        count += cases
    if count < 150:
        print("only %d cases" % count)
        wrong += 1
    print("capture: %d cases, %d wrong" % (count, wrong))
    return 1 if wrong else 0


if __name__ == "__main__":
    sys.exit(main())
