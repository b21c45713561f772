#!/usr/bin/env python3
"""Checks that a failed read or write of the programs is told on standard error.

usage: failures.py STATUS PROGRAM..

Each PROGRAM is `calls`, `replay` or `expect`, by its name. STATUS is that of a failure: 2 of the second
program, 0 of the proved programs, which set none.
"""

import fcntl
import os
import sys

import ask
import utr

TICK = b"0 0 1 0 0 0 0 0\n"
AGREES = utr.capture([utr.record(utr.READ, 5, 0x60)])
LONG = utr.capture([utr.record(utr.READ, 5, 0x60)] * 20000)


def ended(words, **given):
    written, said, status = ask.answer_apart(words, **given)
    return written, said.decode(), status


def from_folder(words):
    folder = os.open(".", os.O_RDONLY)
    try:
        return ended(words, stdin=folder)
    finally:
        os.close(folder)


def onto_full(words, data):
    with open("/dev/full", "wb") as full:
        return ended(words, input=data, stdout=full)


def onto_closed_pipe(words, data):
    """A pipe that nobody reads; the signal that tells so is ignored, as Python does."""
    source, sink = os.pipe()
    os.close(source)
    try:
        return ended(words, input=data, stdout=sink, restore_signals=False)
    finally:
        os.close(sink)


def without_waiting(words, data):
    """The data, then a read that fails since nothing more is there yet."""
    source, sink = os.pipe()
    flags = fcntl.fcntl(source, fcntl.F_GETFL)
    fcntl.fcntl(source, fcntl.F_SETFL, flags | os.O_NONBLOCK)
    os.write(sink, data)
    try:
        return ended(words, stdin=source)
    finally:
        os.close(source)
        os.close(sink)


# ---- Cases ----
# Each has its name; what the program wrote, said and ended with; what it should have written, None where
# that went elsewhere; and the message without the program's name.

UNREAD = "standard input: Resource temporarily unavailable"
FOLDER = "standard input: Is a directory"
FULL = "standard output: No space left on device"


def of_all(program, data):
    yield "a folder", from_folder([program]), b"", FOLDER
    yield "full", onto_full([program], data), None, FULL
    yield "help, full", onto_full([program, "--help"], b""), None, FULL


def of_calls(calls):
    yield from of_all(calls, b"tick\n")
    yield "no more yet", without_waiting([calls], b"tick\nticks 12"), TICK, UNREAD
    yield "full, last line", onto_full([calls], b"tick"), None, FULL


def of_files(program):
    yield from of_all(program, AGREES)
    yield "folder by name", ended([program, "."]), b"", ".: Is a directory"
    yield "no file", ended([program, "no-such-file"]), b"", "no-such-file: No such file or directory"


def of_replay(replay):
    yield from of_files(replay)
    for cut in (0, 5, 8, 10, 12):
        yield "no more yet after %d" % cut, without_waiting([replay], AGREES[:cut]), b"", UNREAD


def of_expect(expect):
    yield from of_files(expect)
    yield "full, header only", onto_full([expect], AGREES[:8]), None, FULL
    yield "full, several blocks", onto_full([expect], LONG), None, FULL
    yield "closed pipe", onto_closed_pipe([expect], LONG), None, "standard output: Broken pipe"
    # What came before a failed read may be written, or its beginning; nothing of a header cut off.
    for cut in (0, 5, 8, 10, 12):
        got = without_waiting([expect], AGREES[:cut])
        begun = AGREES[:cut][:len(got[0])] if cut >= 8 else b""
        yield "no more yet after %d" % cut, got, begun, UNREAD


OF_PROGRAM = {"calls": of_calls, "replay": of_replay, "expect": of_expect}


def main():
    if len(sys.argv) < 3:
        sys.exit(__doc__.strip())
    trouble = int(sys.argv[1])
    count = wrong = 0
    for program in sys.argv[2:]:
        name = os.path.basename(program)
        for case, got, written, message in OF_PROGRAM[name](program):
            count += 1
            want = written, "%s: %s\n" % (name, message), trouble
            if got != want:
                print("%s, %s: %r, should be %r" % (name, case, got, want))
                wrong += 1
    print("failures: %d cases, %d wrong" % (count, wrong))
    sys.exit(1 if wrong else 0)


if __name__ == "__main__":
    main()
