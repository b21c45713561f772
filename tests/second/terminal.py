#!/usr/bin/env python3
"""Checks what the programs say to a terminal.

usage: terminal.py PROGRAM..

Each PROGRAM is `calls`, `replay` or `expect`, by its name. The hint of what is awaited stands on
standard error where the input is a terminal; how far a replay or an expected capture is stands there
where standard error is one, and is cleared at the end.
"""

import os
import pty
import re
import select
import subprocess
import sys
import tempfile
import time

import ask
import utr

HINTS = {"calls": b"calls: one call to a line, for example: read 5 (Ctrl-D ends)\n",
         "replay": b"replay: a capture is awaited on standard input (replay FILE takes a file)\n",
         "expect": b"expect: a capture is awaited on standard input (expect FILE takes a file)\n"}
# LCR and the divisor's bytes: a pulse every tick.
AT_ONCE = [utr.record(utr.WRITE, 3, 0x80), utr.record(utr.WRITE, 0, 1), utr.record(utr.WRITE, 1, 0)]
AGREED = utr.capture([utr.record(utr.READ, 5, 0x60)])
REFUSED = AGREED + utr.pack([0x60000000])
NONE = b"no capture\n"


def typed(program, text):
    """What a program writes and says, where its input is typed."""
    near, far = pty.openpty()
    child = subprocess.Popen([program], stdin=far, stdout=subprocess.PIPE, stderr=subprocess.PIPE)
    os.close(far)
    os.write(near, text + b"\x04")
    answer = child.communicate(timeout=ask.GUARD)
    os.close(near)
    return answer


class Watched:
    """A program whose standard error is a terminal. What it writes goes to a file, so that it never
    waits for somebody to take it."""

    def __init__(self, program, source):
        self.near, far = pty.openpty()
        self.written = tempfile.TemporaryFile()
        self.child = subprocess.Popen([program], stdin=source, stdout=self.written, stderr=far, bufsize=0)
        os.close(far)
        self.said = b""

    def hear(self, seconds):
        """Takes what is said within this time. False where no more will be."""
        if not select.select([self.near], [], [], seconds)[0]:
            return True
        try:
            self.said += os.read(self.near, 4096)
        except OSError:  # the terminal's other end is closed
            return False
        return True

    def end(self):
        """What was written, and what was said."""
        until = time.monotonic() + ask.GUARD
        while self.hear(ask.GUARD):
            if time.monotonic() > until:
                self.child.kill()
        os.close(self.near)
        self.child.wait()
        with self.written as written:
            written.seek(0)
            return written.read(), self.said


def slow_pipe(program):
    """The answer to records that come one by one, until the program has said how far it is, and the
    capture that they were."""
    watched = Watched(program, subprocess.PIPE)
    sink = watched.child.stdin
    sent = utr.header()
    sink.write(sent)
    until = time.monotonic() + ask.GUARD
    while b"records" not in watched.said and time.monotonic() < until:
        more = utr.pack([utr.record(utr.TICKS, 1)])
        sink.write(more)
        sent += more
        watched.hear(0.02)
    sink.close()
    return watched.end(), sent


def from_file(program, data):
    """The answer to a capture in a file, watched."""
    with open("capture", "wb") as out:
        out.write(data)
    with open("capture", "rb") as source:
        return Watched(program, source).end()


def progress(name):
    """How far a program is, said and cleared."""
    return re.compile(rb"(\r%s: [1-9][0-9]* records)+\r\x1b\[K" % name.encode())


def shown(name, answer):
    """The answer, and whether how far it was has been said and cleared."""
    written, said = answer
    return written, progress(name).fullmatch(said) is not None


def quiet(name, answer):
    """The answer, and what is left on the terminal."""
    written, said = answer
    return written, progress(name).sub(b"", said)


def of_calls(calls):
    yield "typed", typed(calls, b"tick\n"), (b"0 0 1 0 0 0 0 0\n", HINTS["calls"])


def of_captures(name, program, answers):
    """Cases of a program that takes captures; answers(data) is what it writes and says."""
    written, said = answers(NONE)
    yield "typed", typed(program, NONE), (written, HINTS[name] + said)
    for case, data in (("a short capture", AGREED), ("a refused one", REFUSED)):
        written, said = answers(data)
        yield case, quiet(name, from_file(program, data)), (written, said.replace(b"\n", b"\r\n"))
    answer, sent = slow_pipe(program)
    yield "a slow pipe", shown(name, answer), (answers(sent)[0], True)
    data = utr.capture(AT_ONCE + utr.ticks(64000 * utr.MOST_TICKS))
    written, said = answers(data)
    yield "a long capture", quiet(name, from_file(program, data)), (written, said)
    aside = ask.answer_apart([program, "capture"], stdin=subprocess.DEVNULL)
    yield "a long capture, no terminal", aside[:2], answers(data)


def replay_answers(data):
    """What `replay` writes and says."""
    refused = {REFUSED: b"refused 8 1\n", NONE: b"refused 6 0\n"}
    return refused.get(data, b"agreed\n"), b""


def expect_answers(data):
    """What `expect` writes and says."""
    refused = {REFUSED: (AGREED, b"8\n"), NONE: (b"", b"6\n")}
    return refused.get(data, (data, b""))


OF_PROGRAM = {"calls": of_calls,
              "replay": lambda program: of_captures("replay", program, replay_answers),
              "expect": lambda program: of_captures("expect", program, expect_answers)}


def main():
    if len(sys.argv) < 2:
        sys.exit(__doc__.strip())
    count = wrong = 0
    with tempfile.TemporaryDirectory() as folder:
        programs = list(map(os.path.abspath, sys.argv[1:]))
        os.chdir(folder)
        for program in programs:
            name = os.path.basename(program)
            for case, got, want in OF_PROGRAM[name](program):
                count += 1
                if got != want:
                    print("%s, %s: %s, should be %s" % (name, case, ask.brief(got), ask.brief(want)))
                    wrong += 1
        os.chdir("/")
    print("terminal: %d cases, %d wrong" % (count, wrong))
    sys.exit(1 if wrong else 0)


if __name__ == "__main__":
    main()
