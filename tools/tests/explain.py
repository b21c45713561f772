#!/usr/bin/env python3
"""Checks the program explain: what it writes about each stored capture, and about the examples, is what
the second program's answers make of it (expected.py), for several numbers of records around the place;
headers that are refused, arguments, colours, status.

usage: explain.py
"""

import os
import pty
import subprocess
import sys

import common
import expected
from common import ROOM, TOP, answer_to, stored, utr

EXPLAIN = os.path.join(TOP, "target", "bin", "explain")
EXAMPLE = os.path.join(TOP, "examples", "run-four-emptied.utr")
CONTEXT = 6
LONG = 3_000_000  # records of a file that does not fit into the room

CUT = "The recording or the copy of it was cut off. Copy or record again."
OTHER = ("See that this is the recorder's file, not a listing (`capture` makes a capture of\n"
         "one), an archive or part of a capture.")
# A header that is refused, the number, and what is said.
HEADERS = (
    (b"", 8, "the file has 0 of a header's 8 bytes", CUT),
    (b"UTR\0\1\0\0", 8, "the file has 7 of a header's 8 bytes", CUT),
    (b"RTU\0\2\0\0\0", 6, "the file starts with 52 54 55 00 hex; a capture starts with 55 54 52 00, "
     "the letters UTR and a zero byte", OTHER),
    (b"UTR\0\2\0\x80\0", 6, "bytes 6 and 7 of the file are 80 00 hex; in a capture they are zero", OTHER),
    (b"UTR\0\0\1\0\0abc", 7, "the file says version 256; the known version is 1",
     "Have the recorder write version 1."),
)

BAD_RECORD = (
    "The records before it agree. Where those behind it make sense, this word is damaged;\n"
    "where they make none, bytes were lost or added here. Record again, or replay what stands\n"
    "before it, the first %d bytes of the file.")
LEFT = (
    "The records before it agree. The recording was cut off within its last record. Record\n"
    "again, or replay the whole records, the first %d bytes of the file.")


def run(data, *arguments, **more):
    """What it writes, its messages and its status."""
    out, errors, status = common.run("explain", data, *arguments, **more)
    return (out or b"").decode(), errors, status


# ---- Captures ----

class Case:
    """A capture with a good header, and what has to be said of it; its answer is the second program's."""

    def __init__(self, data, answer):
        self.words = utr.unpack(data)
        self.left = data[8 + 4 * len(self.words):]
        self.answer = answer
        self.lines, self.said, self.ticks = expected.listing(self.words)
        self.status = {"agreed": 0, "differs": 1, "refused": 2}[answer.split()[0]]
        self.place = len(self.words) if self.status == 0 else int(answer.split()[1 if self.status == 1 else 2])
        self.state = expected.state(self.words[:self.place])

    def rest(self):
        return "%d of a record's 4 bytes are left at the end:%s" % (
            len(self.left), "".join(" %02X" % byte for byte in self.left))

    def heading(self):
        """The lines after the answer, up to the listing."""
        if self.status == 0:
            return ["All %d records, %d ticks: every read saw the model's byte." % (self.place, self.ticks)]
        cut = self.place == len(self.words)
        ticks, text = (self.ticks, self.rest()) if cut else self.said[self.place]
        lines = ["Record %d, %d ticks after the first: %s" % (self.place, ticks, text)]
        if self.status == 1:
            return lines + ["Bits that differ: " + self.difference()]
        return lines + [(LEFT if cut else BAD_RECORD) % (8 + 4 * self.place)]

    def difference(self):
        seen, model = map(int, self.answer.split()[2:])
        name = self.said[self.place][1].split()[1]
        names = expected.BITS.get(name)
        return ", ".join("%d (%s)" % (bit, names[bit]) if names else str(bit)
                         for bit in range(7, -1, -1) if (seen ^ model) >> bit & 1)

    def text(self, context):
        """All that has to be written; every record where context is None."""
        if context is None:
            first, behind = 0, len(self.words)
        else:
            first, behind = max(0, self.place - context), self.place + context + 1
        listed = self.lines[first:behind]
        if self.left and (context is None or self.place == len(self.words)):
            listed = listed + ["> " + self.rest()]
        where = "after the last record" if self.status == 0 else "before record %d" % self.place
        return "\n".join([self.answer, "", *self.heading(), "", "      record           ticks", *listed,
                          "", "The model " + where, *self.state, ""])


def every_byte():
    """Each byte read and written at each address, below and above LCR bit 7; most reads differ."""
    words = []
    for lcr in (0x00, 0x80):
        for address in range(8):
            words.append(utr.record(utr.WRITE, expected.LCR, lcr))
            for byte in range(256):
                words += [utr.record(utr.WRITE, address, byte), utr.record(utr.READ, address, byte)]
    return utr.capture(words)


def break_heard():
    """A break on SIN, five data bits and one and a half stop bits; then a frame is begun."""
    words = [utr.record(utr.WRITE, expected.LCR, 0x84), utr.record(utr.WRITE, 0, 1),
             utr.record(utr.WRITE, expected.LCR, 0x04), utr.record(utr.SIN, 0), utr.record(utr.TICKS, 200),
             utr.record(utr.WRITE, 0, 0x11), utr.record(utr.TICKS, 5)]
    return utr.capture(words)


def errors_kept():
    """A character of bad parity and a break in character mode, RBR read and LSR not."""
    words = [utr.record(utr.WRITE, expected.LCR, 0x80), utr.record(utr.WRITE, 0, 1),
             utr.record(utr.WRITE, expected.LCR, 0x1B)]
    for level in "0" "10000010" "1" "1" "0" "00000000" "0" "0" "1":
        words += [utr.record(utr.SIN, int(level)), utr.record(utr.TICKS, 16)]
    return utr.capture(words + [utr.record(utr.READ, 0, 0)])


def cut(data):
    """A capture up to some places between its records."""
    words = utr.unpack(data)
    return [utr.capture(words[:len(words) * part // 8]) for part in range(1, 8)]


def cases():
    """Captures, and the numbers of records around the place to be asked for; None is all of them."""
    numbers = (None, CONTEXT, 0, 1, 8192)
    for name, data in stored():
        if data[:8] == utr.header():
            yield name, data, numbers
            if len(data) < 8000:
                for part in cut(data):
                    yield "a part of " + name, part, (CONTEXT,)
    for name in ("run-four", "run-four-emptied"):
        with open(os.path.join(TOP, "examples", name + ".utr"), "rb") as file:
            yield name, file.read(), numbers
    yield "every byte", every_byte(), numbers
    yield "break heard", break_heard(), numbers
    yield "errors kept", errors_kept(), numbers
    for part in cut(errors_kept()):
        yield "a part of errors kept", part, (CONTEXT,)


# What has to be met among the states and answers, for the cases to be worth something.
MET = ("agreed", "differs", "refused", "1.5,", "and 40 more", "+PE", "+FE", "+BI", "waiting for the line",
       "pulses into a character", "never: work", "none: bytes", "RTS is held back", "time-out;", "overrun;",
       "kept errors: PE;", "kept errors: FE BI;", "kept errors: PE FE BI;",
       "after 1 tick\n", "the model answers", "FIFOE", "DLM", "no known code", "5M1.5", "8S2 BREAK DLAB",
       "stopped:", "(IIR E6)", "(IIR CC)", "INTRPT high", "SOUT low", "asserted: RTS DTR")


def captures():
    """From pipes; a listing of all also where the input cannot be gone back in."""
    wrong = count = 0
    met = set()
    for name, data, numbers in cases():
        case = Case(data, answer_to(data))
        for context in numbers:
            arguments = (["--all"] if context is None else [] if context == CONTEXT
                         else ["--context", str(context)])
            text = case.text(context)
            met.update(phrase for phrase in MET if phrase in text)
            if run(data, *arguments) != (text, "", case.status):
                print("explain %s: wrong about %s" % (" ".join(arguments), name))
                wrong += 1
            count += 1
    for phrase in sorted(set(MET) - met):
        print("no case has %r" % phrase)
        wrong += 1
    return wrong, count


def headers():
    wrong = 0
    for data, number, said, advice in HEADERS:
        text = "refused %d 0\n\nNo record was replayed: %s\n%s\n" % (number, said, advice)
        for arguments in ([], ["--all"]):
            if run(data, *arguments) != (text, "", 2):
                print("wrong about the header %r" % data)
                wrong += 1
    return wrong, 2 * len(HEADERS)


# ---- Arguments, streams, colours ----

def troubles():
    """Bad arguments and failing streams: the arguments, and the message."""
    number = "--context takes a number from 0 to 8192: %s; see explain --help"
    return (
        (["--context"], "a number from 0 to 8192 is missing: --context; see explain --help"),
        (["--context", "8193"], number % "8193"),
        (["--context", ""], number % ""),
        (["--context", "-1"], number % "-1"),
        (["--context", "9" * 30], number % ("9" * 30)),
        (["--al"], "no such option: --al; see explain --help"),
        (["--all", "--context", "1"], "--all lists every record: --context; see explain --help"),
        (["-", "b"], "one capture at a time: b; see explain --help"),
        (["no-such-file"], "no-such-file: No such file or directory"),
        ([TOP], "reading: Is a directory"),
        (["--all", TOP], "reading: Is a directory"),
    )


def arguments_and_streams():
    with open(EXAMPLE, "rb") as file:
        data = file.read()
    wrong = [arguments for arguments, said in troubles()
             if run(b"", *arguments) != ("", "explain: %s\n" % said, 2)]
    for arguments in ([], ["--all"]):
        if not run(data, *arguments) == run(data, *arguments, "-") == run(b"", *arguments, EXAMPLE):
            wrong.append(arguments + ["a file and a pipe"])
    with open("/dev/full", "wb") as full:
        if run(data, stdout=full)[1:] != ("explain: writing: No space left on device\n", 2):
            wrong.append(["a full device"])
    if not run(b"", "--help")[0].startswith("usage: explain ") or run(b"", "--help")[1:] != ("", 0):
        wrong.append(["--help"])
    for arguments in wrong:
        print("wrong: %s" % " ".join(arguments))
    return len(wrong), len(troubles()) + 4


def on_terminal(no_color):
    """What a terminal gets."""
    near, far = pty.openpty()
    environment = {**os.environ, "NO_COLOR": no_color}
    child = subprocess.Popen([EXPLAIN, EXAMPLE], stdout=far, env=environment)
    os.close(far)
    taken = b""
    try:
        while piece := os.read(near, 4096):
            taken += piece
    except OSError:
        pass  # the terminal's other end is closed
    os.close(near)
    child.wait()
    return taken.decode().replace("\r\n", "\n")


def colours():
    """Colours around the same text on a terminal, none where NO_COLOR says so."""
    text = run(b"", EXAMPLE)[0]
    coloured = on_terminal("")
    bare = coloured
    for code in ("\033[0m", "\033[1m", "\033[1;31m"):
        bare = bare.replace(code, "")
    marked = "\n\033[1;31m>         45            6496  read LSR 60"
    right = (bare == text, marked in coloured, on_terminal("1") == text, "\033" not in text)
    if not all(right):
        print("colours are wrong: %r" % (right,))
    return right.count(False), len(right)


def memory():
    """A file larger than the memory that there is; its last read differs."""
    words = [utr.record(utr.READ, expected.LSR, 0x60)] * (LONG - 1) + [utr.record(utr.READ, expected.LSR, 0)]
    data = utr.capture(words)
    assert len(data) > ROOM
    out, errors, status = run(data, limit=ROOM)
    right = not errors and status == 1 and out.startswith("differs %d 0 96\n" % (LONG - 1))
    if not right:
        print("a long capture is not explained in %d bytes" % ROOM)
    return 0 if right else 1, 1


def main():
    wrong = count = 0
    for part in (captures, headers, arguments_and_streams, colours, memory):
        bad, done = part()
        wrong += bad
        count += done
    if count < 600:
        print("only %d cases" % count)
        wrong += 1
    print("explain: %d cases, %d wrong" % (count, wrong))
    return 1 if wrong else 0


if __name__ == "__main__":
    sys.exit(main())
