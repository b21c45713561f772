#!/usr/bin/env python3
"""Drives `calls` through the worked rows of document 01 and compares the numbers.

usage: rows.py PROGRAM
"""

import sys

import ask
import divisors
import states as st
from steps import FCR, IIR, LCR, LSR, MSR, RBR, THR


class Rows:
    """A script with what each answer has to hold."""

    def __init__(self, name):
        self.name = name
        self.lines = []
        self.wants = []  # the row, and wanted values by the index of the answer's number
        self.row = ""

    def add(self, line, wants):
        self.lines.append(line)
        self.wants.append((self.row, wants))

    def call(self, line, index=None, want=None):
        self.add(line, {} if index is None else {index: want})

    def answers(self, line, *numbers):
        """The first numbers of an answer."""
        self.add(line, dict(enumerate(numbers)))

    def holds(self, wants):
        """Numbers of the state, by their places."""
        self.add("state", wants)

    def start(self, row, state=None):
        """A row starts from the fresh state, changed as it says."""
        self.row = row
        self.call("fresh" if state is None else st.load_line(state), 0, 0)

    def write(self, address, byte):
        self.call("write %d %d" % (address, byte), 0, 0)

    def read(self, address, byte):
        self.call("read %d" % address, 1, byte)

    def ticks(self, count):
        self.call("ticks %d" % count, 0, 0)

    def forecast(self, number, value):
        self.call("forecast", 0, number)
        self.call("forecast", 1, value)

    def part(self, part):
        """The bad part of the state, 0 where it is well formed."""
        self.call("part", 0, 1 if part else 0)
        self.call("part", 1, part)

    def picks(self, clock, rate, *answer):
        """The number, the divisor and the error for a clock and a rate."""
        for index, want in enumerate(answer):
            self.call(divisors.line(clock, rate), index, want)

    def sin_bits(self, bits):
        """Each bit for 16 pulses, with D = 1."""
        for bit in bits:
            self.call("sin %d" % bit, 0, 0)
            self.ticks(16)

    def check(self, program):
        answers = ask.answer_lines(program, self.lines)
        if len(answers) != len(self.lines):
            print("%d lines, %d answers" % (len(self.lines), len(answers)))
            return False
        failed = set()
        for line, answer, (row, wants) in zip(self.lines, answers, self.wants):
            numbers = answer.split()
            for index, value in wants.items():
                if len(numbers) <= index or numbers[index] != str(value):
                    print("%s: %s answered %s, number %d should be %s"
                          % (row, line[:60], answer[:60], index + 1, value))
                    failed.add(row)
        rows = {row for row, wants in self.wants if wants}
        print("%s: %d of %d parts as the documents say"
              % (self.name, len(rows) - len(failed), len(rows)))
        return not failed


def clocked(lcr=0x03, divisor=1, k=1):
    s = st.fresh()
    s[st.LCR], s[st.DIVISOR], s[st.K] = lcr, divisor, k
    return s


def fifo16(s, code=0):
    s[st.FIFO_ON], s[st.TRIGGER] = 1, code
    return s


def rows_1_to_4(r):
    r.start("1")
    r.read(LSR, 0x60)
    r.read(IIR, 0x01)
    r.start("2")
    r.write(LCR, 0x80)
    r.write(FCR, 0x21)
    r.read(IIR, 0xE1)
    r.start("3")
    r.write(LCR, 0x00)
    r.write(FCR, 0x21)
    r.read(IIR, 0xC1)
    r.start("4")
    r.write(FCR, 0xC0)
    r.read(IIR, 0x01)


def row_5(r):
    """F, by the forecast of one queued byte (1 + F), by sending it, and by the range of L."""
    for lcr, length in ((0x03, 160), (0x04, 120), (0x07, 176), (0x1F, 192), (0x00, 112)):
        r.start("5, LCR %02X" % lcr, clocked(lcr))
        r.write(THR, 0x41)
        r.forecast(0, 1 + length)
        r.call("run 1000", 1, 1 + length)
        r.read(LSR, 0x60)
        s = clocked(lcr)
        s[st.L], s[st.FORMAT] = length, lcr
        r.start("5, LCR %02X" % lcr, s)
        r.forecast(0, length)
        s[st.L] = length + 1
        r.start("5, LCR %02X" % lcr, s)
        r.forecast(1, 0)


def row_6(r):
    """Byte 41, eight bits: the parity bit, foretold and on SOUT."""
    for lcr, bit in ((0x1B, 0), (0x0B, 1), (0x3B, 0), (0x2B, 1)):
        r.start("6, LCR %02X" % lcr, clocked(lcr))
        r.write(THR, 0x41)
        first = 1 + 16 * 9  # tick after which the parity bit begins
        for t in range(first, first + 16):
            r.call("level %d" % t, 1, bit)
        r.ticks(first - 1)
        for _ in range(16):
            r.call("tick", 2, bit)
        r.call("tick", 2, 1)


def rows_7_to_10(r):
    s = clocked()
    st.set_queue(s, [0x41])
    r.start("7", s)
    r.forecast(0, 161)
    r.call("run 1000", 1, 161)

    s = fifo16(clocked(k=5, divisor=12))
    st.set_queue(s, [0x41, 0x42, 0x43])
    r.start("8", s)
    r.forecast(0, 5765)
    r.call("run 10000", 1, 5765)

    s = clocked(k=12, divisor=12)
    s[st.L], s[st.BYTE], s[st.FORMAT] = 7, 0x41, 0x03
    r.start("9", s)
    r.forecast(0, 84)
    r.call("run 10000", 1, 84)

    s = st.fresh()
    st.set_queue(s, [0x41])
    r.start("10, n 1", s)
    r.forecast(4, 0)
    r.start("10, no work")
    r.forecast(0, 0)


def row_11(r):
    s = fifo16(clocked())
    s[st.MCR] = 0x20
    st.set_queue(s, [0x41])
    r.start("11, n 1", s)
    r.forecast(5, 0)
    st.set_queue(s, [])
    s[st.L], s[st.BYTE], s[st.FORMAT] = 7, 0x41, 0x03
    r.start("11, L 7", s)
    r.forecast(0, 7)


def row_12(r):
    """The last character ends 153 pulses after its start bit came: position 0, then 152 more."""
    r.start("12, FIFO", fifo16(clocked()))
    for i in range(16):
        r.sin_bits(st.frame_bits(0x30 + i, 0x03))
    r.sin_bits(st.frame_bits(0x55, 0x03)[:-1])
    r.call("sin 1", 0, 0)
    r.ticks(8)
    r.read(LSR, 0x61)
    r.ticks(1)
    r.read(LSR, 0x63)
    r.read(LSR, 0x61)
    for i in range(16):
        r.read(RBR, 0x30 + i)
    r.read(LSR, 0x60)
    r.read(RBR, 0)

    r.start("12, character mode", clocked())
    r.sin_bits(st.frame_bits(0x41, 0x03))
    r.sin_bits(st.frame_bits(0x42, 0x03)[:-1])
    r.call("sin 1", 0, 0)
    r.ticks(8)
    r.read(LSR, 0x61)
    r.ticks(1)
    r.read(LSR, 0x63)
    r.read(RBR, 0x42)
    r.read(LSR, 0x60)


def row_13(r):
    for name, s, lsr in (("13", clocked(), 0x79), ("13, FIFO", fifo16(clocked()), 0xF9)):
        r.start(name, s)
        r.call("sin 0", 0, 0)
        r.ticks(1)  # position 0
        r.ticks(151)
        r.read(LSR, 0x60)
        r.ticks(1)
        r.read(LSR, lsr)
        r.read(RBR, 0)
        r.ticks(1000)
        r.read(LSR, 0x60)


def row_14(r):
    r.start("14, low for 8", clocked())
    r.call("sin 0", 0, 0)
    r.ticks(8)
    r.call("sin 1", 0, 0)
    r.ticks(1)
    r.call("state", st.RX_STATE, st.RX_IDLE)
    r.ticks(1000)
    r.read(LSR, 0x60)

    r.start("14, low for 9", clocked())
    r.call("sin 0", 0, 0)
    r.ticks(9)
    r.call("sin 1", 0, 0)
    r.ticks(143)
    r.read(LSR, 0x60)
    r.ticks(1)
    r.read(LSR, 0x61)
    r.read(RBR, 0xFF)


def row_15(r):
    s = fifo16(clocked(), 1)
    s[st.IER] = 0x01
    r.start("15", s)
    r.sin_bits(st.frame_bits(0x41, 0x03)[:-1])
    r.call("sin 1", 0, 0)
    r.ticks(8)
    r.call("state", st.RX_COUNT, 0)
    r.ticks(1)
    r.call("state", st.RX_COUNT, 1)
    r.read(IIR, 0xC1)
    r.ticks(640)
    r.call("pins", 6, 0)
    r.read(IIR, 0xC1)
    r.ticks(1)
    r.call("pins", 6, 1)
    r.read(IIR, 0xCC)


def row_16(r):
    s = st.fresh()
    s[st.MODEM] = 4
    r.start("16, asserted to not", s)
    r.call("modem 0", 0, 0)
    r.read(MSR, 0x04)
    r.start("16, the other way")
    r.call("modem 4", 0, 0)
    r.read(MSR, 0x40)
    r.start("16, address 7")
    r.call("read 7", 0, 0)
    r.call("write 7 1", 0, 0)
    r.start("16, address 8")
    r.call("read 8", 0, 2)
    r.call("write 8 1", 0, 2)


ALL_ROWS = (rows_1_to_4, row_5, row_6, rows_7_to_10, row_11, row_12, row_13, row_14, row_15,
            row_16)


def main():
    if len(sys.argv) != 2:
        sys.exit(__doc__.strip())
    r = Rows("worked rows")
    for rows in ALL_ROWS:
        rows(r)
    sys.exit(0 if r.check(sys.argv[1]) else 1)


if __name__ == "__main__":
    main()
