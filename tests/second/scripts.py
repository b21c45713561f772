#!/usr/bin/env python3
"""Writes scripts for `calls` into a folder, one file for each subject.

usage: scripts.py CALLS FOLDER

The scripts are the same at every run. Each is named NN-subject.in; INDEX lists
them with what they exercise. The answers are made by running `calls` on them; CALLS,
the second program's, is asked here for what is then replayed.
"""

import os
import sys
from itertools import product

import ask
import captures
import divisors
import guesses
import jumps
import parts
import readings
import rows
import states as st
from recorder import utr
from states import (BIGGEST, PLACES, bases, clocked, in_character, keep_errors, with_fifo,
                    with_frame, with_queued, with_received)
from steps import (EIGHT_BITS, EVEN_PARITY, FIVE_BITS, FCR, IER, IIR, LCR, LSR, MCR, MSR, RBR, SCR,
                   THR, Lines)


class Script(Lines):
    """The lines of one script."""

    def __init__(self, calls):
        super().__init__([])
        self.calls = calls
        self.last_newline = True

    def raw(self, *lines):
        self.lines.extend(lines)

    def fresh(self):
        self.raw("fresh")

    def load(self, s):
        self.raw(st.load_line(s))

    def level(self, *times):
        for t in times:
            self.raw("level %d" % t)

    def run(self, *counts):
        for n in counts:
            self.raw("run %d" % n)

    def replay(self, words, version=1):
        """A replay, and the state it leaves."""
        self.raw(" ".join(map(str, ["replay", version, *words])), "state")

    def promise(self, s, words, room):
        """The capture expected from a state, the state it leaves; then its replay from the same state,
        and the state that leaves."""
        start, line = st.load_line(s), guesses.line(words, room)
        _, count, *written = ask.answer_lines(self.calls, [start, line])[1].split()
        self.raw(start, line, "state", start)
        self.replay(written[:int(count)])

    def up_to_stop_sample(self, bits):
        """A character up to one pulse before its stop sample, D = 1; then that pulse."""
        self.bits(bits[:-1])
        self.sin(bits[-1])
        self.ticks(8)
        self.read(LSR)
        self.ticks(1)


# ---- Subjects ----

def worked_rows(q):
    r = rows.Rows("worked rows")
    for part in rows.ALL_ROWS:
        part(r)
    q.raw(*r.lines)


def read_rules(q):
    r = rows.Rows("readings")
    for part in readings.ALL_PARTS:
        part(r)
    q.raw(*r.lines)


def rbr_and_thr(q):
    # RBR empty: 0, nothing changes.
    q.fresh()
    q.read(RBR, LSR)
    q.raw("state")
    # The oldest first; latch and count go to 0 at each read.
    for size64, count in ((0, 16), (1, 64)):
        s = with_received(with_fifo(clocked(), size64), count, ((1, (1, 0, 0)), (3, (0, 1, 1))))
        s[st.TIMEOUT], s[st.IDLE], s[st.IER] = 1, 700, 0x05
        q.load(s)
        for _ in range(count + 1):
            q.read(IIR, LSR, RBR)
        q.raw("state")
    s = with_received(with_fifo(clocked(), 0, 3), 5)
    s[st.TIMEOUT], s[st.IDLE], s[st.IER] = 1, 650, 0x01
    q.load(s)
    q.read(IIR, RBR, IIR)
    q.ticks(640)
    q.read(IIR)
    q.ticks(1)
    q.read(IIR)
    # With LCR7 address 0 is the divisor and nothing is removed.
    s = with_received(with_fifo(clocked(lcr=0x83, d=0x1234)), 2)
    q.load(s)
    q.read(0, 1)
    q.raw("state")
    # Character mode: one byte waiting.
    s = with_received(clocked(), 1)
    s[st.IER] = 0x01
    q.load(s)
    q.read(IIR, RBR, IIR, RBR, LSR)
    # THR: appended, the latch goes to 0.
    q.fresh()
    q.write(IER, 0x02)
    q.read(IIR)
    q.write(IER, 0x00, 0x02)
    q.write(THR, 0x41)
    q.read(IIR, LSR)
    q.raw("state")
    # Full in character mode: the byte is replaced.
    q.write(THR, 0x42)
    q.raw("state")
    q.divisor(1, 0x03)
    q.raw("forecast")
    for t in range(0, 162, 8):
        q.level(t)
    # Full with FIFO on: dropped.
    for fcr, size in ((0x01, 16), (0x21, 64)):
        q.fresh()
        q.divisor(1, 0x80)
        q.write(FCR, fcr)
        q.write(LCR, 0x03)
        for i in range(size + 2):
            q.write(THR, (7 * i + 1) & 255)
            if i >= size - 2:
                q.raw("forecast")
                q.read(LSR)
        q.raw("state")
        q.run(5000, 20000)
        q.read(LSR)
    # With LCR7 nothing is appended.
    q.fresh()
    q.write(LCR, 0x80)
    q.write(THR, 0x41)
    q.write(LCR, 0x00)
    q.read(LSR)
    q.raw("state")


def ier_and_iir(q):
    # Low six bits, read back.
    q.fresh()
    for byte in (0x00, 0x3F, 0xC0, 0xFF, 0x15, 0x2A):
        q.write(IER, byte)
        q.read(IER)
    # Bit 1 going from 0 to 1 with an empty queue sets the latch; other writes don't.
    for left in (0, 9):
        for queued in ((), (0x41,)):
            q.load(with_queued(with_frame(clocked(), left) if left else clocked(), *queued))
            q.write(IER, 0x02)
            q.read(IIR, IIR)
            q.write(IER, 0x02, 0x03)
            q.read(IIR)
            q.write(IER, 0x01)
            q.raw("pins")
            q.write(IER, 0x02)
            q.raw("pins")
            q.write(IER, 0x00)
            q.raw("state")
            q.write(IER, 0x0F)
            q.read(IIR, IIR)
    # Code, C0 with FIFO on, 20 with size 64 too.
    for fifo_on in (0, 1):
        for size64 in (0, 1):
            s = clocked()
            s[st.FIFO_ON], s[st.SIZE64] = fifo_on, size64
            s[st.IER], s[st.TX_LATCH] = 0x0F, 1
            q.load(s)
            q.read(IIR, IIR)
    # The latch goes only where 02 is the code answered.
    for ier in range(16):
        s = with_received(clocked(), 1)
        s[st.IER], s[st.TX_LATCH], s[st.CHANGES] = ier, 1, 2
        q.load(s)
        q.read(IIR)
        q.write(IER, 0x02)
        q.read(IIR)
    # The latch of an emptied queue, taken by IIR or by THR.
    q.fresh()
    q.divisor(1, 0x03)
    q.write(IER, 0x02)
    q.read(IIR)
    q.write(THR, 0x41)
    q.raw("pins")
    q.ticks(1)
    q.read(IIR, IIR)
    q.write(THR, 0x42)
    q.ticks(159)
    q.raw("pins")
    q.ticks(1)
    q.raw("pins")
    q.write(THR, 0x43)
    q.raw("pins")


def fcr(q):
    # Bit 0 clear: other bits ignored.
    for byte in range(0, 256, 14):
        q.fresh()
        q.write(FCR, byte)
        q.read(IIR)
    # Every FCR byte's stored bits, with and without LCR7.
    for lcr in (0x03, 0x83):
        s = with_fifo(clocked(lcr))
        for byte in (0x01, 0x21, 0x09, 0x41, 0x81, 0xC1, 0xE9, 0x61, 0x29, 0x11):
            q.load(s)
            q.write(FCR, byte)
            q.read(IIR)
            q.raw("state")
    # What is cleared: on/off, size, bits 1 and 2; the latch; OE stays.
    for fifo_on, size64 in ((0, 0), (0, 1), (1, 0), (1, 1)):
        for queued in ((), (0x41,)):
            for lcr in (0x03, 0x83):
                s = clocked(lcr)
                s[st.FIFO_ON], s[st.SIZE64] = fifo_on, size64
                s = with_frame(with_queued(with_received(s, 1), *queued), 50)
                in_character(s, 30, 0x03, 1)
                s[st.OE], s[st.IER] = 1, 0x06
                if fifo_on:
                    s[st.IDLE], s[st.TIMEOUT] = 300, 1
                q.load(s)
                for byte in (0x00, 0x06, 0x01, 0x03, 0x05, 0x07, 0x21):
                    q.write(FCR, byte)
                    q.read(IIR, LSR)
                    if byte in (0x00, 0x03, 0x21):
                        q.raw("state")
    for byte in (0x01, 0x03, 0x05, 0x07, 0x00, 0x20, 0x21, 0x23, 0x25, 0x27):
        for lcr in (0x03, 0x83):
            s = with_received(with_fifo(clocked(lcr)), 3, ((1, (1, 0, 0)),))
            with_queued(s, 1, 2, 3)
            s[st.OE], s[st.IDLE], s[st.TIMEOUT] = 1, 641, 1
            q.load(s)
            q.write(FCR, byte)
            q.raw("state")
            q.read(LSR, IIR)


def plain_registers(q):
    q.fresh()
    for a in (LCR, SCR, MCR):
        for byte in (0x00, 0xFF, 0x55, 0xAA, 0x3F, 0x40, 0x80):
            q.write(a, byte)
            q.read(a)
    q.write(LCR, 0x00)
    q.write(MCR, 0x00)
    # Writes to LSR and MSR do nothing.
    s = with_received(with_fifo(clocked()), 2, ((0, (1, 0, 0)), (1, (0, 1, 0))))
    s[st.OE], s[st.CHANGES], s[st.MODEM] = 1, 10, 5
    q.load(s)
    for byte in (0x00, 0xFF, 0x1E, 0x00):
        q.write(LSR, byte)
        q.write(MSR, byte)
    q.raw("state")
    q.read(LSR, MSR)
    q.fresh()
    for byte in (0x00, 0x1E, 0xFF):
        q.write(LSR, byte)
        q.write(MSR, byte)
    q.raw("state")
    q.read(LSR, MSR)
    # The divisor: each byte alone, k = the new D, also where D stays the same.
    q.fresh()
    q.write(LCR, 0x80)
    q.read(0, 1)
    for a, byte in ((0, 3), (1, 2), (0, 0), (1, 0), (0, 255), (1, 255), (0, 1), (1, 0), (0, 5)):
        q.write(a, byte)
        q.read(0, 1)
        q.ticks(1)
        q.raw("state")
    q.write(0, 5)
    q.raw("state")
    q.ticks(3)
    q.write(1, 0)
    q.raw("state")
    q.write(LCR, 0x03)
    q.write(0, 7)  # THR now
    q.read(1)
    q.raw("state")
    # A THR write does not restart k.
    q.load(clocked(d=7, k=4))
    q.write(THR, 0x41, 0x42)
    q.raw("forecast")
    q.ticks(3)
    q.raw("state")
    q.ticks(1)
    q.raw("state")
    # D = 0: nothing changes.
    s = with_received(with_fifo(st.fresh()), 2)
    with_frame(with_queued(s, 1, 2), 40)
    s[st.SIN] = 0
    q.load(s)
    q.ticks(1)
    q.ticks(1000)
    q.raw("state")
    # k between pulses.
    for d, k in ((1, 1), (2, 2), (2, 1), (7, 7), (7, 4), (65535, 3), (65535, 65535)):
        q.load(with_queued(clocked(d=d, k=k), 0x41))
        if k > 1:
            q.ticks(k - 1)
        q.raw("state")
        q.ticks(1)
        q.raw("state")


def lsr(q):
    # Every bit, and what the read clears, in both modes.
    for fifo_on in (0, 1):
        for errors in range(8):
            bits = (errors & 1, errors >> 1 & 1, errors >> 2 & 1)
            for oe in (0, 1):
                s = clocked()
                s[st.FIFO_ON], s[st.OE] = fifo_on, oe
                q.load(with_received(s, 1, ((0, bits),)))
                q.read(LSR, LSR, RBR, LSR)
    # Errors of later entries: LSR7 alone shows them until they are the oldest.
    for place in (0, 1, 2, 15):
        for bits in ((1, 0, 0), (0, 1, 0), (0, 0, 1)):
            s = with_received(with_fifo(clocked()), 16, ((place, bits),))
            s[st.IER] = 0x04
            q.load(s)
            q.read(IIR, LSR, IIR, LSR)
            for _ in range(place):
                q.read(RBR)
            q.read(IIR, LSR, LSR, RBR, LSR)
    s = with_received(with_fifo(clocked(), 1), 64, ((63, (1, 0, 0)),))
    q.load(s)
    q.read(LSR)
    # Bits 5 and 6.
    for queued in ((), (0x41,)):
        for left in (0, 1):
            s = with_queued(clocked(), *queued)
            q.load(with_frame(s, left) if left else s)
            q.read(LSR)
            q.ticks(1)
            q.read(LSR)


def modem(q):
    # All moves of the pins.
    q.fresh()
    for before in range(16):
        for after in range(16):
            q.modem(before)
            q.read(MSR)
            q.modem(after)
            q.read(MSR, MSR)
    # Changes add up until they are read.
    q.fresh()
    q.write(IER, 0x08)
    q.modem(1, 3, 7, 15, 11, 0)
    q.read(IIR, MSR, IIR)
    # RI asserted twice before the read.
    q.modem(4, 0, 4)
    q.read(MSR)


def loopback(q):
    # Effective levels are MCR1, MCR0, MCR2, MCR3; moves between all MCR values.
    for pins in (0, 5, 15):
        q.fresh()
        q.modem(pins)
        q.read(MSR)
        for mcr in range(32):
            q.write(MCR, mcr)
            q.read(MSR)
        for mcr in (0x10, 0x0F, 0x1F, 0x00, 0x14, 0x10, 0x04, 0x10, 0x00, 0x1B, 0x04):
            q.write(MCR, mcr)
            q.read(MSR)
    # Pin changes inside set nothing; leaving loopback counts as a change.
    q.fresh()
    q.write(MCR, 0x10)
    for pins in range(16):
        q.modem(pins)
        q.read(MSR)
    q.write(MCR, 0x00)
    q.read(MSR)
    # Pins: SOUT high, the others not asserted; LCR6 touches SOUT outside alone.
    for lcr in (0x03, 0x43):
        for mcr in (0x00, 0x0F, 0x10, 0x1F, 0x01, 0x02, 0x04, 0x08):
            q.load(with_frame(clocked(lcr), 160))
            q.write(MCR, mcr)
            q.ticks(1)
            q.ticks(16)
            q.raw("pins")
            q.level(0, 100)
            q.read(MCR)
    # The looped receiver does not hear SIN or LCR6, and SIN alone is heard outside.
    s = clocked(0x43)
    s[st.MCR], s[st.SIN] = 0x10, 0
    q.load(s)
    q.ticks(200)
    q.read(LSR)
    q.write(THR, 0x5A)
    q.ticks(152)
    q.read(LSR)
    q.ticks(1)
    q.read(LSR, RBR)
    # Turned on and off in the middle of a character.
    s = with_queued(clocked(), 0x55)
    s[st.MCR] = 0x10
    q.load(s)
    q.ticks(40)
    q.write(MCR, 0x00)
    q.ticks(40)
    q.write(MCR, 0x10)
    q.ticks(100)
    q.read(LSR, RBR)


def interrupts(q):
    def pending(which):
        """Bits of which: line status, data, time-out, transmit-empty, modem."""
        s = with_fifo(clocked(), 0, 1)
        st.set_entries(s, [(0x41, which & 1, 0, 0)] + [(0x42, 0, 0, 0)] * (4 if which & 2 else 1))
        s[st.TIMEOUT] = which >> 2 & 1
        s[st.IDLE] = 641 if which & 4 else 0
        s[st.TX_LATCH] = which >> 3 & 1
        s[st.CHANGES] = which >> 4 & 1 and 10
        s[st.IER] = 0x0F
        return s

    # Every set of pending interrupts, all enabled; each is ended in turn.
    for which in range(32):
        q.load(pending(which))
        q.read(IIR, LSR, IIR, RBR, RBR, IIR, IIR, MSR, IIR)
    # All pending, every set enabled.
    for ier in range(16):
        s = pending(31)
        s[st.IER] = ier
        q.load(s)
        q.raw("pins")
        q.read(IIR)
    # Each alone, enabled alone or not at all.
    for which in (1, 2, 4, 8, 16):
        for ier in (0x01, 0x02, 0x04, 0x08):
            s = pending(which)
            s[st.IER] = ier
            q.load(s)
            q.raw("pins")
            q.read(IIR)
    # Character mode knows no trigger.
    for code in range(4):
        for size64 in (0, 1):
            s = with_received(clocked(), 1)
            s[st.TRIGGER], s[st.SIZE64], s[st.IER] = code, size64, 0x01
            q.load(s)
            q.read(IIR, RBR, IIR)
    # OE alone, without data.
    for fifo_on in (0, 1):
        s = clocked()
        s[st.FIFO_ON], s[st.OE], s[st.IER] = fifo_on, 1, 0x04
        q.load(s)
        q.read(IIR, RBR, IIR, LSR, IIR)
    # INTRPT is gated by nothing.
    s = pending(16)
    q.load(s)
    for mcr in (0x00, 0x08, 0x0F, 0x1F):
        q.write(MCR, mcr)
    q.write(LCR, 0xC3)
    q.raw("pins")


def fifo_sizes(q):
    # Each trigger: one below, at it, above it; the interrupt and its end.
    for size64 in (0, 1):
        for code in range(4):
            s = with_fifo(clocked(), size64, code)
            level = st.trigger(s)
            s[st.IER] = 0x01
            q.load(with_received(s, max(0, level - 2)))
            if level == 1:
                q.read(IIR)
            for byte in (0x00, 0x7E):
                q.up_to_stop_sample(st.frame_bits(byte, 0x03))
                q.read(IIR)
                q.ticks(7)
            for _ in range(3):
                q.read(RBR, IIR)
    # The trigger changed by FCR under waiting data.
    for size64 in (0, 1):
        s = with_received(with_fifo(clocked(), size64, 0), 9)
        s[st.IER] = 0x01
        q.load(s)
        for code in (1, 2, 3, 0):
            q.write(FCR, code << 6 | 1)
            q.read(IIR)
    # Capacity: the last place taken, then one too many.
    for fifo_on, size64 in ((0, 0), (0, 1), (1, 0), (1, 1)):
        s = clocked()
        s[st.FIFO_ON], s[st.SIZE64] = fifo_on, size64
        q.load(with_received(s, st.capacity(s) - 1))
        for byte in (0xFF, 0xF0, 0x0F):
            q.up_to_stop_sample(st.frame_bits(byte, 0x03))
            q.read(LSR, LSR)
            q.ticks(7)
        q.raw("state")
        for _ in range(3):
            q.read(RBR)
    # FIFO off and on again with LCR7 = 0 brings the old size back; FCR 01 with LCR7 ends it.
    q.fresh()
    q.write(LCR, 0x80)
    q.write(FCR, 0x21)
    q.write(LCR, 0x03)
    q.write(FCR, 0x00)
    q.read(IIR)
    q.write(FCR, 0x01)
    q.read(IIR)
    q.write(LCR, 0x80)
    q.write(FCR, 0x01)
    q.read(IIR)


def formats_sent(q):
    """All 64 formats on SOUT, bit by bit, by step answers and by level."""
    for form in range(64):
        byte = (0x41, 0xA6, 0xFF, 0x00, 0x5B)[form % 5]
        q.fresh()
        q.divisor(1, form)
        q.write(THR, byte)
        q.raw("forecast")
        length = st.frame_length(form)
        for bit in range((length + 15) // 16):
            q.level(1 + 16 * bit)
        q.level(length, length + 1)
        q.ticks(1)
        for _ in range(length // 16):
            q.ticks(15)
            q.ticks(1)
        q.run(30)
        q.read(LSR)


def formats_looped(q):
    """All 64 formats through loopback, the byte read at the end."""
    for form in range(64):
        q.fresh()
        q.divisor(1, form)
        q.write(MCR, 0x10)
        q.write(FCR, 0x01)
        q.write(THR, (0x41, 0x9C, 0x00)[form % 3], 0xE5)
        q.ticks(st.stop_position(form))
        q.read(LSR)
        q.ticks(1)
        q.read(LSR, RBR)
        q.run(1000)
        q.read(LSR, RBR, LSR)


def formats_received(q):
    """All 64 formats on SIN; one pulse before and at the stop sample."""
    for form in range(64):
        q.fresh()
        q.divisor(1, form)
        for byte in ((0x41, 0x9C, 0xFF)[form % 3], 0x15):
            q.up_to_stop_sample(st.frame_bits(byte, form))
            q.read(LSR, RBR)
            q.ticks(7)
        # Parity the other way, or the last data bit.
        bits = st.frame_bits(0x33, form)
        bits[-2] ^= 1
        q.up_to_stop_sample(bits)
        q.read(LSR, RBR)


def parity_sent(q):
    """Every character in odd, even and stick parity: the parity bit by level; then through loopback,
    with what the receiver makes of it."""
    for form in st.PARITY_FORMATS:
        q.fresh()
        q.set_up(form, fcr=0x21, mcr=0x10)
        length = st.frame_length(form)
        parity = 1 + 16 * (1 + st.data_bits(form))
        characters = st.characters(form)
        for at in range(0, len(characters), 64):
            some = characters[at:at + 64]
            q.write(THR, *some)
            q.level(*(parity + length * i for i in range(len(some))))
            q.run(64 * length + 1)
            for _ in some:
                q.read(LSR, RBR)


def parity_errors(q):
    for form in st.PARITY_FORMATS:
        for byte in (0x00, 0x01, 0xFF):
            for wrong in (0, 1):
                bits = st.frame_bits(byte, form)
                bits[-2] ^= wrong
                q.fresh()
                q.divisor(1, form)
                q.write(IER, 0x05)
                q.bits(bits)
                q.read(IIR, LSR, IIR, RBR)


def framing_and_break(q):
    for fifo in (0, 1):
        # Stop low: FE, and the low sample is a start bit at P = 8.
        for form in (0x00, 0x03, 0x07, 0x1A, 0x2B):
            bits = st.frame_bits(0x15, form)
            bits[-1] = 0
            q.fresh()
            q.divisor(1, form)
            q.write(FCR, fifo)
            q.up_to_stop_sample(bits)
            q.raw("state")
            q.read(LSR)
            q.ticks(7)
            q.bits(st.frame_bits(0x0A, form)[1:])
            q.read(LSR, RBR, LSR, RBR, LSR)
        # FE over and over: every character's stop is low, no break.
        q.fresh()
        q.divisor(1, 0x03)
        q.write(FCR, fifo)
        for byte in (0x01, 0x80, 0xFF):
            bits = st.frame_bits(byte, 0x03)
            bits[-1] = 0
            q.bits(bits)
            q.read(LSR, RBR)
        # Format taken anew after FE.
        q.fresh()
        q.divisor(1, 0x03)
        q.write(FCR, fifo)
        bits = st.frame_bits(0xFF, 0x03)
        q.bits(bits[:-1])
        q.write(LCR, 0x08)
        q.sin(0)
        q.ticks(9)
        q.raw("state")
        q.sin(1)
        q.ticks(111)
        q.read(LSR)
        q.ticks(1)
        q.read(LSR, RBR, LSR, RBR)
        # Break in every width and parity: byte 0, BI and FE, PE by its rule; then mark.
        for form in (0x00, 0x01, 0x02, 0x03, 0x08, 0x0B, 0x1B, 0x2B, 0x3B, 0x0F, 0x3F):
            q.fresh()
            q.divisor(1, form)
            q.write(FCR, fifo)
            q.write(IER, 0x04)
            q.sin(0)
            q.ticks(st.stop_position(form))
            q.read(LSR)
            q.ticks(1)
            q.read(IIR, LSR, IIR, RBR)
            q.ticks(500)
            q.read(LSR)
            q.sin(1)
            q.ticks(1)
            q.character(0x0A, form)
            q.read(LSR, RBR)
        # Zero data with a good parity bit of 1 and stop low: FE, no break.
        q.fresh()
        q.divisor(1, 0x0B)
        q.write(FCR, fifo)
        q.bits([0] * 9 + [1, 0])
        q.read(LSR, RBR)
        # Zero data, parity 0, stop high: no break.
        q.fresh()
        q.divisor(1, 0x1B)
        q.write(FCR, fifo)
        q.bits([0] * 10 + [1])
        q.read(LSR, RBR)
        # The pulse that ends a break only makes the receiver idle.
        q.fresh()
        q.divisor(1, 0x03)
        q.write(FCR, fifo)
        q.sin(0)
        q.ticks(153)
        q.sin(1)
        q.ticks(1)
        q.sin(0)
        q.ticks(1)
        q.raw("state")


def false_starts(q):
    for form in (0x03, 0x00, 0x1B):
        for low in range(1, 12):
            q.fresh()
            q.divisor(1, form)
            q.sin(0)
            q.ticks(low)
            q.sin(1)
            q.ticks(1)
            q.ticks(st.stop_position(form) - low - 1)
            q.read(LSR)
            q.ticks(1)
            q.read(LSR, RBR)
    # Low again right after a false start.
    q.load(clocked())
    q.sin(0)
    q.ticks(8)
    q.sin(1)
    q.ticks(1)
    q.sin(0)
    q.ticks(1)
    q.raw("state")
    # Glitches between samples are not seen.
    q.load(clocked())
    for bit in st.frame_bits(0x5A, 0x03):
        q.sin(bit ^ 1 if bit else 0)
        q.ticks(7)
        q.sin(bit)
        q.ticks(3)
        q.sin(bit ^ 1)
        q.ticks(5)
        q.sin(bit)
        q.ticks(1)
    q.read(LSR, RBR)
    # Samples at every place of one character.
    for place in range(0, 152):
        if place % 16 in (6, 7, 8):
            s = in_character(clocked(), place, 0x03)
            s[st.SIN] = 1
            q.load(s)
            q.ticks(1)
            q.ticks(1)
            q.read(LSR, RBR)


def overruns(q):
    # Character mode: the new character replaces the old, its errors are added to those kept.
    for old in ((0, 0, 0), (1, 1, 1)):
        for bits in (st.frame_bits(0x42, 0x1B), [0] * 11, st.frame_bits(0x42, 0x1B)[:-1] + [0]):
            s = with_received(clocked(0x1B), 1, ((0, old),))
            s[st.IER] = 0x05
            q.load(s)
            q.up_to_stop_sample(bits)
            q.raw("state")
            q.read(IIR, LSR, LSR, RBR, LSR)
    # FIFO: lost, OE; the queue and the idle count are left alone.
    for size64 in (0, 1):
        for bits in (st.frame_bits(0x42, 0x03), [0] * 10, st.frame_bits(0x42, 0x03)[:-1] + [0]):
            s = with_fifo(clocked(), size64, 3)
            with_received(s, st.capacity(s), ((0, (1, 0, 0)),))
            s[st.IDLE] = 100
            s[st.IER] = 0x04
            q.load(s)
            q.up_to_stop_sample(bits)
            q.raw("state")
            q.read(IIR, LSR, LSR, RBR)
    # OE survives FCR and RBR reads, not an LSR read or a reset.
    for call in ("write 2 3", "write 2 0", "write 2 7", "read 0", "read 2", "read 6", "reset"):
        s = with_received(with_fifo(clocked()), 16)
        s[st.OE] = 1
        q.load(s)
        q.raw(call)
        q.read(LSR, LSR)


def timeouts(q):
    # Just before and at the pulse, for each length of frame; D 1 and 3.
    for form in (0x00, 0x04, 0x01, 0x03, 0x07, 0x0B, 0x1F):
        limit = 4 * st.frame_length(form)
        for d in (1, 3):
            s = with_fifo(clocked(form, d), 0, 1)
            s[st.IER] = 0x01
            q.load(s)
            q.bits(st.frame_bits(0x0A, form)[:-1], d)
            q.sin(1)
            q.ticks(9 * d)
            q.read(IIR)
            q.ticks(limit * d)
            q.read(IIR)
            q.ticks(d)
            q.read(IIR, IIR)
            q.raw("state")
            q.read(RBR, IIR)
    # The count goes on to 769 and stays.
    for idle in (0, 447, 448, 449, 639, 640, 641, 767, 768, 769):
        s = with_received(with_fifo(clocked(0x00 if idle % 2 else 0x03)), 1)
        s[st.IDLE], s[st.IER] = idle, 0x00
        q.load(s)
        q.ticks(1)
        q.read(IIR)
        q.raw("state")
    # LCR written between: 4F by the present LCR.
    s = with_received(with_fifo(clocked(0x1F)), 1)
    s[st.IDLE] = 500
    q.load(s)
    q.write(LCR, 0x00)
    q.raw("state")
    q.ticks(1)
    q.raw("state")
    # A reception does not stop the count; a new character restarts it and keeps the latch.
    s = with_received(with_fifo(clocked(), 0, 3), 2)
    s[st.IDLE], s[st.IER] = 600, 0x01
    q.load(s)
    q.bits(st.frame_bits(0x0F, 0x03)[:-1])
    q.read(IIR)
    q.sin(1)
    q.ticks(8)
    q.raw("state")
    q.ticks(1)
    q.raw("state")
    q.read(IIR, RBR, IIR)
    # The latch ends with an RBR read, a receive clear, FIFO off, another size, a reset.
    for lcr, call in ((0x03, "read 0"), (0x03, "write 2 3"), (0x03, "write 2 0"),
                      (0x83, "write 2 33"), (0x03, "reset"), (0x03, "write 2 5"),
                      (0x03, "read 5"), (0x03, "read 2"), (0x03, "write 1 0")):
        s = with_received(with_fifo(clocked(lcr), 0, 1), 2)
        s[st.IDLE], s[st.TIMEOUT], s[st.IER] = 641, 1, 0x01
        q.load(s)
        q.raw(call)
        q.raw("state")
    # Set with IER0 = 0, seen when it is raised; data outranks it.
    s = with_received(with_fifo(clocked(), 0, 1), 3)
    s[st.IDLE] = 640
    q.load(s)
    q.ticks(1)
    q.read(IIR)
    q.write(IER, 0x01)
    q.read(IIR)
    q.write(FCR, 0x01)
    q.read(IIR)
    # Character mode has none.
    s = with_received(clocked(), 1)
    s[st.IER] = 0x01
    q.load(s)
    q.ticks(2000)
    q.raw("state")


def autoflow_rts(q):
    # Each trigger: hold at it, kept below it, ended at 0.
    for size64 in (0, 1):
        for code in range(4):
            s = with_fifo(clocked(), size64, code)
            s[st.MCR] = 0x22
            level = st.trigger(s)
            q.load(with_received(s, level - 1))
            q.raw("pins")
            q.up_to_stop_sample(st.frame_bits(0xF0, 0x03))
            q.raw("pins")
            for _ in range(min(level, 5)):
                q.read(RBR)
            q.write(FCR, code << 6 | 3)
            q.raw("pins")
    # Down to empty by reads.
    s = with_fifo(clocked(), 0, 1)
    s[st.MCR] = 0x22
    q.load(with_received(s, 4))
    for _ in range(5):
        q.raw("pins")
        q.read(RBR)
    # Each thing auto-RTS needs, taken away and given back.
    for mcr in (0x20, 0x02, 0x22, 0x32, 0x22, 0x00):
        s = with_fifo(clocked(), 0, 1)
        s[st.MCR] = 0x22
        q.load(with_received(s, 5))
        q.write(MCR, mcr)
        q.raw("state")
        q.write(MCR, 0x22)
        q.raw("pins")
    # Between 0 and the trigger: hold as it was; turned off and on again: 0.
    for hold in (0, 1):
        s = with_received(with_fifo(clocked(), 0, 2), 5)
        s[st.MCR], s[st.HOLD] = 0x22, hold
        q.load(s)
        q.raw("pins")
        q.ticks(20)
        q.write(FCR, 0xC1, 0x41, 0xC1)
        q.write(MCR, 0x23)
        q.write(MCR, 0x20)
        q.write(MCR, 0x22)
        q.raw("state")
    # FIFO off ends it, and so does another size.
    for lcr, byte in ((0x03, 0x00), (0x83, 0x21), (0x03, 0x03)):
        s = with_fifo(clocked(lcr), 0, 1)
        s[st.MCR] = 0x22
        q.load(with_received(s, 6))
        q.write(FCR, byte)
        q.raw("state")
    # A lost character leaves the hold.
    s = with_fifo(clocked())
    s[st.MCR] = 0x22
    q.load(with_received(s, 16))
    q.character(0x41, 0x03)
    q.raw("pins")


def autoflow_cts(q):
    # Held: no load; the frame being sent goes on; freed at the next pulse.
    for d in (1, 4):
        s = with_fifo(clocked(d=d))
        s[st.MCR] = 0x20
        q.load(with_queued(s, 0x41, 0x42))
        q.raw("forecast")
        q.level(0, 1, BIGGEST)
        q.run(500)
        q.raw("state")
        q.modem(1)
        q.raw("forecast")
        q.ticks(d - 1)
        q.raw("pins")
        q.ticks(1)
        q.raw("pins")
        q.modem(0)
        q.raw("forecast")
        q.ticks(160 * d - 1)
        q.raw("pins")
        q.ticks(1)
        q.raw("state")
        q.modem(1)
        q.run(1000)
    # Looked at only in the pulse of loading.
    for t in (158, 159, 160, 161):
        s = with_fifo(clocked())
        s[st.MCR], s[st.MODEM] = 0x20, 1
        q.load(with_queued(s, 0x41, 0x42))
        q.ticks(t)
        q.modem(0)
        q.ticks(3)
        q.raw("state")
    # In loopback CTS is MCR1, not the pin and not RTS after its hold.
    for mcr in (0x30, 0x32):
        for pins in (0, 1):
            s = with_fifo(clocked())
            s[st.MCR], s[st.MODEM] = mcr, pins
            q.load(with_queued(with_received(s, 2), 0x41))
            q.raw("forecast")
            q.ticks(1)
            q.raw("state")
    # MCR5 alone in character mode is not autoflow.
    s = clocked()
    s[st.MCR] = 0x22
    q.load(with_queued(s, 0x41))
    q.raw("forecast")
    q.modem(1)
    q.read(MSR)
    q.ticks(2)
    q.raw("pins")
    # The CTS change bit: lost under autoflow, cleared by turning it on, set by leaving it.
    for mcr in (0x20, 0x22, 0x02):
        s = with_fifo(clocked())
        s[st.MCR], s[st.IER] = mcr, 0x08
        q.load(s)
        q.modem(1)
        q.read(MSR)
        q.modem(15, 1, 0)
        q.read(IIR, MSR)
    s = with_fifo(clocked())
    s[st.CHANGES], s[st.IER] = 15, 0x08
    q.load(s)
    q.write(MCR, 0x20)
    q.read(MSR)
    s = clocked()
    s[st.CHANGES], s[st.MCR] = 1, 0x20
    q.load(s)
    q.write(FCR, 0x01)
    q.raw("state")
    for mcr in (0x00, 0x10, 0x12, 0x02, 0x32):
        for pins in (0, 1):
            s = with_fifo(clocked())
            s[st.MCR], s[st.MODEM] = 0x30, pins
            q.load(s)
            q.write(MCR, mcr)
            q.read(MSR)


def clears_in_the_middle(q):
    # Sending: the shift register goes on whatever FCR does.
    for byte in (0x05, 0x07, 0x00, 0x21):
        for t in (1, 16, 80, 159, 160):
            s = with_fifo(clocked(0x83))
            q.load(with_queued(s, 0x5A, 0xFF))
            q.ticks(t)
            q.write(FCR, byte)
            q.raw("forecast")
            q.level(0, 16, 32, 64, 100, 160)
            q.read(LSR)
            q.run(1000)
            q.read(LSR)
    # Receiving: the character goes on and enters the queue as it is at its end.
    for byte in (0x03, 0x07, 0x00, 0x21):
        for bit in (1, 4, 9):
            s = with_received(with_fifo(clocked(0x83)), 3)
            s[st.IDLE] = 200
            q.load(s)
            bits = st.frame_bits(0xA5, 0x03)
            q.bits(bits[:bit])
            q.write(FCR, byte)
            q.read(LSR)
            q.bits(bits[bit:])
            q.write(LCR, 0x03)
            q.raw("state")
            q.read(LSR, RBR, LSR)
    # From character mode into FIFO and back, in the middle of both.
    s = with_queued(with_received(clocked(), 1), 0x0F)
    s[st.MCR] = 0x10
    q.load(s)
    for byte in (0x01, 0x00, 0x01):
        q.ticks(40)
        q.write(FCR, byte)
        q.raw("state")
    q.ticks(40)
    q.read(LSR, RBR)
    # LCR written in the middle: the frame and the character keep their format.
    for lcr in (0x00, 0x1F, 0x43):
        s = with_fifo(clocked())
        s[st.MCR] = 0x10
        q.load(with_queued(s, 0xC3, 0x3C))
        q.ticks(20)
        q.write(LCR, lcr)
        q.raw("forecast")
        q.ticks(133)
        q.read(LSR, RBR)
        q.run(1000)
        q.read(LSR, RBR)
    for lcr in (0x0B, 0x1B, 0x2B, 0x3B, 0x03, 0x00):
        for wrong in (0, 1):
            bits = st.frame_bits(0x43, 0x1B)
            bits[-2] ^= wrong
            q.load(clocked(0x1B))
            q.bits(bits[:5])
            q.write(LCR, lcr)
            q.bits(bits[5:])
            q.read(LSR, RBR)


def damaged_ranges(base):
    def subject(q):
        """Each range broken alone; all calls refuse, the state stays."""
        calls = ("read 5", "write 0 1", "sin 1", "modem 0", "tick", "ticks 5", "reset",
                 "forecast", "level 0", "run 3", "read 9", "sin 2")
        q.load(bases()[base])
        q.raw("pins")
        for i, edge in enumerate(st.EDGES):
            s = edge.damage(bases()[base])
            if s is None:
                continue
            q.load(s)
            q.raw("pins", calls[i % len(calls)], calls[(i * 5 + base) % len(calls)])
            if i % 6 == base:
                q.raw("state")
    return subject


def too_wide(q):
    """Numbers beyond 8 and 16 bits, the low bits in range: refused in each place."""
    calls = ("read 5", "tick", "forecast", "pins", "reset", "write 7 1")
    s0 = with_received(with_fifo(clocked()), 2)
    with_frame(with_queued(s0, 1), 5)
    for i, place in enumerate(st.SINGLES + st.QUEUE_ENDS):
        for j, more in enumerate((256, 65536, BIGGEST)):
            s = list(s0)
            if j == 0 and place in st.WORDS or j == 2 and i % 4:
                continue
            q.load(st.beyond_width(s, place, more))
            q.raw(calls[(i + j) % len(calls)])
    q.raw("state")
    q.raw("load " + " ".join(["4294967295"] * st.PLACES))
    q.raw("state", "pins", "reset", "state", "fresh", "pins")


def well_formed_edges(q):
    """The last numbers inside each range are taken."""
    s = clocked(0xFF, 65535, 65535)
    s[st.IER], s[st.MCR], s[st.SCR], s[st.MODEM] = 63, 31, 255, 15
    s[st.SIZE64], s[st.DMA], s[st.TRIGGER] = 1, 1, 3
    q.load(s)
    q.raw("pins")
    q.ticks(1)
    for form in list(range(16)) + [0x1F, 0x2A, 0x3F]:
        s = with_frame(clocked(), st.frame_length(form), 255, form)
        q.load(s)
        q.raw("forecast")
    for form in (0x00, 0x03, 0x0A, 0x1B, 0x07):
        in_character(s, st.stop_position(form) - 1, form, (1 << st.data_bits(form)) - 1,
                     st.parity_bits(form))
        q.load(s)
        q.ticks(1)
    for i in range(8):
        q.load(in_character(clocked(), 24 + 16 * i, 0x03, 1 << i))
        q.raw("pins")
    for entry in ((0, 0, 0, 1), (0xFF, 0, 1, 1), (0, 1, 1, 1)):
        for timeout, idle in ((1, 0), (0, 769), (1, 769)):
            s = with_fifo(clocked(0x00))
            st.set_entries(s, [entry])
            s[st.TIMEOUT], s[st.IDLE] = timeout, idle
            q.load(s)
            q.ticks(1)


def refused_numbers(q):
    # 2: addresses above 7; 3: levels too high; the state stays.
    s = with_frame(with_received(with_fifo(clocked()), 3), 44)
    q.load(s)
    for a in (8, 9, 15, 16, 64, 128, 254, 255):
        q.read(a)
        q.write(a, 0)
        q.write(a, 255)
    for level in (2, 3, 4, 128, 255):
        q.sin(level)
    for pins in (16, 17, 32, 128, 255):
        q.modem(pins)
    q.raw("state")
    for a in range(8):
        q.read(a)
    # 4 and 5 and neither, for forecast and level; run answers 0 and gives real ticks.
    for d in (0, 2):
        for mcr, pins in ((0x00, 0), (0x20, 0), (0x20, 1), (0x30, 1), (0x32, 0)):
            for left in (0, 7):
                for queued in ((), (0x41,)):
                    for fifo in (0, 1):
                        if not fifo and mcr not in (0x00, 0x20):
                            continue
                        s = clocked(d=d)
                        s[st.FIFO_ON], s[st.MCR], s[st.MODEM] = fifo, mcr, pins
                        with_queued(s, *queued)
                        q.load(with_frame(s, left) if left else s)
                        q.raw("forecast")
                        q.level(0, 3, BIGGEST)
                        q.run(0, 9)
                        q.raw("forecast")
    # 1 before 2, 3, 4, 5.
    s = with_queued(with_fifo(st.fresh()), 0x41)
    s[st.MCR], s[st.SIN] = 0x20, 2
    q.load(s)
    q.raw("read 8", "write 8 0", "sin 2", "modem 16", "forecast", "level 0", "run 5", "pins",
          "state", "sin 1", "reset", "state")


# The length of the longest `load` line.
LOAD = len("load" + " 4294967295" * PLACES)

BAD_LINES = (
    "", " ", "  ", "tick ", " tick", "tick  ", "tick 1", "tick\t", "\ttick", "tick\r", "\r",
    "Tick", "TICK", "tic", "ticktick", "tick tick", "ticks", "ticks ", "ticks 0", "ticks 00",
    "ticks 01", "ticks  1", "ticks 1 ", "ticks 1 1", "ticks -1", "ticks +1", "ticks 1.0",
    "ticks 1e3", "ticks 0x10", "ticks one", "ticks 4294967296", "ticks 4294967297",
    "ticks 18446744073709551616", "ticks 18446744073709551617",
    "ticks 340282366920938463463374607431768211457", "ticks 9999999999",
    "read", "read ", "read 256", "read 300", "read 4294967295", "read 4294967296", "read 00",
    "read 07", "read  5", "read 5 ", "read 5 5", "read -5", "read five", "read5", "read,5",
    "Read 5", "read\t5", "read 5\r", "read 5\t",
    "write", "write 1", "write 1 ", "write 1 2 3", "write 1 256", "write 256 1", "write 01 1",
    "write 1 01", "write  1 1", "write 1  1", "write 1 1 ", "write 1,1", "write 1 -1",
    "sin", "sin ", "sin 256", "sin 00", "sin 1 1", "sin high", "sin01", "sin -1",
    "modem", "modem 256", "modem 016", "modem 1 1", "modem x",
    "pins 0", "pins ", "forecast 0", "forecast ", "state 0", "state ", "reset 1", "reset ",
    "fresh 0", "fresh ", "fres", "freshh",
    "level", "level ", "level 4294967296", "level 00", "level 01", "level 1 1", "level -0",
    "level " + "1" * 40, "level " + "0" * 40, "run", "run ", "run 4294967296", "run 00",
    "run 01", "run 1 1", "run " + "9" * 40,
    "load", "load ", "load 0", "load" + " 0" * (PLACES - 1), "load" + " 0" * (PLACES + 1), "load" + " 0" * PLACES + " ",
    "load " + " 0" * PLACES, "load" + " 0" * (PLACES - 1) + " 4294967296", "load" + " 0" * (PLACES - 1) + " 00",
    "load" + " 0" * (PLACES - 1) + " x", "load" + " 0" * 100 + "  0" + " 0" * (PLACES - 101), "load 0,0",
    "LOAD" + " 0" * PLACES, "load" + "\t0" * PLACES,
    "replay", "replay ", "replay 65536", "replay 01", "replay 1 ", "replay 1  0", "replay 1 00",
    "replay 1 4294967296", "replay 1 x", "replay 1 -1", "replay -1", "Replay 1", "replay 1\t0",
    "divisor", "divisor ", "divisor 1", "divisor 1 ", "divisor 1 2 3", "divisor 1 2 ", "divisor  1 2",
    "divisor 1  2", "divisor 01 2", "divisor 1 02", "divisor 00 1", "divisor -1 2", "divisor 1 -2",
    "divisor +1 2", "divisor 4294967296 1", "divisor 1 4294967296", "divisor 18446744073709551617 1",
    "divisor 1.0 2", "divisor 1,2", "divisor x 2", "divisor 1 x", "divisor 1\t2", "divisor 1 2\r",
    " divisor 1 2", "Divisor 1 2", "divisors 1 2", "divisor1 2", "diviso 1 2",
    "expect", "expect ", "expect 1", "expect 1 ", "expect 1 0 ", "expect  1 0", "expect 1  0", "expect 1 0  0",
    "expect 65536 0", "expect 1 1025", "expect 1 65536", "expect 1 4294967295", "expect 1 4294967296",
    "expect 4294967297 0", "expect 1 0 4294967296", "expect 01 0", "expect 1 00", "expect 1 01", "expect 1 0 00",
    "expect 1 1 00", "expect -1 0", "expect 1 -1", "expect 1 -0", "expect 1 +1", "expect 1 0 -1", "expect 1 1.0",
    "expect 1,0", "expect x 0", "expect 1 x", "expect 1 0 x", "expect 1\t0", "expect 1 0\t0", "expect 1 0\r",
    "expect 1 0\t", " expect 1 0", "Expect 1 0", "expects 1 0", "expect1 0", "expec 1 0",
    *(name + rest for name in ("jump", "jumprun")
      for rest in ("", " ", " x", " 00", " 01", " 1 ", " 1 2", "  1", " -1", " +1", " 1.0", " 4294967296",
                   " 18446744073709551617", " 1\r", "\t1", "1", "s 1")),
    " jump 1", "Jump 1", "jum 1", "jump run 1", " jumprun 1", "JumpRun 1", "jumpRun 1", "jumpru 1", "run jump 1",
    "help", "quit", "exit", "?", "#", "# fresh", ";", "tick;tick", "read 5;", "'tick'", "0", "1 2",
    "x" * (LOAD - 1), "x" * LOAD, "x" * (LOAD + 1), "x" * 9000, "tick" + " " * 5000, "level " + "0" * 5000,
    " " * 4000, "load" + " 4294967295" * (PLACES + 1), "load" + " 0" * st.KEPT,
)


def bad_lines(q):
    """Lines of wrong form: each changes nothing."""
    q.fresh()
    q.divisor(3, 0x03)
    q.write(THR, 0x41)
    q.ticks(1)
    for i, line in enumerate(BAD_LINES):
        q.raw(line)
        if i % 10 == 9:
            q.raw("state" if i % 50 == 49 else "forecast")
    q.raw("state")
    # The right forms beside them.
    q.raw("tick", "ticks 1", "read 5", "write 7 255", "sin 1", "sin 0", "modem 15", "pins",
          "forecast", "level 0", "level 4294967295", "run 0", "run 4294967295", "reset", "fresh",
          "divisor 3072000 7200", "divisor 0 0", "divisor 4294967295 4294967295",
          "expect 1 0", "expect 0 0", "expect 65535 1", "expect 1 3 0 65535", "expect 1 1 4294967295",
          "jump 0", "jump 1", "jump 4294967295", "jumprun 0", "jumprun 1", "jumprun 4294967295",
          "load" + " 0" * PLACES, "load" + " 4294967295" * PLACES, "pins", "state")


def bad_bytes(q):
    """Bytes that are no text, inside and around words."""
    for byte in (0, 1, 8, 9, 11, 12, 13, 27, 127, 128, 160, 194, 255):
        c = chr(byte)
        q.raw(c, c + "tick", "tick" + c, "ti" + c + "ck", "read" + c + "5", "read 5" + c,
              "read " + c + "5", c * 50)
    q.raw("tick\0\0\0\0", "\0" * 4000, "ticks 1\0", "load" + " 0" * (PLACES - 1) + " \0", "pins", "state")


def long_line(q):
    """A line longer than a block of input between two calls; the last line has no newline."""
    q.raw("tick", "read 5" + " " * 66000, "read 5", "x" * 5000, "tick")
    q.last_newline = False


def resets(q):
    pick = st.picker(7502)

    for i in range(45):
        s = st.random_state(pick)
        q.load(s)
        q.raw("reset")
        q.raw("state")
        q.read(LSR, IIR, MSR)
        if s[st.DIVISOR]:
            q.ticks(1 + pick(2 * min(s[st.DIVISOR], 50)))
        q.raw("pins")
    # Loopback ended by reset leaves no changes; SIN low starts a character at the next pulse.
    for mcr in (0x1F, 0x10, 0x3F):
        for pins in (0, 15):
            s = clocked()
            s[st.MCR], s[st.MODEM], s[st.SIN] = mcr, pins, 0
            q.load(s)
            q.raw("reset")
            q.read(MSR)
            q.ticks(1)
            q.raw("state")


def foretelling(q):
    cases = []
    for d, k in ((1, 1), (2, 1), (2, 2), (12, 5), (65535, 65535), (65535, 1)):
        for left, form in ((0, 0), (1, 0x03), (7, 0x1F), (16, 0x00), (24, 0x04), (112, 0x00),
                           (192, 0x3F)):
            for queued in ((), (0x41,), (0xFF, 0x00, 0xA5)):
                cases.append((d, k, left, form, queued))
    for i, (d, k, left, form, queued) in enumerate(cases):
        if i % 2 and d != 1:
            continue
        s = with_fifo(clocked((0x03, 0x04, 0x1B, 0x2E, 0x00)[i % 5], d, k))
        with_queued(s, *queued)
        if left:
            with_frame(s, left, 0x6C, form)
        q.load(s)
        q.raw("forecast")
        t = st.forecast(s)
        times = {0, k - 1, k, k + d - 1, k + d, t - 1, t, t + 1, t + d, BIGGEST,
                 k + left * d, k + left * d - 1}
        q.level(*sorted(x for x in times if 0 <= x <= BIGGEST))
        if t < 20000:
            q.run(*sorted(n for n in {0, 1, t - 1} if n >= 0))
            q.raw("forecast", "pins")
            q.run(3, 3)
        else:
            q.run(2)
        q.raw("forecast")
        q.read(LSR)
    # Character mode; nothing to send; D = 0.
    q.load(with_queued(clocked(), 0x41))
    q.raw("forecast")
    q.run(BIGGEST)
    q.raw("forecast")
    q.run(BIGGEST)
    q.fresh()
    q.raw("forecast")
    q.level(0, 1, BIGGEST)
    q.run(0, 1, BIGGEST)
    # The largest forecast.
    s = with_fifo(clocked(0x3F, 65535, 65535), 1)
    with_frame(with_queued(s, *range(64)), 192, 0x55, 0x3F)
    q.load(s)
    q.raw("forecast")
    t = st.forecast(s)
    q.level(0, 65534, 65535, t - 65536, t - 1, t, t + 1, BIGGEST)
    # A long queue, level in each of its frames.
    s = with_fifo(clocked(0x03, 1), 1)
    with_queued(s, *((37 * i) & 255 for i in range(64)))
    q.load(s)
    for i in range(64):
        q.level(2 + 160 * i, 17 + 160 * i + 16 * (i % 9))
    q.run(5000)
    q.raw("forecast")
    q.run(BIGGEST)
    # Loopback and LCR6 change nothing about the transmitter's line.
    for lcr, mcr in ((0x43, 0x00), (0x03, 0x10), (0x43, 0x10)):
        s = with_frame(with_queued(clocked(lcr), 0x41), 100, 0x33, 0x03)
        s[st.MCR] = mcr
        q.load(s)
        for t in range(0, 262, 12):
            q.level(t)
        for _ in range(6):
            q.ticks(25)
            q.level(0)


def driver(q):
    """A driver at work: register accesses, line bits and ticks from a seed."""
    pick = st.picker(16750)

    for _ in range(30):
        d = (1, 1, 2, 3)[pick(4)]
        lcr = st.random_lcr(pick) & 0x3F
        frame = st.frame_length(lcr)
        q.fresh()
        q.modem(pick(16))
        q.divisor(d, 0x80 | lcr)
        q.write(FCR, (0x01, 0x21, 0x41, 0xA1, 0xC7, 0x00)[pick(6)])
        q.write(LCR, lcr)
        q.write(IER, pick(16))
        q.write(MCR, (0x00, 0x0B, 0x10, 0x22, 0x32, 0x2B)[pick(6)])
        for _ in range(34):
            chance = pick(20)
            if chance < 4:
                q.write(THR, *(st.random_byte(pick) for _ in range(1 + pick(3))))
            elif chance < 8:
                bits = st.frame_bits(st.random_byte(pick), lcr)
                kind = pick(8)
                if kind == 0:
                    bits[-1] = 0
                elif kind == 1:
                    bits[-2] ^= 1
                elif kind == 2:
                    bits = [0] * (len(bits) + 1) + [1]
                q.bits(bits, d)
            elif chance < 11:
                q.read(IIR, LSR, RBR)
            elif chance < 13:
                q.ticks(d * (1 + pick(frame)))
            elif chance < 14:
                q.ticks(d * (4 * frame + pick(4) - 1))
                q.read(IIR)
            elif chance < 15:
                q.modem(pick(16))
                q.read(MSR)
            elif chance < 16:
                q.write(FCR, (0x01, 0x03, 0x05, 0x07, 0x81, 0x00)[pick(6)])
            elif chance < 17:
                q.write(MCR, (0x00, 0x0B, 0x10, 0x22, 0x32, 0x20)[pick(6)])
            elif chance < 18:
                q.raw("forecast")
                q.run(pick(600))
            elif chance < 19:
                q.write(IER, pick(64))
            else:
                q.write(LCR, lcr ^ 0x40)
                q.write(LCR, lcr)
                q.write(SCR, pick(256))
                q.read(pick(8))
        q.raw("state")


LSR_60 = utr.record(utr.READ, LSR, 0x60)
LSR_00 = utr.record(utr.READ, LSR, 0x00)


def replays(q):
    """Every outcome, the state it leaves, the order of the refusals, long lines."""
    steps = [utr.record(utr.WRITE, SCR, 0x5A), utr.record(utr.SIN, 0), utr.record(utr.MODEM, 9),
             utr.record(utr.READ, MSR, 0x99), utr.record(utr.READ, SCR, 0x5A)]
    q.replay([])
    q.replay(steps + [LSR_60, LSR_60])
    q.replay([utr.record(utr.RESET), utr.record(utr.READ, MSR, 0x90), LSR_60])
    # The differing read is not done: OE and the oldest entry's errors stay, RBR keeps its byte.
    s = with_received(with_fifo(clocked(d=3)), 2, ((0, (1, 0, 0)), (1, (0, 1, 1))))
    s[st.OE], s[st.TX_LATCH], s[st.IER], s[st.CHANGES] = 1, 1, 2, 10
    for address, byte in ((LSR, 0xE7), (RBR, 0x30), (IIR, 0xC2), (MSR, 0x0A)):
        for flip in (0, 1, 0x80):
            q.load(s)
            q.replay([utr.record(utr.READ, address, byte ^ flip), 0xFFFFFFFF])
    # Ticks: none, one, many; the state before a bad record or a difference is the one after them.
    for count in (0, 1, 3, 65535):
        for last in ([], [0x60000000], [LSR_60]):
            q.load(with_queued(with_fifo(clocked(d=3)), 0x41, 0x42))
            q.replay([utr.record(utr.TICKS, count)] + last)
    # Bad records, reached and not.
    for _, bad in captures.bad_records():
        q.fresh()
        q.replay([bad])
        q.replay(steps[:3] + [bad, LSR_00])
        q.replay([LSR_00, bad])
    # 1 before 7 before 8; nothing moves.
    s = clocked()
    for sin in (2, 1):
        s[st.SIN] = sin
        for version in (0, 2, 3, 256, 257, 65535, 1):
            q.load(s)
            q.replay([0x60000000, LSR_00], version)
            q.replay([], version)
            q.replay(steps, version)
    # The longest lines.
    q.fresh()
    q.replay([LSR_60] * 1024)
    q.replay([LSR_60] * 1023 + [LSR_00])
    q.replay([LSR_60] * 1024 + [0])
    q.replay([0] * 1025, 2)


def bad_parts(q):
    """The part of states at the edges of their ranges and beyond, and of well-formed ones."""
    q.raw("part")
    for call in ("write 3 131", "write 0 1", "write 2 193", "write 4 34", "write 0 65", "ticks 170",
                 "sin 0", "ticks 200", "modem 15", "read 2", "read 8", "reset", "fresh"):
        q.raw(call, "part")
    calls = ("pins", "tick", "read 5", "forecast", "write 4 0", "level 0", "reset", "run 2",
             "sin 1", "replay 1", "modem 0", "ticks 3", "read 8")
    for i, (s, _) in enumerate(parts.cases()):
        q.load(s)
        q.raw("part", calls[i % len(calls)])
        if i % 3 == 0:
            q.raw("part")
    for line in ("part 1", "part 0", "part ", " part", "part\t", "Part", "parts", "par"):
        q.raw(line, "part")
    q.raw("fresh", "part")


ODD_PARITY = 0x0B

# Format, data and parity samples, stop sample of a character with each set of errors it can have.
ARRIVALS = (
    (EVEN_PARITY, 0x41, 0, 1),  # none
    (EVEN_PARITY, 0x41, 1, 1),  # PE
    (EVEN_PARITY, 0x41, 0, 0),  # FE
    (EVEN_PARITY, 0x41, 1, 0),  # PE, FE
    (EVEN_PARITY, 0x00, 0, 0),  # FE, BI
    (ODD_PARITY, 0x00, 0, 0),  # PE, FE, BI
)
ALL_FLAGS = tuple(product((0, 1), repeat=3))


def character_mode(flags=(0, 0, 0), lcr=EVEN_PARITY, ier=0x05, count=0):
    """Character mode with these errors kept."""
    s = keep_errors(with_received(clocked(lcr), count), *flags)
    s[st.IER] = ier
    return s


def kept_complaint(q):
    """A driver that reads RBR before LSR: parity, framing error, break; then the other order."""
    for lcr, bits in ((EVEN_PARITY, st.with_flipped_parity(0x41, EVEN_PARITY)),
                      (EIGHT_BITS, st.with_low_stop(0x41, EIGHT_BITS)), (EIGHT_BITS, [0] * 10)):
        for first, then in ((RBR, LSR), (LSR, RBR)):
            for ier in (0x00, 0x04, 0x05):
                q.fresh()
                q.divisor(1, lcr)
                q.write(IER, ier)
                q.up_to_stop_sample(bits)
                q.raw("state")
                q.read(IIR, first, IIR, then, IIR, LSR, RBR)
                q.raw("state")


def kept_arrivals(q):
    """Each character's errors on each set of kept ones, the queue empty or not."""
    for i, flags in enumerate(ALL_FLAGS):
        for j, (form, data, parity, stop) in enumerate(ARRIVALS):
            s = character_mode(flags, form, count=(i + j) % 2)
            in_character(s, st.stop_position(form) - 1, form, data, parity)
            s[st.SIN] = stop
            q.load(s)
            q.ticks(1)
            q.raw("state")
            q.read(IIR, RBR, IIR, LSR, IIR, LSR)


def kept_sequences(q):
    """Characters on SIN one after the other, with reads of RBR or LSR between them or none."""
    good = st.frame_bits(0x2A, EVEN_PARITY)
    wrong = st.with_flipped_parity(0x41, EVEN_PARITY)
    framing = st.with_low_stop(0x41, EVEN_PARITY) + [1] * 11
    brk = [0] * 11 + [1]
    for line in ((wrong, good), (framing, good), (brk, good), (good, wrong), (wrong, framing),
                 (framing, wrong), (wrong, brk), (brk, wrong), (wrong, good, brk, good)):
        for between in ((), (RBR,), (LSR,), (RBR, LSR), (LSR, RBR)):
            q.load(character_mode())
            for bits in line:
                q.bits(bits)
                q.read(*between)
            q.raw("pins", "state")
            q.read(IIR, RBR, IIR, LSR, IIR, LSR)


def kept_looped(q):
    """The same in loopback: the character begins on SIN and hears a frame of another format."""
    for form, sent, byte in ((EVEN_PARITY, ODD_PARITY, 0x41), (0x02, EIGHT_BITS, 0x41),
                             (FIVE_BITS, EIGHT_BITS, 0x00), (0x08, EIGHT_BITS, 0x00),
                             (EIGHT_BITS, EIGHT_BITS, 0x5A)):
        for flags in ((0, 0, 0), (1, 0, 0)):
            q.load(character_mode(flags, form))
            q.sin(0)
            q.ticks(1)
            q.sin(1)
            q.write(LCR, sent)
            q.write(MCR, 0x10)
            q.write(THR, byte)
            q.ticks(st.stop_position(form) - 1)
            q.raw("state")
            q.ticks(1)
            q.raw("state")
            q.read(IIR, RBR, IIR, LSR, LSR)
            q.run(200)
            q.read(RBR, LSR)


def kept_clears(q):
    """Which calls clear kept errors, and OE beside them."""
    calls = ["read %d" % address for address in range(8)] + ["reset", "tick", "ticks 200", "run 9",
             "sin 0", "modem 15", "pins", "forecast", "write 0 65", "write 1 4", "write 3 0",
             "write 3 131", "write 4 16", "write 5 0", "write 5 28", "write 7 0", "read 8",
             "write 2 256"]
    calls += ["write 2 %d" % byte for byte in (0x00, 0x02, 0x06, 0xC8, 0xFE, 0x01, 0x03, 0x07, 0xE9)]
    for i, call in enumerate(calls):
        for lcr in (EIGHT_BITS, 0x80 | EIGHT_BITS):
            s = character_mode((1, 1, 1) if i % 2 else ((1, 0, 0), (0, 1, 0), (0, 0, 1))[i % 3], lcr,
                               count=i % 2)
            s[st.OE] = 1
            q.load(s)
            q.raw(call, "part", "state")
            q.read(IIR, LSR, IIR, LSR)


def kept_fifo(q):
    """FIFO on and off: its rule stays, a change clears, a character under way ends in the new mode."""
    for flags in ALL_FLAGS[1:]:
        s = with_received(with_fifo(clocked()), 2, ((0, flags), (1, flags)))
        s[st.IER] = 0x04
        q.load(s)
        q.read(RBR, IIR, LSR, IIR, RBR, LSR)
        q.load(s)
        q.write(FCR, 0x00)
        q.raw("state")
        q.read(IIR, LSR)
        q.write(FCR, 0x00, 0x01)
        q.raw("state")
        q.load(character_mode(flags))
        q.write(FCR, 0x01, 0x00)
        q.raw("state")
        q.read(IIR, LSR)
    for form, data, parity, stop in ARRIVALS:
        for fifo_on in (0, 1):
            s = character_mode(lcr=form)
            s[st.FIFO_ON], s[st.SIN] = fifo_on, stop
            in_character(s, st.stop_position(form) - 1, form, data, parity)
            q.load(s)
            q.write(FCR, fifo_on ^ 1)
            q.ticks(1)
            q.raw("part", "state")
            q.read(IIR, RBR, IIR, LSR, IIR)
            q.write(FCR, fifo_on)
            q.read(LSR)


def kept_interrupts(q):
    """06 with nothing queued or data: enabled, not, later; LSR ends it, IIR and RBR don't."""
    for flags in ALL_FLAGS:
        for count in (0, 1):
            for ier in (0x00, 0x01, 0x04, 0x0F):
                s = character_mode(flags, ier=ier, count=count)
                s[st.TX_LATCH], s[st.CHANGES] = 1, 2
                q.load(s)
                q.raw("pins")
                q.read(IIR, RBR, IIR)
                q.write(IER, 0x04)
                q.read(IIR, LSR, IIR)


def kept_replays(q):
    """A differing read of LSR leaves the kept errors, an agreed one clears them, RBR's does not."""
    for flags, lsr in (((1, 0, 0), 0x65), ((0, 1, 1), 0x79)):
        for flip in (0, 0x04, 0x80):
            q.load(character_mode(flags, count=1))
            q.replay([utr.record(utr.READ, LSR, lsr ^ flip), utr.record(utr.READ, LSR, 0x61)])
            q.load(character_mode(flags, count=1))
            q.replay([utr.record(utr.READ, RBR, 0x30), utr.record(utr.WRITE, FCR, 0x06),
                      utr.record(utr.READ, LSR, lsr ^ flip ^ 1), LSR_60])


def kept_errors(q):
    for subject in (kept_complaint, kept_arrivals, kept_sequences, kept_looped, kept_clears,
                    kept_fifo, kept_interrupts, kept_replays):
        subject(q)


def divisor_pairs(q):
    """The chart, the ends of both ranges, ties, and other pairs at which a wrong rule shows."""
    for pairs in (divisors.chart, divisors.ends, divisors.ties, divisors.quotients,
                  divisors.nearest_rates, divisors.errors):
        q.raw(*(divisors.line(*pair) for pair in pairs()))
    q.raw(*divisors.draw_lines(st.picker(16752), 400))


def divisor_states(q):
    """From states that are well formed and states that are not: the answer, and the state it leaves."""
    fifo = with_frame(with_queued(with_received(with_fifo(clocked(d=26)), 3), 0x41, 0x42), 44)
    damaged = [list(fifo) for _ in range(4)]
    for s, place, number in zip(damaged, (st.IER, st.DIVISOR, st.SIN, st.OE), (64, 65536, 2, BIGGEST)):
        s[place] = number
    for s in (st.fresh(), fifo, *bases(), *damaged, [BIGGEST] * PLACES):
        q.load(s)
        q.raw("forecast", "pins")
        for clock, rate in ((3072000, 7200), (24000, 1000), (16000000, 1), (1, 1000000), (0, 7200),
                            (3072000, 0), (16000001, 7200), (3072000, 1000001)):
            q.raw(divisors.line(clock, rate), "part")
        q.raw("forecast", "pins", "state")
    # Between the steps of a driver: nothing of it is written anywhere.
    q.fresh()
    q.divisor(26, EIGHT_BITS)
    q.write(THR, 0x41)
    for clock, rate in divisors.chart():
        q.raw(divisors.line(clock, rate), "tick", "forecast")
    q.write(LCR, 0x80)
    q.read(0, 1)
    q.raw("state")


def divisors_for_rates(q):
    divisor_pairs(q)
    divisor_states(q)


def expected_captures(q):
    """Every rule of the writer; what it writes, replayed."""
    for case in guesses.cases():
        q.promise(*case)
    q.raw(*guesses.refusals())
    q.raw(*guesses.long_lines())


def jumps_to_pulses(q):
    """Every rule of the engine that jumps from pulse to pulse, and of the run over it."""
    q.raw(*jumps.script())


def random_states(seed, count):
    def subject(q):
        """Random states near boundaries, one step, the state it leaves."""
        pick = st.picker(seed)

        for _ in range(count):
            s = st.random_state(pick)
            q.load(s)
            chance = pick(8)
            if chance < 4:
                q.ticks(max(1, min(s[st.K], 3)))
            elif chance < 5:
                q.read(pick(8))
            elif chance < 7:
                q.write(pick(8), st.random_byte(pick))
            else:
                q.modem(pick(16))
            q.raw("state")
            q.read((IIR, LSR, MSR, RBR)[pick(4)])
            q.raw("forecast")
            q.level(pick(1000))
    return subject


SUBJECTS = (
    ("rows", "the worked rows", worked_rows),
    ("readings", "the rules where the documents leave room", read_rules),
    ("rbr-thr", "RBR and THR", rbr_and_thr),
    ("ier-iir", "IER and IIR, the transmit-empty latch", ier_and_iir),
    ("fcr", "FCR: on, off, size, trigger, clears", fcr),
    ("registers", "LCR, SCR, MCR, the divisor, writes to LSR and MSR, D = 0", plain_registers),
    ("lsr", "LSR in both modes", lsr),
    ("modem", "MSR, all moves of the modem pins", modem),
    ("loopback", "loopback: levels, changes, pins, the looped line", loopback),
    ("interrupts", "every interrupt and its priority", interrupts),
    ("fifo", "both sizes, all triggers, capacities", fifo_sizes),
    ("formats-sent", "all 64 formats on SOUT", formats_sent),
    ("formats-looped", "all 64 formats through loopback", formats_looped),
    ("formats-received", "all 64 formats on SIN", formats_received),
    ("parity-sent", "the parity bit of every character", parity_sent),
    ("parity", "parity errors", parity_errors),
    ("framing-break", "framing errors and breaks", framing_and_break),
    ("false-starts", "false starts and the places of samples", false_starts),
    ("overruns", "overruns in both modes", overruns),
    ("timeouts", "the idle count and the time-out latch", timeouts),
    ("autoflow-rts", "autoflow: the RTS hold", autoflow_rts),
    ("autoflow-cts", "autoflow: the held transmitter and the CTS change", autoflow_cts),
    ("clears", "FCR and LCR writes in the middle of characters", clears_in_the_middle),
    ("ranges-plain", "each range broken, from character mode", damaged_ranges(0)),
    ("ranges-flow", "each range broken, from autoflow", damaged_ranges(1)),
    ("ranges-empty", "each range broken, from empty queues", damaged_ranges(2)),
    ("ranges-half", "each range broken, from size 64", damaged_ranges(3)),
    ("wide", "numbers beyond 8 and 16 bits", too_wide),
    ("edges", "the last numbers inside the ranges", well_formed_edges),
    ("refusals", "numbers 2 to 5, the lowest first", refused_numbers),
    ("bad-lines", "lines of wrong form", bad_lines),
    ("bad-bytes", "bytes that are no text", bad_bytes),
    ("long-line", "an overlong line, a last line without newline", long_line),
    ("reset", "reset from many states", resets),
    ("foretell", "forecast, level and run at their boundaries", foretelling),
    ("driver", "a driver at work, from a seed", driver),
    ("states", "random states and one step", random_states(750, 80)),
    ("replay", "replay: outcomes, states, refusals, long lines", replays),
    ("part", "which part of a state is bad", bad_parts),
    ("kept-errors", "errors kept apart in character mode", kept_errors),
    ("divisor", "the divisor for a rate, and its error", divisors_for_rates),
    ("expect", "the capture expected: records, rooms, refusals, its replay", expected_captures),
    ("jump", "jumps from pulse to pulse, runs over them", jumps_to_pulses),
)


def main():
    if len(sys.argv) != 3:
        sys.exit(__doc__.strip())
    _, calls, folder = sys.argv
    os.makedirs(folder, exist_ok=True)
    index = []
    for number, (name, about, subject) in enumerate(SUBJECTS, 1):
        q = Script(calls)
        subject(q)
        file = "%02d-%s.in" % (number, name)
        text = "\n".join(q.lines) + ("\n" if q.last_newline else "")
        with open(os.path.join(folder, file), "wb") as out:
            out.write(text.encode("latin-1"))
        index.append("%s: %s" % (file, about))
    with open(os.path.join(folder, "INDEX"), "w") as out:
        out.write("\n".join(index) + "\n")


if __name__ == "__main__":
    main()
