#!/usr/bin/env python3
"""Drives `calls` through the rules where document 01, or request b, c, e or g of document 02, leaves
room, as they are read here.

Each part names the rule: a section of document 01, or what was decided beside it.

usage: readings.py PROGRAM
"""

import sys

import states as st
from divisors import MOST_CLOCK, MOST_DIVISOR, MOST_RATE, line, tie
from rows import Rows, clocked, fifo16
from steps import EVEN_PARITY, FCR, IER, IIR, LCR, LSR, MCR, MSR, RBR, THR


def fifo(s, size64=0, code=0):
    s[st.FIFO_ON], s[st.SIZE64], s[st.TRIGGER] = 1, size64, code
    return s


def received(s, count, errors=(0, 0, 0)):
    st.set_entries(s, [(0x30 + i % 64,) + errors for i in range(count)])
    return st.settle(s)


def state_1_to_7(r):
    r.start("FIFO off keeps size, DMA bit and trigger")
    r.write(LCR, 0x80)
    r.write(FCR, 0xE9)
    r.write(LCR, 0x00)
    r.write(FCR, 0x00)
    r.call("state", st.SIZE64, 1)
    r.call("state", st.DMA, 1)
    r.call("state", st.TRIGGER, 3)
    r.read(IIR, 0x01)
    r.write(FCR, 0x01)
    r.read(IIR, 0xE1)
    r.call("state", st.TRIGGER, 0)
    r.call("reset", 0, 0)
    r.write(FCR, 0x01)
    r.read(IIR, 0xC1)

    part = "well formed: BI without FE, BI with a byte, time-out with count 0, count without latch"
    for entry, timeout, idle in (((0, 0, 0, 1), 0, 0), ((0xFF, 0, 1, 1), 0, 0),
                                 ((0x41, 0, 0, 0), 1, 0), ((0x41, 0, 0, 0), 0, 769)):
        s = fifo(clocked(lcr=0x00))
        st.set_entries(s, [entry])
        s[st.TIMEOUT], s[st.IDLE] = timeout, idle
        r.start(part, s)
        r.call("pins", 0, 0)

    for form in (0x00, 0x0A):
        width = st.data_bits(form)
        for i in range(width + st.parity_bits(form)):
            for place, number in ((23 + 16 * i, 1), (24 + 16 * i, 0)):
                s = clocked()
                s[st.RX_STATE], s[st.P], s[st.RX_FORMAT] = st.RX_CHARACTER, place, form
                if i < width:
                    s[st.RX_DATA] = 1 << i
                else:
                    s[st.RX_PARITY] = 1
                r.start("samples taken up to P", s)
                r.call("pins", 0, number)

    r.start("frame byte kept whole, 0 after its last pulse", clocked(lcr=0x00))
    r.write(THR, 0xFF)
    r.ticks(112)
    r.call("state", st.BYTE, 255)
    r.call("state", st.L, 1)
    r.ticks(1)
    r.call("state", st.BYTE, 0)
    r.call("state", st.L, 0)

    s = clocked()
    s[st.MCR], s[st.SIN] = 0x1F, 0
    r.start("reset ends loopback without changes, and starts on a level", s)
    r.call("state", st.TX_LATCH, 0)
    r.call("reset", 0, 0)
    r.read(MSR, 0x00)
    r.call("state", st.TX_LATCH, 0)
    r.call("state", st.RX_STATE, st.RX_IDLE)
    r.ticks(1)
    r.call("state", st.RX_STATE, st.RX_CHARACTER)


def ends_of_steps(r):
    s = fifo(clocked())
    s[st.MCR] = 0x20
    r.start("CTS change under autoflow is lost", s)
    r.call("modem 1", 0, 0)
    r.write(MCR, 0x00)
    r.read(MSR, 0x10)

    r.start("turning autoflow on clears a CTS change", fifo(clocked()))
    r.call("modem 1", 0, 0)
    r.call("state", st.CHANGES, 1)
    r.write(MCR, 0x20)
    r.call("state", st.CHANGES, 0)

    r.start("turning FIFO and so autoflow on clears a CTS change", clocked())
    r.write(MCR, 0x20)
    r.call("modem 1", 0, 0)
    r.call("state", st.CHANGES, 1)
    r.write(FCR, 0x01)
    r.read(MSR, 0x10)

    s = fifo(clocked())
    s[st.MCR] = 0x30
    s[st.MODEM] = 1
    r.start("turning autoflow off with a move of CTS records it", s)
    r.write(MCR, 0x00)
    r.read(MSR, 0x11)

    r.start("auto-RTS turned on between: no hold", received(fifo(clocked(), 0, 2), 5))
    r.write(MCR, 0x22)
    r.call("pins", 2, 1)
    r.call("state", st.HOLD, 0)
    r.write(FCR, 0x41)  # trigger 4
    r.call("pins", 2, 0)
    r.write(FCR, 0xC1)  # trigger 14
    r.call("pins", 2, 0)
    for i in range(4):
        r.read(RBR, 0x30 + i)
    r.call("pins", 2, 0)
    r.read(RBR, 0x34)
    r.call("pins", 2, 1)

    s = fifo(clocked())
    s[st.MCR] = 0x32
    received(s, 2)
    st.set_queue(s, [0x41])
    r.start("looped CTS is MCR1 without the hold", s)
    r.call("state", st.HOLD, 1)
    r.forecast(0, 161)
    r.read(MSR, 0x10)
    r.ticks(1)
    r.call("state", st.L, 160)

    s = fifo(clocked())
    s[st.MCR], s[st.L], s[st.BYTE], s[st.FORMAT] = 0x20, 2, 0x41, 0x03
    st.set_queue(s, [0x42])
    r.start("held is looked at when a byte would be loaded", s)
    r.ticks(1)
    r.call("state", st.L, 1)
    r.ticks(1)
    r.call("state", st.L, 0)
    r.ticks(100)
    r.call("state", st.TX_COUNT, 1)
    r.call("modem 1", 0, 0)
    r.ticks(1)
    r.call("state", st.L, 160)
    r.call("modem 0", 0, 0)
    r.call("run 1000", 1, 160)


def numbers(r):
    s = fifo(clocked())
    s[st.MCR], s[st.L], s[st.FORMAT] = 0x20, 5, 0x03
    st.set_queue(s, [0x41])
    r.start("5 also while L > 0, for every t", s)
    r.forecast(5, 0)
    r.call("level 0", 0, 5)
    r.call("level 4294967295", 0, 5)
    r.call("run 9", 0, 0)
    r.call("state", st.L, 0)
    s[st.DIVISOR] = s[st.K] = 0
    r.start("4 before 5", s)
    r.forecast(4, 0)
    r.call("level 0", 0, 4)
    r.call("run 9", 1, 9)
    r.call("read 8", 0, 2)
    r.call("sin 2", 0, 3)
    r.call("modem 16", 0, 3)
    r.start("run with nothing to send", clocked())
    r.call("run 100", 1, 0)


def registers_14_to_20(r):
    s = received(fifo(clocked()), 3)
    s[st.TIMEOUT], s[st.IDLE] = 1, 700
    r.start("RBR read", s)
    r.write(LCR, 0x83)
    r.read(RBR, 1)  # divisor
    r.call("state", st.RX_COUNT, 3)
    r.write(LCR, 0x03)
    r.read(RBR, 0x30)
    r.call("state", st.IDLE, 0)
    r.call("state", st.TIMEOUT, 0)
    r.call("state", st.RX_COUNT, 2)

    s = clocked()
    s[st.L], s[st.FORMAT] = 9, 0x03
    r.start("IER bit 1 raised", s)
    r.write(IER, 0x02)
    r.call("pins", 6, 1)
    r.write(IER, 0x00)
    r.call("state", st.TX_LATCH, 1)
    r.write(IER, 0x02)
    r.read(IIR, 0x02)
    r.write(IER, 0x03)
    r.read(IIR, 0x01)

    s = received(clocked(), 1)
    s[st.IER], s[st.TX_LATCH] = 0x03, 1
    r.start("IIR read clears the latch only where it answers 02", s)
    r.read(IIR, 0x04)
    r.call("state", st.TX_LATCH, 1)
    r.read(RBR, 0x30)
    r.read(IIR, 0x02)
    r.read(IIR, 0x01)

    s = received(clocked(), 1)
    st.set_queue(s, [0x41])
    r.start("FIFO off when off changes nothing", s)
    r.write(FCR, 0xFE)
    r.call("state", st.RX_COUNT, 1)
    r.call("state", st.TX_COUNT, 1)
    r.call("state", st.TRIGGER, 0)

    s = received(fifo(clocked(lcr=0x83), 1), 2)
    st.set_queue(s, [0x41])
    s[st.OE] = 1
    r.start("FCR: the same size clears nothing, another clears both", s)
    r.write(FCR, 0x21)
    r.call("state", st.RX_COUNT, 2)
    r.call("state", st.TX_COUNT, 1)
    r.write(FCR, 0x01)
    r.call("state", st.RX_COUNT, 0)
    r.call("state", st.TX_LATCH, 1)
    r.call("state", st.OE, 1)
    r.read(IIR, 0xC1)

    s = fifo(clocked())
    r.start("clearing an empty transmit queue leaves the latch", s)
    r.write(FCR, 0x07)
    r.write(FCR, 0x00)
    r.call("state", st.TX_LATCH, 0)

    s = fifo(clocked())
    st.set_entries(s, [(1, 1, 0, 0), (2, 0, 1, 0), (3, 0, 0, 0)])
    r.start("LSR7 before the clearing; later entries keep their errors", s)
    r.read(LSR, 0xE5)
    r.read(LSR, 0xE1)
    r.read(RBR, 1)
    r.read(LSR, 0xE9)
    r.read(LSR, 0x61)

    s = clocked()
    s[st.MCR] = 0x10
    r.start("pin changes inside loopback set nothing, MCR writes do", s)
    r.call("modem 15", 0, 0)
    r.read(MSR, 0x00)
    r.write(MCR, 0x1F)
    r.read(MSR, 0xFB)
    r.write(MCR, 0x10)
    r.read(MSR, 0x0F)
    r.write(MCR, 0x00)
    r.read(MSR, 0xFB)

    r.start("a divisor write sets k", clocked(lcr=0x83, divisor=12, k=5))
    r.write(0, 12)
    r.call("state", st.K, 12)
    r.ticks(3)
    r.write(1, 0)
    r.call("state", st.K, 12)
    r.write(1, 1)
    r.call("state", st.K, 268)


def pulses_21_to_25(r):
    s = fifo(clocked())
    st.set_queue(s, [0x41, 0x42])
    r.start("no gap between frames", s)
    r.ticks(160)
    r.call("state", st.L, 1)
    r.ticks(1)
    r.call("state", st.L, 160)
    s[st.MCR] = 0x10
    r.start("the looped receiver hears the pulse of loading", s)
    r.ticks(1)
    r.call("state", st.RX_STATE, st.RX_CHARACTER)
    r.call("state", st.P, 0)
    r.ticks(152)
    r.read(LSR, 0x01)
    r.read(RBR, 0x41)

    s = received(fifo(clocked()), 16)
    s[st.IDLE] = 500
    r.start("a lost character does not restart the idle count", s)
    r.sin_bits(st.frame_bits(0x41, 0x03)[:-1])
    r.call("sin 1", 0, 0)
    r.ticks(9)
    r.call("state", st.OE, 1)
    r.call("state", st.IDLE, 653)
    r.call("state", st.TIMEOUT, 1)

    s = received(fifo(clocked()), 2)
    s[st.IDLE] = 600
    r.start("a new character keeps the time-out latch", s)
    r.sin_bits(st.frame_bits(0x41, 0x03)[:-1])
    r.call("state", st.TIMEOUT, 1)
    r.call("sin 1", 0, 0)
    r.ticks(9)
    r.call("state", st.RX_COUNT, 3)
    r.call("state", st.IDLE, 0)
    r.call("state", st.TIMEOUT, 1)

    s = received(fifo(clocked()), 1)
    s[st.IDLE] = 500
    r.start("4F by the present LCR, in each pulse", s)
    r.ticks(1)
    r.call("state", st.TIMEOUT, 0)
    r.write(LCR, 0x00)
    r.call("state", st.TIMEOUT, 0)
    r.ticks(1)
    r.call("state", st.TIMEOUT, 1)
    r.ticks(1000)
    r.call("state", st.IDLE, 769)

    r.start("the low stop sample is a start bit at P = 8", clocked())
    r.sin_bits([0, 1, 1, 1, 1, 1, 1, 1, 1])
    r.call("sin 0", 0, 0)
    r.write(LCR, 0x00)
    r.ticks(9)
    r.call("state", st.P, 8)
    r.call("state", st.RX_FORMAT, 0)
    r.read(LSR, 0x69)
    r.call("sin 1", 0, 0)
    r.ticks(96)
    r.read(LSR, 0x63)
    r.read(RBR, 0x1F)

    r.start("the pulse that ends a break only makes the receiver idle", clocked())
    r.call("sin 0", 0, 0)
    r.ticks(400)
    r.call("state", st.RX_STATE, st.RX_MARK)
    r.call("sin 1", 0, 0)
    r.ticks(1)
    r.call("state", st.RX_STATE, st.RX_IDLE)
    r.call("sin 0", 0, 0)
    r.ticks(1)
    r.call("state", st.RX_STATE, st.RX_CHARACTER)

    for lcr, lsr in ((0x0B, 0x7D), (0x1B, 0x79), (0x2B, 0x7D), (0x3B, 0x79)):
        r.start("PE of a break", clocked(lcr))
        r.call("sin 0", 0, 0)
        r.ticks(168)
        r.read(LSR, 0x60)
        r.ticks(1)
        r.read(LSR, lsr)
        r.read(RBR, 0)

    r.start("in character mode the byte is replaced", received(clocked(), 1))
    r.sin_bits(st.frame_bits(0x41, 0x03))
    r.read(LSR, 0x63)
    r.read(RBR, 0x41)


def narrow_places(r):
    s = fifo16(clocked())
    s[st.L], s[st.BYTE], s[st.FORMAT] = 100, 0x41, 0x03
    st.set_queue(s, [0x42])
    r.start("clearing the transmit FIFO leaves the shift register", s)
    r.write(FCR, 0x05)
    r.call("state", st.L, 100)
    r.forecast(0, 100)
    r.read(LSR, 0x20)
    r.call("run 1000", 1, 100)
    r.read(LSR, 0x60)

    s = clocked()
    s[st.IER] = 0x0F
    s[st.CHANGES] = 2
    r.start("INTRPT is gated by nothing", s)
    for mcr in (0x00, 0x08, 0x10):
        r.write(MCR, mcr)
        r.call("pins", 6, 1)

    s = clocked(0x43)
    s[st.L], s[st.BYTE], s[st.FORMAT] = 16, 0, 0x03
    r.start("LCR6 lowers SOUT outside loopback only", s)
    r.call("pins", 1, 0)
    r.call("level 0", 1, 1)
    r.write(MCR, 0x10)
    r.call("pins", 1, 1)
    r.ticks(20)
    r.call("state", st.RX_STATE, st.RX_IDLE)


def part_beside_a_number(r):
    rule = "a part beside number 1 alone; the lines of the calls stay as they are"
    s = clocked()
    s[st.SIN] = 2
    r.start(rule, s)
    for call in ("read 5", "write 7 1", "sin 1", "modem 0", "tick", "reset", "pins", "forecast",
                 "level 0", "run 1"):
        r.call(call, 0, 1)
        r.call(call, 1, 0)
        r.part(2)
    r.start(rule, clocked())
    for call, number in (("read 5", 0), ("read 8", 2), ("sin 2", 3), ("modem 16", 3)):
        r.call(call, 0, number)
        r.part(0)


def places_of_parts(r):
    for part, places in ((1, (st.IER, st.K)), (2, (st.FIFO_ON, st.SIN)),
                         (3, (st.TX_COUNT, st.FORMAT)), (4, (st.RX_COUNT, st.RX_PARITY)),
                         (5, (st.TX_LATCH, st.HOLD))):
        for place in places:
            s = clocked()
            s[place] = 70000
            r.start("the first and the last place of each part", s)
            r.part(part)
    s = clocked()
    s[st.OE] = 2
    r.start("OE is of part 5", s)
    r.part(5)


def joined_parts(r):
    rule = "a range that joins two parts counts for the later one"
    queued = fifo(clocked())
    st.set_queue(queued, [1, 2, 3, 4, 5])
    for part, s in ((3, queued), (4, received(fifo(clocked()), 5))):
        s[st.FIFO_ON] = 0
        r.start(rule, s)
        r.part(part)
    for place in (st.TX_LATCH, st.TIMEOUT, st.IDLE, st.CHANGES, st.HOLD):
        s = fifo(clocked())
        s[st.MCR] = 0x22
        st.set_queue(s, [1])
        s[place] = 1
        r.start(rule, s)
        r.part(5)


def wide_numbers(r):
    s = clocked()
    for place, number, part in ((st.TX, 256, 3), (st.TRIGGER, 4, 2), (st.OE, 65536, 2)):
        s[place] = number
        r.start("a number too wide breaks its own place's range; a lower part still stands", s)
        r.part(part)


def kept(s, pe=0, fe=0, bi=0):
    """Character mode with these errors kept, interrupt 06 enabled."""
    s[st.IER] = 0x04
    return st.keep_errors(s, pe, fe, bi)


def kept_flags(r, *errors):
    for i, flag in enumerate(errors):
        r.call("state", st.KEPT + i, flag)


def kept_until_lsr(r):
    r.start("an error in character mode stays when RBR is read, and goes with LSR",
            kept(clocked(EVEN_PARITY)))
    r.sin_bits(st.with_flipped_parity(0x41, EVEN_PARITY))
    r.call("state", st.RX + 1, 0)
    kept_flags(r, 1, 0, 0)
    r.read(RBR, 0x41)
    r.read(IIR, 0x06)
    r.read(LSR, 0x64)
    r.read(IIR, 0x01)
    r.read(LSR, 0x60)

    r.start("with FIFO on an error goes with its entry", fifo(clocked(EVEN_PARITY)))
    r.sin_bits(st.with_flipped_parity(0x41, EVEN_PARITY))
    kept_flags(r, 0, 0, 0)
    r.read(RBR, 0x41)
    r.read(LSR, 0x60)

    r.start("reset clears the kept errors", kept(clocked(), 1, 1, 1))
    r.call("reset", 0, 0)
    r.read(LSR, 0x60)


def kept_by_each(r):
    for errors, lsr in (((1, 0, 0), 0x65), ((0, 1, 0), 0x69), ((0, 0, 1), 0x71)):
        r.start("a good character clears no kept error", kept(clocked(EVEN_PARITY), *errors))
        r.sin_bits(st.frame_bits(0x41, EVEN_PARITY))
        r.read(LSR, lsr)

    s = kept(received(clocked(EVEN_PARITY), 1), 1, 0, 0)
    r.start("a character that replaces another adds its errors to those that stand", s)
    r.sin_bits(st.with_low_stop(0x41, EVEN_PARITY)[:-1])
    r.call("sin 0", 0, 0)
    r.ticks(9)
    r.read(LSR, 0x6F)
    r.read(RBR, 0x41)


def kept_without_data(r):
    for errors, lsr in (((1, 0, 0), 0x64), ((0, 1, 0), 0x68), ((0, 0, 1), 0x70), ((1, 1, 1), 0x7C)):
        r.start("LSR and 06 follow the kept errors with nothing queued; LSR7 stays 0",
                kept(clocked(), *errors))
        r.part(0)
        r.call("pins", 6, 1)
        r.read(IIR, 0x06)
        r.read(LSR, lsr)
        r.call("pins", 6, 0)
        r.read(LSR, 0x60)


def kept_over_fcr(r):
    s = kept(clocked(), 1, 0, 1)
    s[st.OE] = 1
    r.start("FIFO off when off clears no kept error", s)
    r.write(FCR, 0xFE)
    kept_flags(r, 1, 0, 1)
    r.read(LSR, 0x76)
    r.start("FIFO on clears the kept errors, and not OE", s)
    r.write(FCR, 0x01)
    kept_flags(r, 0, 0, 0)
    r.read(LSR, 0x62)
    r.start("the same with FIFO off again", s)
    r.write(FCR, 0x01)
    r.write(FCR, 0x00)
    r.read(LSR, 0x62)
    r.start("FIFO off keeps no error of an entry", received(fifo(clocked()), 1, (1, 1, 1)))
    r.write(FCR, 0x00)
    kept_flags(r, 0, 0, 0)
    r.read(LSR, 0x60)


def kept_ranges(r):
    for count in (0, 1):
        s = kept(received(clocked(), count), 0, 0, 1)
        r.start("no tie among the kept errors or to the queue", s)
        r.part(0)
    for i in range(3):
        s = clocked()
        s[st.KEPT + i] = 2
        r.start("each kept error is 0 or 1 with FIFO off: part 4", s)
        r.part(4)
        s = fifo(clocked())
        s[st.KEPT + i] = 1
        r.start("the kept errors are 0 with FIFO on: part 4", s)
        r.part(4)
        s = received(clocked(), 1)
        s[st.RX + 1 + i] = 1
        r.start("an entry's own errors are 0 with FIFO off: part 4", s)
        r.part(4)


def nearest_products(r):
    r.start("the divisor whose product is nearest to the clock")
    r.picks(3072000, 7200, 0, 27, -12345)
    r.picks(1843200, 9600, 0, 12, 0)
    r.picks(1843200, 56000, 0, 2, 28571)
    r.start("the distance is that of the clocks, and not of the rates")
    r.picks(22400, 1000, 0, 1, 400000)  # divisor 1 gives the rate 1400, 2 gives 700
    r.picks(39200, 1000, 0, 2, 225000)  # divisor 2 gives 1225, 3 gives 817
    r.start("divisor 1 where the quotient is 0, 65535 where it is above")
    r.picks(1, MOST_RATE, 0, 1, -999999)
    r.picks(7999999, MOST_RATE, 0, 1, -500000)
    r.picks(16 * 65535, 1, 0, MOST_DIVISOR, 0)
    r.picks(16 * 65536, 1, 0, MOST_DIVISOR, 15)
    r.picks(MOST_CLOCK, 1, 0, MOST_DIVISOR, 14259021)


def smaller_on_a_tie(r):
    r.start("the smaller divisor on a tie, the nearer one a tick beside it")
    r.picks(24000, 1000, 0, 1, 500000)
    for divisor, rate in ((1, 1), (1, 666666), (2, 9600), (8, 115200), (416, 1200), (65534, 1),
                          (65534, 15)):
        for beside, nearest in ((-1, divisor), (0, divisor), (1, divisor + 1)):
            r.call(line(tie(divisor, rate) + beside, rate), 1, nearest)
    r.call(line(tie(MOST_DIVISOR, 1) + 1, 1), 1, MOST_DIVISOR)


def cut_errors(r):
    r.start("the error of the divisor chosen, cut toward zero")
    for beside, error in ((15, 0), (16, 1), (17, 1), (31, 1), (32, 2), (33, 2)):
        r.picks(MOST_CLOCK - beside, MOST_RATE, 0, 1, -error)
    for beside, error in ((7, 0), (8, 1), (9, 1), (15, 1), (16, 2), (17, 2)):
        r.picks(MOST_CLOCK // 2 - beside, MOST_RATE // 2, 0, 1, -error)
        r.picks(MOST_CLOCK // 2 + beside, MOST_RATE // 2, 0, 1, error)
    r.picks(47, 3, 0, 1, -20833)
    r.picks(49, 3, 0, 1, 20833)


def outside_the_ranges(r):
    r.start("9 for a clock or a rate outside, 0 too")
    for clock in (0, MOST_CLOCK + 1, 1 << 24, st.BIGGEST):
        for rate in (0, 1, 7200, MOST_RATE, MOST_RATE + 1, st.BIGGEST):
            r.picks(clock, rate, 9, 0, 0)
    for rate in (0, MOST_RATE + 1, 1 << 20, st.BIGGEST):
        for clock in (1, 3072000, MOST_CLOCK):
            r.picks(clock, rate, 9, 0, 0)
    r.start("the ends of both ranges are inside")
    r.picks(1, 1, 0, 1, -937500)
    r.picks(1, MOST_RATE, 0, 1, -999999)
    r.picks(MOST_CLOCK, 1, 0, MOST_DIVISOR, 14259021)
    r.picks(MOST_CLOCK, MOST_RATE, 0, 1, 0)


def divisor_and_state(r):
    damaged = clocked()
    damaged[st.SIN] = 2
    for s, part in ((clocked(divisor=26, k=26), 0), (damaged, 2), ([st.BIGGEST] * st.PLACES, 1)):
        r.start("the state has no part in the divisor for a rate, and stays: never 1", s)
        r.picks(3072000, 7200, 0, 27, -12345)
        r.picks(0, 7200, 9, 0, 0)
        r.part(part)
        for place in (st.IER, st.DIVISOR, st.K, st.SIN, st.KEPT_BI):
            r.call("state", place, s[place])


def sending(divisor, k, left=40):
    """A frame of which so many pulses are left: L counts the pulses."""
    s = clocked(divisor=divisor, k=k)
    s[st.L], s[st.BYTE], s[st.FORMAT] = left, 0x41, 0x03
    return s


def held_back(divisor, k):
    """A byte is queued, autoflow on, CTS not asserted."""
    s = fifo(clocked(divisor=divisor, k=k))
    s[st.MCR] = 0x20
    st.set_queue(s, [0x41])
    return s


# Ticks at D 5, k 3: the jumps they are, then k and the pulses they had.
FIVE_AND_THREE = ((0, 0, 3, 0), (2, 1, 1, 0), (3, 1, 5, 1), (4, 2, 4, 1), (8, 2, 5, 2), (9, 3, 4, 2))


def jumps_to_pulses(r):
    for n, jumps, k, pulses in FIVE_AND_THREE:
        r.start("D 5, k 3: a jump ends at a pulse or at N", sending(5, 3))
        r.answers("jump %d" % n, 0, jumps)
        r.holds({st.K: k, st.L: 40 - pulses})
    for n in (0, 1, 7, st.BIGGEST):
        r.start("D 0: one jump of all ticks, none for N = 0", sending(0, 0))
        r.answers("jump %d" % n, 0, 1 if n else 0)
        r.holds({st.K: 0, st.L: 40})
    r.start("D 1: as many jumps as ticks", sending(1, 1))
    for n in (0, 1, 30):
        r.answers("jump %d" % n, 0, n)
    r.holds({st.K: 1, st.L: 9})
    for n, jumps in ((4, 2), (9, 3), (14, 4)):
        r.start("2 + N / D jumps can be reached", sending(5, 1))
        r.answers("jump %d" % n, 0, jumps)
    for k, n, jumps, k_then, left in (
            (65535, 65534, 1, 1, 40), (65535, 65536, 2, 65534, 39), (1, 65537, 3, 65534, 38),
            (65535, st.BIGGEST, 65537, 65535, 0), (65534, st.BIGGEST, 65538, 65534, 0),
            (1, st.BIGGEST, 65538, 1, 0)):
        r.start("D 65535: up to the most ticks there are", sending(65535, k))
        r.answers("jump %d" % n, 0, jumps)
        r.holds({st.K: k_then, st.L: left})


def runs_over_jumps(r):
    for s in (clocked(divisor=5, k=3), st.fresh()):
        r.start("with LSR6 already 1 no jump, also for D 0", s)
        for n in (0, 1, st.BIGGEST):
            r.answers("jumprun %d" % n, 0, 0, 0)
        r.holds({st.K: s[st.K]})
    for n in (0, 1, st.BIGGEST):
        r.start("work left and D 0: one jump of all ticks", sending(0, 0))
        r.answers("jumprun %d" % n, 0, n, 1 if n else 0)
        r.holds({st.L: 40})
    for n, used, jumps, k, left in ((0, 0, 0, 3, 2), (2, 2, 1, 1, 2), (3, 3, 1, 5, 1), (7, 7, 2, 1, 1),
                                    (8, 8, 2, 5, 0), (9, 8, 2, 5, 0), (st.BIGGEST, 8, 2, 5, 0)):
        r.start("the early stop is looked at before each jump", sending(5, 3, 2))
        r.answers("jumprun %d" % n, 0, used, jumps)
        r.holds({st.K: k, st.L: left})
    for n, jumps, k, _ in FIVE_AND_THREE:
        r.start("held back: the jumps of all ticks", held_back(5, 3))
        r.answers("jumprun %d" % n, 0, n, jumps)
        r.holds({st.K: k, st.TX_COUNT: 1})
    s = fifo16(clocked(divisor=12, k=5))
    st.set_queue(s, [0x41, 0x42, 0x43])
    r.start("row 8 by jumps: one for each pulse", s)
    r.answers("jumprun 10000", 0, 5765, 481)
    r.answers("jumprun 10000", 0, 0, 0)


def no_jumps(r):
    for place, number in ((st.SIN, 2), (st.K, 0), (st.K, 6), (st.DIVISOR, 65536)):
        s = sending(5, 3)
        s[place] = number
        r.start("a malformed state: 1, no ticks, no jumps, the state as it was", s)
        for n in (0, 1, 9):
            r.answers("jump %d" % n, 1, 0)
            r.answers("jumprun %d" % n, 1, 0, 0)
        r.holds({p: s[p] for p in (st.DIVISOR, st.K, st.SIN, st.L)})


ALL_PARTS = (state_1_to_7, ends_of_steps, numbers, registers_14_to_20, pulses_21_to_25,
             narrow_places, part_beside_a_number, places_of_parts, joined_parts, wide_numbers,
             kept_until_lsr, kept_by_each, kept_without_data, kept_over_fcr, kept_ranges,
             nearest_products, smaller_on_a_tie, cut_errors, outside_the_ranges, divisor_and_state,
             jumps_to_pulses, runs_over_jumps, no_jumps)


def main():
    if len(sys.argv) != 2:
        sys.exit(__doc__.strip())
    r = Rows("readings")
    for part in ALL_PARTS:
        part(r)
    sys.exit(0 if r.check(sys.argv[1]) else 1)


if __name__ == "__main__":
    main()
