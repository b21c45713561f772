#!/usr/bin/env python3
"""Makes the stored captures: the same at every run, each with the answer that it is made for.

usage: captures.py CALLS write FOLDER
       captures.py CALLS check REPLAY
       captures.py CALLS guess FILE

CALLS is the second program's `calls`, which answers the reads. `write` makes the files 000, 001, ..
and index.txt, a line `NNN name` for each. `check` holds the program REPLAY to the answers. `guess`
makes one long capture whose reads are guesses, for the program `expect`.
"""

import os
import sys

import ask
import states as st
from recorder import Recorder, utr
from steps import (EIGHT_BITS, EVEN_PARITY, FIVE_BITS, FCR, IER, IIR, LCR, LSR, MCR, MSR, RBR, SCR,
                   THR)

ALL_REGISTERS = range(8)


# ---- A driver's sequences ----

def drain(q):
    """Reads the receive queue as long as LSR says that data waits."""
    while q.byte(LSR) & 1:
        q.read(RBR)


def auto_cts(q):
    """The transmitter waits for CTS, is released, and is held again within a character."""
    q.set_up(d=2, mcr=0x20)
    q.write(THR, 0x41, 0x42, 0x43)
    q.ticks(500)
    q.read(LSR, MSR)
    q.modem(1)
    q.ticks(2)
    q.read(LSR, MSR)
    q.ticks(100)
    q.modem(0)
    q.ticks(220)
    q.read(LSR)
    q.ticks(1000)
    q.read(LSR, MSR)
    q.modem(1)
    q.ticks(2)
    q.write(FCR, 0x05)
    q.ticks(317)
    q.read(LSR)
    q.ticks(3)
    q.read(LSR, MSR)
    q.write(MCR, 0x00)
    q.modem(0)
    q.read(MSR)


def auto_rts(fcr, level):
    """Characters on SIN up to the trigger and above, then read until the queue is empty."""
    def sequence(q):
        q.set_up(FIVE_BITS, 1, fcr, 0x01, 0x22)
        for i in range(level + 1):
            q.character(i & 31, FIVE_BITS)
            q.read(IIR)
        drain(q)
        q.read(IIR, MSR)
    return sequence


def loopback_data(q):
    q.set_up(EVEN_PARITY, 3, 0x81, 0x07, 0x10)
    for i in range(12):
        q.write(THR, 0x51 * i & 255)
    for _ in range(14):
        q.ticks(3 * 176)
        q.read(LSR, IIR)
    drain(q)
    q.read(LSR, IIR)


def loopback_modem(q):
    q.modem(5)
    q.read(MSR)
    for mcr in (0x10, 0x11, 0x12, 0x14, 0x18, 0x1F, 0x1B, 0x10, 0x0F, 0x1F, 0x00):
        q.write(MCR, mcr)
        q.read(MSR, MSR, MCR)
        q.modem(mcr & 15)
        q.read(MSR)


def rbr_before_lsr(q):
    """An old driver's reads: in character mode LSR still shows the errors."""
    q.read(IIR, RBR, IIR, LSR, IIR, LSR)


def parity_errors(q):
    q.set_up(EVEN_PARITY, 2, 0x01, 0x05)
    for i, byte in enumerate((0x00, 0x41, 0xFF, 0x80, 0x01)):
        frame_bits = st.with_flipped_parity if i % 2 else st.frame_bits
        q.bits(frame_bits(byte, EVEN_PARITY), 2)
        q.read(IIR)
    for _ in range(5):
        q.read(LSR, IIR, RBR)
    q.read(LSR)
    q.write(FCR, 0x00)
    for frame_bits in (st.with_flipped_parity, st.frame_bits, st.with_flipped_parity):
        q.bits(frame_bits(0x41, EVEN_PARITY), 2)
        rbr_before_lsr(q)


def framing_errors(q):
    q.set_up(fcr=0x01, ier=0x05)
    for byte in (0x41, 0x00, 0xFF):
        q.bits(st.with_low_stop(byte, EIGHT_BITS) + [1])
        q.ticks(200)
        q.read(IIR, LSR, LSR, RBR)
    drain(q)
    q.write(FCR, 0x00)
    q.bits(st.with_low_stop(0x41, EIGHT_BITS) + [1])
    rbr_before_lsr(q)
    q.ticks(200)
    rbr_before_lsr(q)


def breaks(q):
    for fcr in (0x00, 0x01):
        q.set_up(fcr=fcr, ier=0x05)
        q.sin(0)
        for _ in range(4):
            q.ticks(51)
            q.read(LSR)
        q.read(IIR, LSR, RBR)
        q.ticks(1000)
        q.sin(1)
        q.ticks(1)
        q.read(LSR)
        q.character(0x55, EIGHT_BITS)
        drain(q)
    q.write(FCR, 0x00)
    q.bits([0] * 10 + [1])
    rbr_before_lsr(q)


def overruns(fcr, characters):
    def sequence(q):
        q.set_up(FIVE_BITS, 1, fcr, 0x05)
        for i in range(characters):
            q.character(i & 31, FIVE_BITS)
        q.read(IIR, LSR, IIR, LSR)
        drain(q)
        q.read(IIR)
    return sequence


def filled_queue(fcr, size):
    """More bytes to THR than fit, sent through loopback."""
    def sequence(q):
        q.set_up(FIVE_BITS, 1, fcr, 0x00, 0x10)
        q.read(IIR)
        for i in range(size + 2):
            q.write(THR, 7 * i + 1 & 255)
        q.read(LSR)
        for _ in range(4):
            q.ticks(112 * size // 4)
            q.read(LSR)
        q.ticks(112)
        q.read(LSR)
        drain(q)
    return sequence


def time_outs(q):
    q.set_up(d=1, fcr=0x81, ier=0x01)
    q.character(0x41, EIGHT_BITS)
    for ticks in (633, 1, 1, 500):
        q.ticks(ticks)
        q.read(IIR)
    q.character(0x42, EIGHT_BITS)
    q.read(IIR, RBR, IIR)
    q.ticks(640)
    q.read(IIR)
    q.ticks(1)
    q.read(IIR)
    q.write(FCR, 0x83)
    q.read(IIR, LSR)


def serve(q, left):
    """A driver's interrupt service: asks IIR until no interrupt is left."""
    while True:
        code = q.byte(IIR) & 0x0F
        if code == 0x01:
            return
        if code == 0x06:
            q.read(LSR)
        elif code in (0x04, 0x0C):
            drain(q)
        elif code == 0x02:
            for _ in range(min(left[0], 16)):
                q.write(THR, 3 * left[0] & 255)
                left[0] -= 1
        else:
            q.read(MSR)


def service_loop(fcr):
    def sequence(q):
        left = [40]
        q.set_up(d=1, fcr=fcr, ier=0x0F, mcr=0x10)
        for i in range(40):
            q.ticks(177 + 13 * i)
            if i % 8 == 7:
                q.write(MCR, 0x10 | i & 15)
            serve(q, left)
        q.read(LSR)
    return sequence


def divisor_changes(q):
    q.set_up(d=12)
    for d in (12, 1, 300, 2, 0, 7, 65535, 3):
        q.write(THR, d & 255)
        q.ticks(25)
        q.divisor(d, EIGHT_BITS)
        q.write(LCR, 0x83)
        q.read(0, 1)
        q.write(LCR, EIGHT_BITS)
        q.ticks(d)
        q.read(LSR)
        q.ticks(100 * d)
        q.read(LSR)


def resets(q):
    """In the middle of a frame, of a reception, with data waiting, in loopback."""
    for mcr in (0x00, 0x10, 0x3F):
        q.write(SCR, 0x5A ^ mcr)
        q.set_up(d=5, fcr=0x21, ier=0x0F, mcr=mcr)
        q.write(THR, 0x41, 0x42)
        q.character(0x43, EIGHT_BITS, 5)
        q.sin(0)
        q.ticks(100)
        q.modem(mcr >> 2)
        q.read(LSR)
        q.reset()
        q.read(*ALL_REGISTERS)
        q.sin(1)
        q.ticks(400)
        q.read(LSR, MSR)
        q.write(LCR, 0x80)
        q.read(0, 1)
    q.reset()
    q.reset()
    q.read(LSR)


def modem_changes(q):
    q.write(IER, 0x08)
    for pins in (0, 1, 3, 7, 15, 14, 12, 8, 0, 4, 0, 4, 15, 0):
        q.modem(pins)
        q.read(IIR, MSR, IIR)
    q.modem(15, 0)
    q.read(MSR, MSR)


def all_addresses(q):
    for byte in (0x00, 0xFF, 0x5A):
        for address in ALL_REGISTERS:
            q.write(address, byte)
            q.read(*ALL_REGISTERS)
    q.reset()
    q.read(*ALL_REGISTERS)


def tick_counts(q):
    """A count of 0 and the largest one, at a divisor where both can be told apart."""
    q.set_up(d=800)
    q.write(THR, 0x41)
    q.records.append(utr.record(utr.TICKS, 0))
    q.read(LSR)
    q.ticks(800)
    q.read(LSR)
    q.ticks(65535)
    q.read(LSR)
    q.ticks(128000 - 65535 - 1)
    q.read(LSR)
    q.records.append(utr.record(utr.TICKS, 0))
    q.read(LSR)
    q.ticks(1)
    q.read(LSR)


def make_sequences():
    table = [
        ("auto-cts", auto_cts),
        ("loopback-data", loopback_data),
        ("loopback-modem", loopback_modem),
        ("parity-errors", parity_errors),
        ("framing-errors", framing_errors),
        ("breaks", breaks),
        ("overrun-fifo-16", overruns(0x01, 18)),
        ("overrun-fifo-64", overruns(0x21, 66)),
        ("overrun-character", overruns(0x00, 3)),
        ("fifo-16", filled_queue(0x01, 16)),
        ("fifo-64", filled_queue(0x21, 64)),
        ("character-mode", filled_queue(0x00, 1)),
        ("time-outs", time_outs),
        ("service-fifo-16", service_loop(0x41)),
        ("service-fifo-64", service_loop(0xA1)),
        ("service-character", service_loop(0x00)),
        ("divisor-changes", divisor_changes),
        ("resets", resets),
        ("modem-changes", modem_changes),
        ("all-addresses", all_addresses),
        ("tick-counts", tick_counts),
    ]
    for size, fcr, levels in ((16, 0x01, (1, 4, 8, 14)), (64, 0x21, (1, 16, 32, 56))):
        for code, level in enumerate(levels):
            table.append(("auto-rts-%d-trigger-%d" % (size, level), auto_rts(fcr | code << 6, level)))
    return table


SEQUENCES = make_sequences()


# ---- Long captures ----

LONG_ADDRESSES = (LSR, IIR, RBR, LSR, MSR, IER, MCR, SCR)


def polling(q, records):
    """That many records, the first and last of each 32 a read; loopback traffic at divisor 1."""
    pick = st.picker(records)
    q.set_up(d=1, fcr=0xA1, ier=0x0F, mcr=0x10)
    while len(q.records) < records:
        chance = pick(8)
        if len(q.records) % 32 in (0, 31) or chance < 4 or len(q.records) == records - 1:
            q.read(LONG_ADDRESSES[pick(len(LONG_ADDRESSES))])
        elif chance < 6:
            q.write(THR, pick(256))
        elif chance < 7:
            q.ticks(1 + pick(300))
        else:
            q.write((SCR, IER, MCR)[pick(3)], 0x10 | pick(16))


# ---- Damage, and the answer to it ----

AGREED = "agreed"


def refused(number, place=0):
    return "refused %d %d" % (number, place)


def is_read(word):
    return word >> 28 == utr.READ


def middle_read(words):
    """The place of the read nearest to the middle."""
    middle = len(words) // 2
    return min((i for i, w in enumerate(words) if is_read(w)), key=lambda i: abs(i - middle))


def with_record(words, place, word):
    return words[:place] + [word] + words[place + 1:]


def differing(words, place):
    """One bit of the byte of the read at this place flipped; the records and the answer."""
    assert is_read(words[place])
    damaged = words[place] ^ 1 << place % 8
    answer = "differs %d %d %d" % (place, damaged & 255, words[place] & 255)
    return with_record(words, place, damaged), answer


BAD_KIND = 0x60000000


def bad_records():
    """A name and a bad record; without its stray bit each would agree on a fresh device.
    The lowest and the highest stray bit of each kind."""
    good = (utr.record(utr.TICKS, 3), utr.record(utr.READ, LSR, 0x60), utr.record(utr.WRITE, SCR, 7),
            utr.record(utr.SIN, 1), utr.record(utr.MODEM, 0), utr.record(utr.RESET))
    for kind, lowest in enumerate(utr.FIELD_BITS):
        for bit in (lowest, 27):
            yield "stray-%s-bit-%d" % (utr.NAMES[kind], bit), good[kind] | 1 << bit
    for kind in (6, 7, 15):
        yield "kind-%d" % kind, kind << 28


# ---- The set: name, file, answer ----

def recorded(q, sequence, *arguments):
    q.start()
    sequence(q, *arguments)
    return q.taken()


def with_difference(name, words, place, rest=b""):
    damaged, answer = differing(words, place)
    return name, utr.capture(damaged) + rest, answer


def sequences(q):
    for name, sequence in SEQUENCES:
        words = recorded(q, sequence)
        yield name, utr.capture(words), AGREED
        yield with_difference(name + "-damaged", words, middle_read(words))


def short_files():
    for length in range(8):
        yield "short-%d" % length, utr.header()[:length], refused(8)
    yield "short-and-wrong-letters", b"XYZ", refused(8)
    yield "short-of-wrong-letters-by-one", b"utr\1\2\3\4", refused(8)


def headers(records):
    """6 and 7, and which comes first."""
    for place in (0, 1, 2, 3, 6, 7):
        for flip in (0x01, 0x80):
            damaged = bytearray(utr.header())
            damaged[place] ^= flip
            yield "mark-byte-%d-flip-%d" % (place, flip), bytes(damaged) + records, refused(6)
    for version in (0, 2, 3, 256, 257, 65535):
        yield "version-%d" % version, utr.header(version) + records, refused(7)
    yield "version-2-alone", utr.header(2), refused(7)
    yield "version-2-and-bytes-left", utr.header(2) + b"\0", refused(7)
    yield "wrong-letter-and-version", utr.header(2, b"UTS\0") + records, refused(6)
    yield "wrong-fourth-byte-and-version", utr.header(0, b"UTR0") + records, refused(6)
    yield "wrong-pad-and-version", utr.header(2, pad=256) + records, refused(6)
    yield "wrong-letters-alone", utr.header(1, b"RTU\0"), refused(6)
    yield "header-only", utr.header(), AGREED


def long_ones(q):
    for count in (8191, 8192, 8193, 20000):
        words = recorded(q, polling, count)
        name = "records-%d" % count
        yield name, utr.capture(words), AGREED
        yield with_difference(name + "-last-differs", words, count - 1)
        yield name + "-last-bad", utr.capture(words[:-1] + [BAD_KIND]), refused(8, count - 1)
        if count == 8192:
            for left in (1, 2, 3):
                yield name + "-left-%d" % left, utr.capture(words) + b"\0" * left, refused(8, count)
    words = recorded(q, polling, 8200)
    for place in (8191, 8192):
        yield with_difference("records-8200-differs-%d" % place, words, place)
        bad = with_record(words, place, BAD_KIND)
        yield "records-8200-bad-%d" % place, utr.capture(bad), refused(8, place)


def left_over(words):
    for left in (1, 2, 3):
        rest = b"\x60\x05\x00"[:left]
        name = "left-%d-after-" % left
        yield name + "none", utr.header() + rest, refused(8)
        yield name + "few", utr.capture(words) + rest, refused(8, len(words))
        yield with_difference(name + "difference", words, 2, rest)
        yield name + "bad", utr.capture(with_record(words, 2, BAD_KIND)) + rest, refused(8, 2)


def bad_ones(words):
    """Words agree; a bad record stands first, between and last."""
    for name, bad in bad_records():
        for where, place in (("first", 0), ("middle", len(words) // 2), ("last", len(words))):
            data = utr.capture(words[:place] + [bad] + words[place:])
            yield "%s-%s" % (name, where), data, refused(8, place)
    damaged, answer = differing(words, 2)
    yield "difference-before-bad", utr.capture(damaged + [BAD_KIND]), answer
    yield "bad-before-difference", utr.capture([BAD_KIND] + damaged), refused(8)
    yield with_difference("difference-before-difference", damaged, 0)


def parity_checked(form):
    """Every character on SIN with the parity bit right, then wrong."""
    def sequence(q):
        q.set_up(form)
        for byte in st.characters(form):
            for frame_bits in (st.frame_bits, st.with_flipped_parity):
                q.bits(frame_bits(byte, form))
                q.read(LSR, RBR)
    return sequence


def parities(q):
    """Each width in odd, even and stick parity of either kind."""
    for form in st.PARITY_FORMATS:
        yield "parity-lcr-%02x" % form, utr.capture(recorded(q, parity_checked(form))), AGREED


def few(q):
    """Some records that leave the fresh state as it was."""
    q.read(LSR, IIR, LSR)
    q.write(SCR, 0)
    q.ticks(5)
    q.read(SCR, LSR, MSR)


def stored(calls):
    q = Recorder(calls)
    words = recorded(q, few)
    yield from sequences(q)
    yield from short_files()
    yield from headers(utr.pack(words))
    yield from long_ones(q)
    yield from left_over(words)
    yield from bad_ones(words)
    yield from parities(q)
    q.close()


def write(calls, folder):
    os.makedirs(folder, exist_ok=True)
    for old in os.listdir(folder):
        if old.isdigit():
            os.remove(os.path.join(folder, old))
    index = []
    for number, (name, data, _) in enumerate(stored(calls)):
        with open(os.path.join(folder, "%03d" % number), "wb") as out:
            out.write(data)
        index.append("%03d %s\n" % (number, name))
    with open(os.path.join(folder, "index.txt"), "w") as out:
        out.writelines(index)


# ---- Guesses ----

GUESSED_RECORDS = 9000


def all_sequences(q):
    """One after the other, a reset before each."""
    for _, sequence in SEQUENCES:
        q.reset()
        sequence(q)


def guessed(calls):
    """A capture of more than a block, most of its reads wrong, in which a bad record is reached; what
    stands behind it is not."""
    q = Recorder(calls)
    all_sequences(q)
    polling(q, GUESSED_RECORDS)
    words = q.taken()
    q.close()
    pick = st.picker(16754)
    for place in filter(lambda i: is_read(words[i]) and pick(8), range(len(words))):
        words[place] ^= pick(256)
    return utr.capture(words + [BAD_KIND] + words[:5])


def guess(calls, name):
    with open(name, "wb") as out:
        out.write(guessed(calls))


# ---- Checking a program ----

def check(calls, program):
    count = wrong = 0
    for name, data, answer in stored(calls):
        got = ask.answer(program, data)
        count += 1
        if got != (answer.encode() + b"\n", 0):
            print("%s answered %r, should be %r" % (name, got, answer))
            wrong += 1
    print("captures: %d cases, %d wrong" % (count, wrong))
    if wrong:
        sys.exit(1)


def main():
    tasks = {"write": write, "check": check, "guess": guess}
    if len(sys.argv) != 4 or sys.argv[2] not in tasks:
        sys.exit(__doc__.strip())
    _, calls, task, target = sys.argv
    tasks[task](calls, target)


if __name__ == "__main__":
    main()
