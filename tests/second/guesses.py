"""States, records whose reads are guesses, and rooms, for the call `expect` (document 02, request f).

A case is a well-formed state, records and the words that are there for them. Between them they have every
kind of record, reads of every register that are right and wrong, reads that change the state with others
behind them that show it, ticks that pass between reads, every kind of bad record, and rooms around its
place and around the number of records.
"""

import captures
import draws
import parts
import states as st
from recorder import Guesser, utr
from states import (bases, clocked, in_character, keep_errors, with_fifo, with_frame, with_queued,
                    with_received)
from steps import EVEN_PARITY, FCR, IIR, LSR, MCR, MSR, RBR, SCR, THR

MOST_WORDS = draws.MOST_WORDS
BAD = captures.BAD_KIND
FEW, MANY = 3, 12


def line(words, room, version=utr.VERSION):
    return draws.words_line("expect", version, room, *words)


def made(sequence, guess):
    """The records of a sequence of steps; each read is this guess."""
    q = Guesser(lambda: guess)
    sequence(q)
    return q.taken()


def reads(addresses, guess):
    return made(lambda q: q.read(*addresses), guess)


# ---- Every kind, every register ----

# On a fresh device the reads are right.
KINDS = [utr.record(utr.WRITE, SCR, 0x5A), utr.record(utr.SIN, 0), utr.record(utr.MODEM, 9),
         utr.record(utr.READ, MSR, 0x99), utr.record(utr.TICKS, 3), utr.record(utr.READ, SCR, 0x5A),
         utr.record(utr.READ, LSR, 0x60), utr.record(utr.RESET), utr.record(utr.READ, SCR, 0x5A),
         utr.record(utr.READ, MSR, 0x90)]


def seen_as(words, flip):
    """The same records with other bits in the bytes of the reads."""
    return [word ^ flip if word >> 28 == utr.READ else word for word in words]


def busy():
    """A state in which reads and ticks change much: received data with errors, a frame, every latch."""
    s = with_received(with_fifo(clocked(d=3)), 2, ((0, (1, 0, 0)), (1, (0, 1, 1))))
    with_frame(s, 44)
    s[st.OE], s[st.TX_LATCH], s[st.TIMEOUT], s[st.IDLE], s[st.CHANGES] = 1, 1, 1, 700, 10
    return s


def every_kind():
    for s in (st.fresh(), busy()):
        for flip in (0x00, 0x01, 0x80, 0xFF):
            yield s, seen_as(KINDS, flip), len(KINDS)


def every_register():
    """Twice in a row; with LCR7 the divisor in place of RBR and IER."""
    for s in (*bases(), keep_errors(with_received(clocked(), 1), 1, 0, 1)):
        for lcr in (s[st.LCR] & 0x7F, s[st.LCR] | 0x80):
            s = list(s)
            s[st.LCR] = lcr
            yield s, reads(2 * list(range(8)), 0xA5), 16


# ---- The state between reads ----

def changing_reads():
    """A read that changes the state, and those that show it."""
    for ier in (0x02, 0x0F, 0x01):
        s = busy()
        s[st.IER] = ier
        for address in (LSR, RBR, IIR, MSR):
            yield s, reads((address, LSR, IIR, RBR, LSR, MSR, IIR, RBR, IIR), 0x5A), FEW * FEW


def old_driver():
    """Character mode: RBR before LSR, which still shows the errors."""
    for flags in ((1, 0, 0), (0, 1, 1)):
        s = keep_errors(with_received(clocked(EVEN_PARITY), 1), *flags)
        s[st.IER] = 0x05
        yield s, reads((IIR, RBR, IIR, LSR, IIR, LSR), 0xFF), MANY


def looped(q):
    """Three characters through loopback, watched."""
    q.write(THR, 0x41, 0x5A, 0x00)
    for count in (1, 151, 8, 1, 160, 160, 700):
        q.ticks(count)
        q.read(LSR, IIR)
    q.read(RBR, RBR, LSR, RBR, RBR)


def heard(q):
    """A character on SIN, then one with its parity wrong."""
    for frame_bits in (st.frame_bits, st.with_flipped_parity):
        q.bits(frame_bits(0x41, EVEN_PARITY))
        q.read(LSR, RBR, LSR)


def changed_pins(q):
    for pins in (1, 15, 4, 0):
        q.modem(pins)
        q.read(IIR, MSR, MSR)
    q.write(MCR, 0x1F)
    q.read(MSR, MCR)


def no_ticks(q):
    """A count of 0 beside one of 1, and the largest."""
    q.read(LSR)
    q.records.append(utr.record(utr.TICKS, 0))
    q.read(LSR)
    q.ticks(1)
    q.read(LSR)
    q.write(FCR, 0x05)
    q.ticks(utr.MOST_TICKS)
    q.read(LSR)


def steps_between():
    sending = with_queued(with_fifo(clocked()), 0x41)
    clockless = with_frame(with_queued(with_fifo(clocked(d=0)), 0x42), 7)
    loop, pins = with_fifo(clocked()), clocked()
    loop[st.MCR], loop[st.IER], pins[st.IER] = 0x10, 0x07, 0x08
    for s, sequence in ((loop, looped), (clocked(EVEN_PARITY), heard), (pins, changed_pins),
                        (sending, no_ticks), (clockless, no_ticks), (clocked(d=65535), no_ticks),
                        (in_character(with_fifo(clocked()), 151, 0x03, 0x41), no_ticks)):
        words = made(sequence, 0x33)
        yield s, words, len(words)
        yield s, words, len(words) // 2


# ---- Rooms and bad records ----

def rooms():
    """None, fewer than the records, as many, more; and no records."""
    words = seen_as(KINDS, 0x42)
    for room in (0, 1, 3, 4, len(words) - 1, len(words), len(words) + 1, 2 * len(words)):
        yield busy(), words, room
    for room in (0, 1, FEW):
        yield busy(), [], room


def bad_rooms():
    """A bad record before, at and behind the place for which no word is left."""
    words = seen_as(KINDS, 0x18)
    for place in (0, 3, 4, len(words)):
        for room in sorted({0, max(0, place - 1), place, place + 1, len(words) + FEW}):
            yield busy(), words[:place] + [BAD] + words[place:], room


def bad_kinds():
    """Every kind of bad record, first and later; good records behind it are not reached."""
    words = seen_as(KINDS, 0x24)
    for _, bad in captures.bad_records():
        yield st.fresh(), [bad, *words], MANY
        yield busy(), words[:5] + [bad] + words[5:], MANY


# ---- Random ones ----

def random_cases():
    pick = st.picker(16753)
    for i in range(45):
        words = draws.record_steps(pick, Guesser(lambda: pick(256)), 1 + pick(40))
        if i % 3 == 0:
            place = pick(len(words))
            words[place] = draws.bad_record(pick, words[place])
        yield st.random_state(pick), words, draws.room_for(pick, words)


def cases():
    for some in (every_kind, every_register, changing_reads, old_driver, steps_between, rooms, bad_rooms,
                 bad_kinds, random_cases):
        yield from some()


# ---- Refusals of the whole ----

VERSIONS = (0, 1, 2, 3, 256, 257, 65535)


def refusals():
    """Lines whose number is 1 or 7, or beside such ones: 1 before 7 before 8 and 16."""
    odd = st.clocked()
    odd[st.SIN] = 2
    for s in (odd, busy()):
        for version in VERSIONS:
            yield st.load_line(s)
            for words, room in (([BAD], 1), ([BAD], 0), (KINDS, 0), ([], 0), ([], FEW), (KINDS, MANY)):
                yield line(words, room, version)
            yield from ("part", "state")
    for s in parts.damaged():
        yield from (st.load_line(s), line(KINDS, FEW), "part", line([BAD], 1, 2), "part", line([], 0), "state")


def long_lines():
    """The longest good lines, and lines just beyond."""
    pins = [utr.record(utr.MODEM, i % 16) for i in range(MOST_WORDS)]
    yield from ("fresh", line(pins, MOST_WORDS), "read %d" % MSR, line(pins, MOST_WORDS - 1))
    yield from (line([*pins, 0], MOST_WORDS), line(pins, MOST_WORDS + 1), line([*pins, 0], 0), "read %d" % MSR)
    yield from (line(pins[:-1] + [BAD], MOST_WORDS), line(pins[:-1] + [BAD], MOST_WORDS - 1), "state")
    yield from (line([], MOST_WORDS), line([st.BIGGEST] * MOST_WORDS, MOST_WORDS, 65535))
    yield from (line([st.BIGGEST] * MOST_WORDS, FEW), line([st.BIGGEST] * MOST_WORDS, FEW, 65536))
    yield line([st.BIGGEST] * (MOST_WORDS + 1), MOST_WORDS, 65535)
    yield from (line([st.BIGGEST] * MOST_WORDS, MOST_WORDS, 65535) + more for more in ("0", " ", "\r"))
    yield "state"
