"""States of the UART as lists of numbers, in the order of the text protocol.

Holds the names of the places, the few formulas of document 01 needed to build
well-formed states, a random drawing of them that favours boundaries, and the
edge of each range of document 01, section "The state", and of document 02, request
c, with the part of the state it counts for (request b).
"""

import random
from bisect import bisect_left

QUEUE = 64

IER, MCR, LCR, SCR, DIVISOR, K = range(0, 6)
FIFO_ON, SIZE64, DMA, TRIGGER, MODEM, SIN = range(6, 12)
TX_COUNT, TX = 12, 13
L, BYTE, FORMAT = range(77, 80)
RX_COUNT, RX = 80, 81
RX_STATE, P, RX_FORMAT, RX_DATA, RX_PARITY = range(337, 342)
TX_LATCH, OE, TIMEOUT, IDLE, CHANGES, HOLD = range(342, 348)
KEPT = KEPT_PE = 348
KEPT_FE, KEPT_BI = 349, 350
PLACES = KEPT_BI + 1

# The places outside the two queues.
SINGLES = tuple(range(0, 13)) + (L, BYTE, FORMAT, RX_COUNT) + tuple(range(RX_STATE, PLACES))

# The first and last places of the queues.
QUEUE_ENDS = (TX, TX + 63, RX, RX + 1, RX + 2, RX + 3, RX + 252, RX + 255)

# The places whose numbers go beyond a byte.
WORDS = (DIVISOR, K, IDLE)

# The last place of each part, from part 1 on; the kept flags behind them are of part 4.
PART_ENDS = (K, SIN, FORMAT, RX_PARITY, HOLD)
PARTS = range(1, len(PART_ENDS) + 1)


def part_of(place):
    """The part that a number out of a place's range counts for."""
    return 4 if place >= KEPT else 1 + bisect_left(PART_ENDS, place)


RX_IDLE, RX_MARK, RX_CHARACTER = 0, 1, 2

BIGGEST = 4294967295


def picker(seed):
    """pick(n) gives a random number from 0 to n - 1, the same ones for the same seed."""
    draw = random.Random(seed).random
    return lambda n: int(draw() * n)


# ---- Formulas ----

def data_bits(form):
    return 5 + (form & 3)


def parity_bits(form):
    return form >> 3 & 1


def stop_pulses(form):
    if not form & 4:
        return 16
    return 24 if form & 3 == 0 else 32


def frame_length(form):
    """F of a format."""
    return 16 * (1 + data_bits(form) + parity_bits(form)) + stop_pulses(form)


def parity_bit(byte, form):
    even = form >> 4 & 1
    if form & 0x20:
        return even ^ 1
    ones = bin(byte & ((1 << data_bits(form)) - 1)).count("1")
    return (ones & 1) ^ even ^ 1


# The formats with a parity bit and one stop bit.
PARITY_FORMATS = [form for form in range(64) if parity_bits(form) and not form & 4]


def frame_bits(byte, form):
    """The bits of a frame on the line: start, data, parity, one stop."""
    bits = [0] + [byte >> i & 1 for i in range(data_bits(form))]
    if parity_bits(form):
        bits.append(parity_bit(byte, form))
    return bits + [1]


def with_flipped_parity(byte, form):
    bits = frame_bits(byte, form)
    bits[-2] ^= 1
    return bits


def characters(form):
    """A byte for every character of the width, with changing bits above it."""
    width = data_bits(form)
    return [(37 * c << width | c) & 255 for c in range(1 << width)]


def with_low_stop(byte, form):
    return frame_bits(byte, form)[:-1] + [0]


def stop_position(form):
    return 8 + 16 * (1 + data_bits(form) + parity_bits(form))


def capacity(s):
    if not s[FIFO_ON]:
        return 1
    return 64 if s[SIZE64] else 16


def trigger(s):
    return ((1, 4, 8, 14), (1, 16, 32, 56))[s[SIZE64]][s[TRIGGER]]


def autoflow(s):
    return bool(s[MCR] & 0x20 and s[FIFO_ON])


def auto_rts(s):
    return bool(autoflow(s) and s[MCR] & 0x02)


def effective_cts(s):
    return s[MCR] >> 1 & 1 if s[MCR] & 0x10 else s[MODEM] & 1


def held(s):
    return autoflow(s) and not effective_cts(s)


def pulses_left(s):
    n = s[TX_COUNT]
    if s[L]:
        return s[L] + n * frame_length(s[LCR])
    return 1 + n * frame_length(s[LCR]) if n else 0


def forecast(s):
    """T, or None where the forecast is refused."""
    p = pulses_left(s)
    if p == 0:
        return 0
    if s[DIVISOR] == 0 or (s[TX_COUNT] and held(s)):
        return None
    return s[K] + (p - 1) * s[DIVISOR]


# ---- Building ----

def fresh():
    s = [0] * PLACES
    s[SIN] = 1
    return s


def set_queue(s, data):
    s[TX_COUNT] = len(data)
    s[TX:TX + QUEUE] = list(data) + [0] * (QUEUE - len(data))


def set_entries(s, entries):
    """Entries are (byte, PE, FE, BI)."""
    flat = [n for e in entries for n in e]
    s[RX_COUNT] = len(entries)
    s[RX:RX + 4 * QUEUE] = flat + [0] * (4 * QUEUE - len(flat))


def keep_errors(s, pe, fe, bi):
    """Adds errors to the kept ones."""
    s[KEPT_PE] |= pe
    s[KEPT_FE] |= fe
    s[KEPT_BI] |= bi
    return s


def settle_errors(s):
    """With FIFO on none is kept, with FIFO off they are kept apart from the entry."""
    if s[FIFO_ON]:
        s[KEPT:] = 0, 0, 0
    else:
        keep_errors(s, *s[RX + 1:RX + 4])
        s[RX + 1:RX + 4] = 0, 0, 0


def settle(s):
    """Makes a state well formed: its errors, and the rules that end each step."""
    settle_errors(s)
    if autoflow(s):
        s[CHANGES] &= ~1
    if not auto_rts(s) or s[RX_COUNT] == 0:
        s[HOLD] = 0
    elif s[RX_COUNT] >= trigger(s):
        s[HOLD] = 1
    return s


def clocked(lcr=0x03, d=1, k=None):
    s = fresh()
    s[LCR], s[DIVISOR], s[K] = lcr, d, d if k is None else k
    return s


def with_fifo(s, size64=0, code=0):
    s[FIFO_ON], s[SIZE64], s[TRIGGER] = 1, size64, code
    return s


def with_received(s, count, errors=()):
    """Errors: a place of the queue and its (PE, FE, BI), kept apart in character mode."""
    entries = [(0x30 + i, 0, 0, 0) for i in range(count)]
    for place, bits in errors:
        entries[place] = (entries[place][0],) + bits
    set_entries(s, entries)
    return settle(s)


def with_queued(s, *data):
    set_queue(s, data)
    s[TX_LATCH] = 0
    return s


def with_frame(s, left, byte=0x41, form=0x03):
    s[L], s[BYTE], s[FORMAT] = left, byte, form
    return s


def in_character(s, place, form, data=0, parity=0):
    s[RX_STATE:RX_PARITY + 1] = [RX_CHARACTER, place, form, data, parity]
    return s


def load_line(s):
    return "load " + " ".join(map(str, s))


# ---- Random well-formed states ----

COMMON_LCR = (0x03, 0x03, 0x00, 0x04, 0x07, 0x0B, 0x1B, 0x1F, 0x2B, 0x3B, 0x1A, 0x3F)
DATA_BYTES = (0x00, 0x00, 0xFF, 0x55, 0xAA, 0x41, 0x80, 0x01, 0x7F, 0xE0)


def random_byte(pick):
    return DATA_BYTES[pick(len(DATA_BYTES))] if pick(2) else pick(256)


def random_lcr(pick):
    lcr = COMMON_LCR[pick(len(COMMON_LCR))] if pick(2) else pick(64)
    chance = pick(10)
    if chance == 0:
        lcr |= 0x80
    elif chance == 1:
        lcr |= 0x40
    return lcr


def random_divisor(pick):
    chance = pick(16)
    if chance < 9:
        return 1
    if chance < 12:
        return 2 + pick(3)
    if chance < 14:
        return (5, 12, 16, 255, 256)[pick(5)]
    if chance == 14:
        return 0
    return (65535, 65534, 256, pick(65536))[pick(4)]


def random_count(pick, size, level):
    """A count near a boundary: empty, one, around the trigger, around full."""
    count = (0, 0, 1, 2, level - 1, level, level + 1, size - 1, size, pick(size + 1))[pick(10)]
    return max(0, min(size, count))


def random_queues(s, pick):
    size = capacity(s)
    level = trigger(s)
    # The forecast knows no trigger, and long queues make long lines: short ones more often.
    count = random_count(pick, size, 2) if pick(3) else min(size, pick(3))
    set_queue(s, [random_byte(pick) for _ in range(count)])
    count = random_count(pick, size, level)
    bad = pick(3)  # 0: none in error, 1: some, 2: only later ones
    entries = []
    for i in range(count):
        errors = (0, 0, 0)
        if bad and not pick(4) and (bad == 1 or i):
            errors = ((1, 0, 0), (0, 1, 0), (0, 1, 1), (1, 1, 1), (0, 0, 1))[pick(5)]
        entries.append((random_byte(pick),) + errors)
    set_entries(s, entries)


def random_kept(s, pick):
    """In character mode half of the states keep errors, beside those of the entry drawn."""
    if not s[FIFO_ON] and pick(2):
        keep_errors(s, *(pick(2) for _ in range(3)))


def random_frame(s, pick):
    if not pick(3):
        return
    form = s[LCR] & 63 if pick(2) else pick(64)
    length = frame_length(form)
    s[L] = (1, 1, 2, length, length - 1, stop_pulses(form), 1 + pick(length))[pick(7)]
    s[BYTE] = random_byte(pick)
    s[FORMAT] = form


def random_receiver(s, pick):
    chance = pick(8)
    if chance < 2:
        return
    if chance == 2:
        s[RX_STATE] = RX_MARK
        return
    form = s[LCR] & 63 if pick(4) else pick(64)
    width = data_bits(form)
    stop = stop_position(form)
    chance = pick(5)
    if chance == 0:
        place = pick(stop)
    elif chance < 3:
        place = stop - 1 - pick(3)
    else:
        place = 8 + 16 * pick(2 + width + parity_bits(form)) + pick(4) - 2
    place = max(0, min(stop - 1, place))
    s[RX_STATE] = RX_CHARACTER
    s[P] = place
    s[RX_FORMAT] = form
    taken = (place + 8) // 16 - 1  # data and parity samples taken
    if taken > 0 and pick(3):
        s[RX_DATA] = random_byte(pick) & ((1 << min(taken, width)) - 1)
    if taken > width:
        s[RX_PARITY] = pick(2)


def random_latches(s, pick):
    s[TX_LATCH] = pick(2) if s[TX_COUNT] == 0 else 0
    s[OE] = 1 if pick(4) == 0 else 0
    s[CHANGES] = pick(16) if pick(2) else 0
    s[HOLD] = pick(2)
    if s[FIFO_ON] and s[RX_COUNT]:
        limit = 4 * frame_length(s[LCR])
        s[IDLE] = min(769, (0, 1, limit - 1, limit, limit + 1, 768, 769, pick(770))[pick(8)])
        s[TIMEOUT] = 1 if pick(4) == 0 else 0


def random_state(pick):
    """A well-formed state; pick(n) gives a random number from 0 to n - 1."""
    s = [0] * PLACES
    s[IER] = pick(64) if pick(2) else (0x0F, 0x01, 0x02, 0x05, 0x0B, 0x03)[pick(6)]
    s[MCR] = pick(64) if pick(2) else (0, 0, 0x10, 0x22, 0x20, 0x32, 0x30, 0x0B)[pick(8)]
    s[LCR] = random_lcr(pick)
    s[SCR] = pick(256)
    s[DIVISOR] = random_divisor(pick)
    if s[DIVISOR]:
        s[K] = (1, s[DIVISOR], 1 + pick(s[DIVISOR]))[pick(3)]
    s[FIFO_ON] = 1 if pick(4) else 0
    s[SIZE64] = 1 if pick(4) == 0 else 0
    s[DMA] = pick(2)
    s[TRIGGER] = pick(4)
    s[MODEM] = pick(16)
    s[SIN] = pick(2)
    random_queues(s, pick)
    random_frame(s, pick)
    random_receiver(s, pick)
    random_latches(s, pick)
    random_kept(s, pick)
    return settle(s)


# ---- Edges: where the ranges end ----

def any_state(_):
    return True


class Edge:
    """The edge of a range: the part it counts for, the change of a well-formed state to the last
    number inside, the change to the first one outside, and which states have it."""

    def __init__(self, part, name, inside, outside, where=any_state):
        self.part = part
        self.name = name
        self.inside = inside
        self.outside = outside
        self.where = where

    def keep(self, s):
        """The state, which has the edge, at it and still well formed."""
        self.inside(s)
        return settle(s)

    def damage(self, s):
        """The state with this range broken; None where it hasn't the edge."""
        if not self.where(s):
            return None
        self.outside(s)
        return s


def put(place, *values):
    """The places from this one on get the values."""
    def change(s):
        s[place:place + len(values)] = values
    return change


def as_it_is(_):
    """The change of a state that is at the edge already."""


def above(place, most):
    return put(place, most), put(place, most + 1)


def has_divisor(s):
    return s[DIVISOR] > 0


def has_queued(s):
    return s[TX_COUNT] > 0


def none_queued(s):
    return s[TX_COUNT] == 0


def has_received(s):
    return s[RX_COUNT] > 0


def sending(s):
    return s[L] > 0


def not_sending(s):
    return s[L] == 0


def not_in_character(s):
    return s[RX_STATE] != RX_CHARACTER


def fifo_with_data(s):
    return s[FIFO_ON] and s[RX_COUNT]


def fifo_without_data(s):
    return s[FIFO_ON] and not s[RX_COUNT]


def character_mode_with_data(s):
    return not s[FIFO_ON] and s[RX_COUNT]


def character_mode(s):
    return not s[FIFO_ON]


def fifo_is_on(s):
    return s[FIFO_ON]


def k_above_divisor(more):
    def change(s):
        s[K] = s[DIVISOR] + more
    return change


def transmit_count_above(more):
    def change(s):
        size = capacity(s) + more
        set_queue(s, [1] * min(QUEUE, size))
        s[TX_COUNT] = size
        s[TX_LATCH] = 0
    return change


def receive_count_above(more):
    def change(s):
        size = capacity(s) + more
        set_entries(s, [(1, 0, 0, 0)] * min(QUEUE, size))
        s[RX_COUNT] = size
        settle(s)
    return change


def left_above_frame(more):
    def change(s):
        s[L] = frame_length(s[FORMAT]) + more
    return change


def character(form, place, data=0, parity=0):
    return put(RX_STATE, RX_CHARACTER, place, form, data, parity)


def stop_at(form, place):
    return character(form, place - 1), character(form, place)


def hold_flipped(s):
    s[HOLD] ^= 1


def cts_change_set(s):
    s[CHANGES] |= 1


def newest_byte(value):
    def change(s):
        s[TX + s[TX_COUNT] - 1] = value
    return change


def beyond_queue(s):
    s[TX + s[TX_COUNT]] = 1


def room_to_queue(s):
    return s[TX_COUNT] < QUEUE


def newest_entry(offset, most):
    def put_at(value):
        def change(s):
            s[RX + 4 * (s[RX_COUNT] - 1) + offset] = value
        return change
    return put_at(most), put_at(most + 1)


def beyond_entries(offset):
    def change(s):
        s[RX + 4 * s[RX_COUNT] + offset] = 1
    return change


def room_to_receive(s):
    return s[RX_COUNT] < QUEUE


REGISTERS = (
    ("IER above 63", *above(IER, 63)),
    ("MCR above 63", *above(MCR, 63)),
    ("LCR above 255", *above(LCR, 255)),
    ("SCR above 255", *above(SCR, 255)),
    ("divisor above 65535", put(DIVISOR, 65535, 1), put(DIVISOR, 65536, 1)),
    ("k without divisor", put(DIVISOR, 0, 0), put(DIVISOR, 0, 1)),
    ("k zero with divisor", put(K, 1), put(K, 0), has_divisor),
    ("k above divisor", k_above_divisor(0), k_above_divisor(1), has_divisor),
)

FIFO_AND_PINS = (
    ("FIFO on above 1", *above(FIFO_ON, 1)),
    ("size bit above 1", *above(SIZE64, 1)),
    ("DMA bit above 1", *above(DMA, 1)),
    ("trigger code above 3", *above(TRIGGER, 3)),
    ("modem pins above 15", *above(MODEM, 15)),
    ("SIN above 1", *above(SIN, 1)),
)

TRANSMIT = (
    ("transmit count above capacity", transmit_count_above(0), transmit_count_above(1)),
    ("transmit count 65", transmit_count_above(0), put(TX_COUNT, 65)),
    ("oldest queued byte above 255", *above(TX, 255), has_queued),
    ("newest queued byte above 255", newest_byte(255), newest_byte(256), has_queued),
    ("transmit place after the count", as_it_is, beyond_queue, room_to_queue),
    ("last transmit place", as_it_is, put(TX + 63, 255), room_to_queue),
    ("L above its frame", left_above_frame(0), left_above_frame(1), sending),
    ("L above 192", put(L, 192, 0, 0x3F), put(L, 193, 0, 0x3F)),
    ("frame byte above 255", *above(BYTE, 255), sending),
    ("frame format above 63", *above(FORMAT, 63), sending),
    ("frame byte without L", as_it_is, put(BYTE, 1), not_sending),
    ("frame format without L", as_it_is, put(FORMAT, 1), not_sending),
)

RECEIVE = (
    ("receive count above capacity", receive_count_above(0), receive_count_above(1)),
    ("receive count 65", receive_count_above(0), put(RX_COUNT, 65)),
    ("received byte above 255", *above(RX, 255), has_received),
    ("last received byte above 255", *newest_entry(0, 255), has_received),
    ("receiver state 3", *above(RX_STATE, RX_CHARACTER)),
    ("position outside a character", as_it_is, put(P, 1), not_in_character),
    ("format outside a character", as_it_is, put(RX_FORMAT, 1), not_in_character),
    ("data outside a character", as_it_is, put(RX_DATA, 1), not_in_character),
    ("parity outside a character", as_it_is, put(RX_PARITY, 1), not_in_character),
    ("character format above 63", character(63, 0), character(64, 0)),
    ("P at the stop position, 8 bits", *stop_at(0x03, 152)),
    ("P at the stop position, 5 bits", *stop_at(0x00, 104)),
    ("P at the stop position, parity", *stop_at(0x1B, 168)),
    ("P at the stop position, two stops", *stop_at(0x07, 152)),
    ("P at the stop position, parity and two stops", *stop_at(0x0E, 152)),
    ("P above the stop position", character(0x03, 151), character(0x03, 153)),
    ("data above the width", character(0x08, 119, 0x1F), character(0x08, 119, 0x20)),
    ("data above 255", character(0x03, 151, 0xFF), character(0x03, 151, 0x100)),
    ("parity sample without parity", character(0x03, 151, 0, 0), character(0x03, 151, 0, 1)),
    ("parity sample too early", character(0x0B, 152, 0, 1), character(0x0B, 151, 0, 1)),
    ("parity sample above 1", character(0x0B, 152, 0, 1), character(0x0B, 152, 0, 2)),
)

LATCHES = (
    ("transmit-empty latch above 1", *above(TX_LATCH, 1), none_queued),
    ("transmit-empty latch on a queue", as_it_is, put(TX_LATCH, 1), has_queued),
    ("OE above 1", *above(OE, 1)),
    ("time-out latch above 1", *above(TIMEOUT, 1), fifo_with_data),
    ("time-out latch with FIFO off", as_it_is, put(TIMEOUT, 1), character_mode_with_data),
    ("time-out latch without data", as_it_is, put(TIMEOUT, 1), fifo_without_data),
    ("idle count above 769", *above(IDLE, 769), fifo_with_data),
    ("idle count with FIFO off", as_it_is, put(IDLE, 1), character_mode_with_data),
    ("idle count without data", as_it_is, put(IDLE, 1), fifo_without_data),
    ("change bits above 15", *above(CHANGES, 15)),
    ("CTS change with autoflow", as_it_is, cts_change_set, autoflow),
    ("hold above 1", *above(HOLD, 1)),
    ("hold without autoflow", as_it_is, hold_flipped, lambda s: not autoflow(s)),
    ("hold without MCR1", as_it_is, hold_flipped, lambda s: autoflow(s) and not auto_rts(s)),
    ("hold with an empty queue", as_it_is, hold_flipped,
     lambda s: auto_rts(s) and not s[RX_COUNT]),
    ("no hold at the trigger", as_it_is, hold_flipped,
     lambda s: auto_rts(s) and s[RX_COUNT] >= trigger(s)),
)


def errors_and_samples():
    """Each flag, in the queue and kept; each data sample before its position; each number of an entry
    beyond the receive count."""
    for i, name in enumerate(("PE", "FE", "BI")):
        yield "%s above 1" % name, *above(RX + 1 + i, 1), fifo_with_data
        yield "last %s above 1" % name, *newest_entry(1 + i, 1), fifo_with_data
        yield "%s with FIFO off" % name, as_it_is, put(RX + 1 + i, 1), character_mode_with_data
        yield "kept %s above 1" % name, *above(KEPT + i, 1), character_mode
        yield "kept %s with FIFO on" % name, as_it_is, put(KEPT + i, 1), fifo_is_on
    for i in range(8):
        yield ("data sample %d too early" % i, character(0x03, 24 + 16 * i, 1 << i),
               character(0x03, 23 + 16 * i, 1 << i))
    for offset, name in enumerate(("byte", "PE", "FE", "BI")):
        yield ("%s after the receive count" % name, as_it_is, beyond_entries(offset),
               room_to_receive)
        yield ("%s in the last receive place" % name, as_it_is, put(RX + 4 * 63 + offset, 1),
               room_to_receive)


EDGES = [Edge(part, *row)
         for part, rows in ((1, REGISTERS), (2, FIFO_AND_PINS), (3, TRANSMIT), (4, RECEIVE),
                            (5, LATCHES), (4, errors_and_samples()))
         for row in rows]


def bases():
    """Well-formed states to damage; each edge is had by one of them at least."""
    plain = clocked(0x03, 12, 7)
    with_frame(with_received(plain, 1, ((0, (0, 1, 0)),)), 33)
    plain[SCR] = 0x77

    flow = with_fifo(clocked(0x1B, 1), 0, 1)
    flow[MCR], flow[IER] = 0x22, 0x0F
    with_queued(with_received(flow, 5, ((2, (1, 1, 0)),)), 1, 2, 3)
    in_character(flow, 60, 0x1B, 3)

    empty = with_fifo(fresh(), 1, 2)
    empty[MCR], empty[DIVISOR], empty[K] = 0x32, 3, 3
    empty[RX_STATE], empty[TX_LATCH] = RX_MARK, 1

    half = with_fifo(clocked(0x0F, 2, 1), 1, 3)
    half[MCR], half[IER] = 0x20, 0x05
    with_frame(with_received(half, 20, ((19, (0, 0, 1)),)), 192, 0x99, 0x0F)
    half[IDLE], half[TIMEOUT], half[OE] = 769, 1, 1
    return plain, flow, empty, half


def beyond_width(s, place, more=None):
    """A number too wide for its place, the same in its low bits. More is 256 or larger, 65536 or
    larger for a word; if not said, the least."""
    if more is None:
        more = 65536 if place in WORDS else 256
    s[place] = min(BIGGEST, s[place] + more)
    return s


def state_with(edge, pick):
    """A random state that has the edge."""
    while True:
        s = random_state(pick)
        if edge.where(s):
            return s


def damaged_state(pick):
    """A random state with one range broken or two, and the lowest of their parts. The later part is
    broken first: what its range needs of the earlier ones is then still good."""
    first = EDGES[pick(len(EDGES))]
    s = state_with(first, pick)
    edges = [first]
    if pick(2):
        others = [edge for edge in EDGES if edge is not first and edge.where(s)]
        edges.append(others[pick(len(others))])
    edges.sort(key=lambda edge: -edge.part)
    for edge in edges:
        edge.damage(s)
    return s, edges[-1].part
