"""States and the part of each that is bad, as document 02, requests b and c, say; 0 where none is.

The ranges at their edges and just beyond, two parts broken together, numbers too wide for their
places, ranges that join two places, broken by a change of the earlier one, and kept errors.
"""

from itertools import combinations, product

import states as st
from states import (bases, clocked, in_character, keep_errors, put, with_fifo, with_frame,
                    with_queued, with_received)

EDGE = {edge.name: edge for edge in st.EDGES}

# Edges of each part.
PAIRED = {
    1: ("IER above 63", "k above divisor"),
    2: ("SIN above 1", "FIFO on above 1"),
    3: ("newest queued byte above 255", "transmit count above capacity"),
    4: ("receiver state 3", "receive count above capacity", "kept FE with FIFO on"),
    5: ("OE above 1", "idle count above 769"),
}

# Places that hold a byte, of each part.
BYTES = (st.SCR, st.MODEM, st.TX, st.RX, st.CHANGES, st.KEPT_BI)


def flow():
    """A state that has every edge of PAIRED."""
    return bases()[1]


def both_sides(edge, base):
    yield edge.keep(list(base)), 0
    yield edge.damage(list(base)), edge.part


def edges():
    """Each range on both sides of its edge, on the first state that has it."""
    for edge in st.EDGES:
        base = next(s for s in bases() if edge.where(s))
        yield from both_sides(edge, base)


def capacities():
    """Both queues at each capacity; with FIFO off the size bit plays no part."""
    for fifo_on, size64 in ((0, 0), (0, 1), (1, 0), (1, 1)):
        base = clocked()
        base[st.FIFO_ON], base[st.SIZE64] = fifo_on, size64
        for name in ("transmit count above capacity", "receive count above capacity"):
            yield from both_sides(EDGE[name], base)


def broken(names):
    """The state with these edges broken, the latest part first, and the lowest part."""
    s = flow()
    part = 0
    for edge in sorted((EDGE[name] for name in names), key=lambda edge: -edge.part):
        edge.damage(s)
        part = edge.part
    return s, part


def together():
    """Each pair of parts, by either edge of each; then all parts from each on."""
    for low, high in combinations(st.PARTS, 2):
        for a in PAIRED[low]:
            for b in PAIRED[high]:
                yield broken((a, b))
    for low in st.PARTS:
        yield broken([PAIRED[part][0] for part in st.PARTS if part >= low])


def unfit():
    """Numbers too wide: alone in each place, beside an ordinary break of each other part, in pairs."""
    for place in st.SINGLES + st.QUEUE_ENDS:
        for more in (None, 1 << 31):
            yield st.beyond_width(flow(), place, more), st.part_of(place)
    for place in BYTES:
        for names in PAIRED.values():
            s, part = broken(names[1:])
            yield st.beyond_width(s, place), min(part, st.part_of(place))
    for low, high in combinations(BYTES, 2):
        s = st.beyond_width(st.beyond_width(flow(), high), low)
        yield s, min(st.part_of(low), st.part_of(high))
    yield [st.BIGGEST] * st.PLACES, 1


def damaged():
    """States broken in each part, in two parts, and by numbers too wide."""
    for names in PAIRED.values():
        yield broken(names[:1])[0]
    for low, high in ((1, 3), (2, 5), (4, 5)):
        yield broken((PAIRED[low][0], PAIRED[high][0]))[0]
    for place in BYTES:
        yield st.beyond_width(flow(), place)
    yield [st.BIGGEST] * st.PLACES


def with_numbers(s, numbers):
    """Numbers: places and what they get."""
    for place, number in numbers.items():
        s[place] = number
    return s


def within_parts():
    """Part, well-formed state, change: ranges that join two places of one part."""
    yield 1, clocked(d=12, k=7), put(st.DIVISOR, 6)
    yield 1, clocked(d=12, k=7), put(st.DIVISOR, 0)
    yield 1, st.fresh(), put(st.DIVISOR, 1)
    yield 3, with_queued(with_fifo(clocked()), 1, 2), put(st.TX_COUNT, 1)
    yield 3, with_frame(clocked(), 176, 0x41, 0x07), put(st.FORMAT, 0x03)
    yield 3, with_frame(clocked(), 1), put(st.L, 0)
    yield 4, with_received(with_fifo(clocked()), 2), put(st.RX_COUNT, 1)
    yield 4, in_character(clocked(), 151, 0x03), put(st.RX_FORMAT, 0x02)
    yield 4, in_character(clocked(), 24, 0x03, 1), put(st.P, 23)
    yield 4, in_character(clocked(), 24, 0x03), put(st.RX_STATE, st.RX_IDLE)
    yield 4, in_character(clocked(), 24, 0x03), put(st.RX_STATE, st.RX_MARK)


def of_errors():
    """The same of errors, changed from FIFO on to off and back: part 4."""
    for flags in ((1, 0, 0), (0, 1, 0), (0, 0, 1), (1, 1, 1)):
        yield 4, with_received(with_fifo(clocked()), 1, ((0, flags),)), put(st.FIFO_ON, 0)
        for count in (0, 1):
            yield 4, keep_errors(with_received(clocked(), count), *flags), put(st.FIFO_ON, 1)


def of_capacity():
    """The same of the capacity, changed under the counts: the queue's part, and not part 2."""
    for count in (2, 5, 16):
        yield 3, with_queued(with_fifo(clocked()), *range(count)), put(st.FIFO_ON, 0)
        yield 4, with_received(with_fifo(clocked()), count), put(st.FIFO_ON, 0)
    for count in (17, 64):
        yield 3, with_queued(with_fifo(clocked(), 1), *range(count)), put(st.SIZE64, 0)
        yield 4, with_received(with_fifo(clocked(), 1), count), put(st.SIZE64, 0)
    s = with_queued(with_received(with_fifo(clocked()), 2), 1, 2)
    yield 3, s, put(st.FIFO_ON, 0)


def of_latches():
    """The same of the latches, the idle count and the CTS change bit: part 5 by any change."""
    yield 5, with_numbers(clocked(), {st.TX_LATCH: 1}), put(st.TX_COUNT, 1)
    for place, most in ((st.TIMEOUT, 1), (st.IDLE, 769)):
        s = with_numbers(with_received(with_fifo(clocked()), 1), {place: most})
        yield 5, s, put(st.FIFO_ON, 0)
        yield 5, s, put(st.RX_COUNT, 0, 0)
    yield 5, with_numbers(with_fifo(clocked()), {st.CHANGES: 1}), put(st.MCR, 0x20)
    yield 5, with_numbers(clocked(), {st.CHANGES: 15, st.MCR: 0x20}), put(st.FIFO_ON, 1)


def of_hold():
    """The same of the hold, which MCR, FIFO, size, trigger and receive count decide: part 5."""
    def auto_rts(count, code, size64=0):
        s = with_numbers(with_fifo(clocked(), size64, code), {st.MCR: 0x22})
        return with_received(s, count)

    for mcr in (0x20, 0x02, 0x00):
        yield 5, auto_rts(4, 1), put(st.MCR, mcr)
    yield 5, auto_rts(1, 0), put(st.FIFO_ON, 0)
    yield 5, auto_rts(1, 0), put(st.RX_COUNT, 0, 0)
    for count, code in ((4, 1), (1, 0)):
        s = with_received(with_fifo(clocked(), 0, code), count)
        yield 5, s, put(st.MCR, 0x22)
    s = with_numbers(with_received(clocked(), 1), {st.MCR: 0x22})
    yield 5, s, put(st.FIFO_ON, 1)
    yield 5, auto_rts(7, 2), put(st.TRIGGER, 1)
    yield 5, auto_rts(5, 1, 1), put(st.SIZE64, 0)
    yield 5, auto_rts(3, 1), put(st.RX_COUNT, 4)


def joined():
    for table in (within_parts, of_errors, of_capacity, of_latches, of_hold):
        for part, s, change in table():
            yield s, 0
            damaged = list(s)
            change(damaged)
            yield damaged, part


def kept():
    """Any of the kept errors with FIFO off, none with FIFO on; an entry's own the other way."""
    for flags in product((0, 1), repeat=3):
        for count in (0, 1):
            yield keep_errors(with_received(clocked(), count), *flags), 0
            s = keep_errors(with_received(with_fifo(clocked()), count), *flags)
            yield s, 4 if any(flags) else 0
        yield with_received(with_fifo(clocked()), 1, ((0, flags),)), 0
        s = with_received(clocked(), 1)
        put(st.RX + 1, *flags)(s)
        yield s, 4 if any(flags) else 0
        yield keep_errors(list(s), *flags), 4 if any(flags) else 0
    for place in range(st.KEPT, st.PLACES):
        for number in (2, 255, 256, 257, 65536, st.BIGGEST):
            yield with_numbers(clocked(), {place: number}), 4
        yield with_numbers(clocked(), {place: 2, st.SIN: 2}), 2
        yield with_numbers(clocked(), {place: 2, st.BYTE: 1}), 3
        yield with_numbers(clocked(), {place: 2, st.OE: 2}), 4


def cases():
    for some in (edges, capacities, together, unfit, joined, kept):
        yield from some()
