"""Pairs of a clock and a rate for the call `divisor` (document 02, request e): the chart, the ends of
both ranges, ties, and others at which a wrong rule shows; then random ones that favour these.

The product of a divisor is 16 * divisor * rate. A pair may lie outside the ranges.
"""

from itertools import product

from states import BIGGEST

MOST_CLOCK = 16000000
MOST_RATE = 1000000
MOST_DIVISOR = 65535

CHART_CLOCKS = (1843200, 3072000, 8000000)
# The sheet's tables 9 and 10 without 134.5, which is no whole number, and the rates that serial ports
# of Linux and Windows name.
CHART_RATES = (50, 75, 110, 150, 200, 300, 600, 1200, 1800, 2000, 2400, 3600, 4800, 7200, 9600, 14400,
               19200, 38400, 56000, 57600, 115200, 128000, 230400, 256000, 460800, 500000, 576000,
               921600, 1000000)

# The ends of both ranges and what lies beyond; the low bits of some of these are inside.
END_CLOCKS = (0, 1, 2, 16, MOST_CLOCK - 1, MOST_CLOCK, MOST_CLOCK + 1, 1 << 24, BIGGEST)
END_RATES = (0, 1, 2, 16, MOST_RATE - 1, MOST_RATE, MOST_RATE + 1, 1 << 20, BIGGEST)


def line(clock, rate):
    return "divisor %d %d" % (clock, rate)


def last_tie(rate):
    """The last divisor whose middle to the next one is a clock inside, at most the largest one."""
    return min(MOST_DIVISOR, (MOST_CLOCK // (8 * rate) - 1) // 2)


def tie(divisor, rate):
    """The clock in the middle between the products of a divisor and the next."""
    return 8 * (2 * divisor + 1) * rate


# ---- Chosen pairs ----

def chart():
    yield from product(CHART_CLOCKS, CHART_RATES)


def ends():
    yield from product(END_CLOCKS, END_RATES)
    for more in (1 << 16, 1 << 24, 1 << 31):
        yield from ((3072000 + more, 7200), (3072000, 7200 + more), (1 + more, 1), (1, 1 + more))


TIE_RATES = (1, 2, 3, 7, 10, 15, 16, 50, 110, 300, 1200, 9600, 57600, 115200, 230400, 333333, 400000,
             666666, MOST_RATE)
TIE_DIVISORS = (0, 1, 2, 3, 5, 11, 100, 4095, 32767, 65533, 65534)


def ties():
    """The middle between two divisors, and a tick to either side; below divisor 1 there is no other."""
    for rate in TIE_RATES:
        last = last_tie(rate)
        for divisor in sorted({d for d in TIE_DIVISORS if d < last} | {last}):
            for beside in (-1, 0, 1):
                yield tie(divisor, rate) + beside, rate


def quotients():
    """Around products of the largest divisors and of those that are none; clocks far beyond them."""
    for rate in (1, 2, 3, 7, 14, 15):
        for quotient in range(MOST_DIVISOR - 2, MOST_DIVISOR + 4):
            for beside in (-1, 0, 1):
                yield min(MOST_CLOCK, 16 * quotient * rate + beside), rate
    for rate in range(1, 19):
        yield from ((MOST_CLOCK, rate), (MOST_CLOCK - 1, rate), (MOST_CLOCK // 2, rate))
    # Quotient 0, where 1 is the divisor, and the first ones above.
    for rate in (1, 2, 3, 1000, 7200, 500000, 666667, MOST_RATE):
        for clock in (1, 4 * rate, 8 * rate - 1, 16 * rate - 1, 16 * rate, 16 * rate + 1, 32 * rate - 1):
            yield min(MOST_CLOCK, clock), rate


def nearest_rates():
    """Clocks below the middle whose nearest rate, clock over 16 * divisor, is the next divisor's."""
    for divisor, rate in product((1, 2, 3, 4, 10, 100), (3, 7, 1000, 1187, 9600, 115200, 500000)):
        middle = tie(divisor, rate)
        if middle <= MOST_CLOCK:
            even = 32 * rate * divisor * (divisor + 1) // (2 * divisor + 1)  # both rates as near
            for clock in (even - 1, even, even + 1, (even + middle) // 2):
                yield clock, rate


def errors():
    """Errors of both signs: large, with a fraction, of whole parts per million, between -1 and 1."""
    for divisor, rate in ((1, 1), (1, 2), (1, 3), (5, 7), (1, 62500), (1, 62501), (1, 500000),
                          (1, 999999), (1, MOST_RATE), (2, 500000), (16, 62500), (1047, 110),
                          (65535, 1), (65535, 8), (65535, 15)):
        for beside in (1, 2, 3, 7, 8, 9, 15, 16, 17, 31, 32, 33):
            for clock in (16 * divisor * rate - beside, 16 * divisor * rate + beside):
                if 0 < clock <= MOST_CLOCK:
                    yield clock, rate


# ---- Random pairs ----

def any_size(pick, most):
    """A number from 1 to most; small ones as likely as large ones."""
    return min(most, 1 + pick(1 << 1 + pick(most.bit_length())))


def uniform(pick):
    return 1 + pick(MOST_CLOCK), 1 + pick(MOST_RATE)


def scaled(pick):
    return any_size(pick, MOST_CLOCK), any_size(pick, MOST_RATE)


def near_tie(pick):
    rate = any_size(pick, MOST_CLOCK // 24)
    last = last_tie(rate)
    divisor = any_size(pick, last) if pick(2) else 1 + pick(last)
    return tie(divisor, rate) + pick(3) - 1, rate


def near_product(pick):
    rate = any_size(pick, MOST_RATE)
    divisor = any_size(pick, min(MOST_DIVISOR, MOST_CLOCK // (16 * rate)))
    most = (1, 8, 20)[pick(3)]
    return max(0, 16 * divisor * rate + pick(2 * most + 1) - most), rate


def near_largest(pick):
    rate = 1 + pick(16)
    clock = 16 * (MOST_DIVISOR - 2 + pick(5)) * rate + pick(16 * rate + 1)
    return min(MOST_CLOCK, clock) if pick(4) else MOST_CLOCK - pick(MOST_CLOCK // 4), rate


def near_end(pick):
    clock, rate = scaled(pick)
    which = pick(3)
    if which != 0:
        clock = END_CLOCKS[pick(len(END_CLOCKS))]
    if which != 1:
        rate = END_RATES[pick(len(END_RATES))]
    return clock, rate


def outside(pick):
    clock, rate = scaled(pick)
    if pick(2):
        return MOST_CLOCK + any_size(pick, BIGGEST - MOST_CLOCK), rate
    return clock, MOST_RATE + any_size(pick, BIGGEST - MOST_RATE)


DRAWS = ((uniform,) * 4 + (scaled,) * 4 + (near_tie,) * 6 + (near_product,) * 4 + (near_largest,) * 3 +
         (near_end,) * 2 + (outside,))


def draw(pick):
    return DRAWS[pick(len(DRAWS))](pick)


def draw_lines(pick, count):
    return [line(*draw(pick)) for _ in range(count)]
