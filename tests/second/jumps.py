"""Lines for the calls `jump` and `jumprun` (document 02, request g): numbers of ticks around pulses and
around T, jumps over what a pulse can do, early stops, states that hold a run back or are not well formed.

After a jump `forecast` shows k and L, `state` all else. In a moving state a pulse shows in several places.
"""

import draws
import parts
import states as st
from parts import with_numbers
from states import (BIGGEST, clocked, in_character, keep_errors, with_fifo, with_frame, with_queued,
                    with_received)
from steps import EIGHT_BITS, EVEN_PARITY, IIR, LSR, RBR, THR, Lines


def receiving(d, k):
    """Nothing is sent, received data waits, a character of zeros comes in."""
    s = with_received(with_fifo(clocked(d=d, k=k)), 1)
    return in_character(with_numbers(s, {st.SIN: 0}), 12, 0x1F)


def moving(d, k, left=190):
    """The same while a frame is sent."""
    return with_frame(receiving(d, k), left, 0x41, 0x0F)


def on(s, *lines):
    """The lines on a state, and the state they leave."""
    yield from (st.load_line(s), *lines, "state")


# ---- Numbers of ticks ----

def in_a_row():
    """Jump after jump: none, up to a pulse, at it, behind it, up to the one after the next."""
    for d, k in ((1, 1), (2, 1), (7, 4)):
        yield st.load_line(moving(d, k))
        for n in range(2 * d + 2):
            yield from ("jump %d" % n, "forecast")
        yield "state"


def around_pulses():
    """From the same state: around the first pulse and the second, at a later one."""
    for n in (6, 7, 8, 18, 19, 20, 7 + 12 * 9):
        yield from on(moving(12, 7), "jump %d" % n)


def far():
    """Many ticks at large divisors: few of them are pulses."""
    for d, k, n in ((65535, 1, BIGGEST - 1), (65534, 65534, BIGGEST), (50000, 7, 1 << 31), (256, 1, 65536)):
        yield from on(moving(d, k), "jump %d" % n)


# ---- What a pulse does ----

def near(code=0):
    """FIFO on with this trigger, a pulse at the second tick, the next three ticks later."""
    return with_fifo(clocked(d=3, k=2), 0, code)


def before_stop_sample(s, sin, data=0x41):
    """The next pulse takes the stop sample."""
    s = with_numbers(s, {st.SIN: sin})
    return in_character(s, st.stop_position(EIGHT_BITS) - 1, EIGHT_BITS, data)


def one_pulse():
    """States whose next pulse loads, ends a frame or a character, times out, or is held back."""
    yield with_queued(near(), 0x41, 0x42)
    yield with_numbers(with_queued(near(), 0x41), {st.IER: 2})
    yield with_frame(with_queued(near(), 0x41, 0x42), 1)
    yield with_frame(near(), 1)
    yield with_frame(with_queued(with_numbers(near(), {st.MCR: 0x20}), 0x41), 1)
    for sin, data in ((1, 0x41), (0, 0x41), (0, 0x00)):
        yield before_stop_sample(with_numbers(near(), {st.IER: 5}), sin, data)
    yield before_stop_sample(with_received(near(), 16), 1)
    yield before_stop_sample(keep_errors(with_received(clocked(d=3, k=2), 1), 1, 0, 0), 0)
    yield with_numbers(with_received(near(1), 2), {st.IER: 1, st.IDLE: 640})
    yield before_stop_sample(with_received(with_numbers(near(1), {st.MCR: 0x22}), 3), 1)
    yield with_numbers(near(), {st.SIN: 0})


def over_pulses():
    """Up to that pulse, to it, behind it; over many."""
    for i, s in enumerate(one_pulse()):
        yield from on(s, "jump %d" % (2, 1, 4, 2, 5)[i % 5], "pins", "jump 1")
    looped = with_numbers(with_queued(near(), 0x41, 0x5A), {st.MCR: 0x10, st.IER: 5})
    yield from on(looped, "jump 1500", "read 5", "read 0", "jump 3000", "read 2", "read 5")
    low = with_numbers(clocked(d=2), {st.SIN: 0})
    yield from on(low, "jump 700", "read 5", "sin 1", "jump 2")
    yield from on(moving(0, 0), "jump 1", "jump %d" % BIGGEST)


def driven():
    """A driver that lets the time pass by jumps."""
    q = Lines(["fresh"])
    q.set_up(EVEN_PARITY, 26, 0x41, 0x07, 0x10)
    q.write(THR, 0x41, 0x00)
    for line in ("jump 25", "jumprun 26", "jump 4500", "jumprun 9000", "jumprun 9000", "jump 20000"):
        q.step(line)
        q.read(LSR, IIR)
    q.read(RBR, RBR, LSR)
    yield from (*q.lines, "state")


# ---- Runs ----

def around_the_end():
    """N around T; the state then, and a run after it."""
    for s in (with_frame(clocked(d=5, k=3), 1), with_frame(with_queued(near(), 1, 2), 4),
              with_queued(clocked(), 0x41), with_frame(clocked(d=65535, k=65535), 7)):
        t = st.forecast(s)
        for n in (t - 1, t, t + 1):
            yield from (*on(s, "jumprun %d" % n), "jumprun 2")


def short_runs():
    """Two ticks at a time, to the end of a frame and beyond."""
    yield st.load_line(moving(5, 3, 3))
    yield from ("jumprun 2", "forecast") * 8
    yield from ("jump 6", "jumprun 6", "state")


def nothing_to_send():
    """No jump, whatever else would move."""
    for d in (5, 0):
        yield from on(receiving(d, d), "jumprun 1", "jumprun 40", "jumprun %d" % BIGGEST)


def not_stopped():
    """No clock; held back, the frame going on, then let go; the longest queue."""
    yield from on(with_queued(moving(0, 0), 1, 2), "jumprun 0", "jumprun 3", "jumprun %d" % BIGGEST)
    held = with_numbers(with_fifo(clocked(d=5, k=3)), {st.MCR: 0x20})
    with_frame(with_queued(held, 0x41), 2)
    yield from on(held, "jumprun 7", "jumprun 14", "state", "modem 1", "jumprun 6000")
    yield from on(with_numbers(held, {st.DIVISOR: 65535}), "jumprun %d" % BIGGEST)
    looped = with_numbers(with_queued(near(), 0x41, 0x42), {st.MCR: 0x30})
    yield from on(looped, "jumprun 100", "write 4 50", "jumprun 5000", "read 0", "read 0")
    longest = with_queued(with_fifo(clocked(0x3F, 65535), 1), *range(64))
    with_frame(longest, 192, 0x55, 0x3F)
    yield from on(longest, "jumprun %d" % (st.forecast(longest) - 1), "jumprun %d" % BIGGEST)


# ---- Others ----

def refused():
    """1, no ticks and no jumps; the state as it was."""
    for i, s in enumerate(parts.damaged()):
        n = (0, 1, 9)[i % 3]
        yield from on(s, "jump %d" % n, "jumprun %d" % (9 - n))


def drawn():
    pick = st.picker(16754)
    lines = []
    for _ in range(8):
        draws.jump_segment(pick, lines)
    return lines


def script():
    for some in (in_a_row, around_pulses, far, over_pulses, driven, around_the_end, short_runs,
                 nothing_to_send, not_stopped, refused, drawn):
        yield from some()
