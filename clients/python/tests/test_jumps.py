"""Ticks by jumps: known numbers of jumps; on all small clocks and on drawn states the state of single ticks,
the answer of run, and the jumps counted tick by tick; the largest number of ticks; pieces of long work."""
import pickle
import random
import unittest
from collections import Counter
from unittest import mock

from tl16c750 import LCR, THR, JumpRan, Uart, uart

MOST_DIVISOR = 65535
MOST_TICKS = 0xFFFFFFFF
FRAME_PULSES = 160  # start, eight data bits, stop
DIVISORS = (65536, 1000, 16, 4, 2)  # those drawn are below


def waiting(divisor, k):
    """A UART of eight bits, no parity and one stop bit; a byte waits in character mode."""
    u = Uart()
    u.state.baud = divisor, k
    u.write(LCR, 0x03)
    u.write(THR, 65)
    return u


def counted(u, n):
    """The jumps of n single ticks: a tick that is begun with k at 1 is a pulse, and ends a jump."""
    u = u.copy()
    jumps, unfinished = 0, False
    for _ in range(n):
        unfinished = u.state.baud.k != 1
        jumps += not unfinished
        u.tick()
    return jumps + unfinished


def drawn(count):
    """States that writes, SIN and ticks lead to, with clocks of every size; few ticks, and many pulses."""
    draw = random.Random(1).randrange
    u = Uart()
    for turn in range(count):
        for _ in range(6):
            u.write(draw(8), draw(256))
            u.sin = draw(2)
            u.tick(draw(500))
        u.write(THR, draw(256))
        divisor = draw(DIVISORS[turn % len(DIVISORS)])
        u.state.baud = divisor, 1 + draw(divisor) if divisor else 0
        yield u, 1 + draw(2000), draw(2000) * (1 + divisor)


def after(call, u, n):
    """What a call of a UART answers, and the UART after it."""
    u = u.copy()
    return call(u, n), u


class Jumps(unittest.TestCase):
    def jumped(self, u, n):
        """The jumps of ticks and of a run, where the states are those of ticks and run."""
        _, ticked = after(Uart.tick, u, n)
        jumps, jumped = after(Uart.jump, u, n)
        self.assertEqual(jumped, ticked)
        used, run = after(Uart.run, u, n)
        ran, jump_run = after(Uart.jump_run, u, n)
        self.assertEqual(jump_run, run)
        self.assertEqual(ran.used, used)
        self.assertLessEqual(ran.jumps, jumps)
        divisor = u.state.baud.divisor
        if divisor:
            self.assertLessEqual(jumps, 2 + n // divisor)
        return jumps, ran

    def check_counted(self, u, n):
        """The same, and the jumps are those counted: the ticks that run used."""
        jumps, ran = self.jumped(u, n)
        self.assertEqual(jumps, counted(u, n))
        self.assertEqual(ran.jumps, counted(u, ran.used))
        return ran.used

    def test_known_numbers(self):
        for n, jumps in (0, 0), (2, 1), (3, 1), (4, 2), (8, 2), (9, 3):
            with self.subTest(n):
                self.assertEqual(waiting(5, 3).jump(n), jumps)
                self.assertEqual(waiting(5, 3).jump_run(n), (n, jumps))

    def test_an_empty_transmitter_makes_none_and_divisor_0_one(self):
        empty = Uart()
        empty.state.baud = 5, 3
        for n in (0, 1, MOST_TICKS):
            with self.subTest(n):
                jumps = int(n > 0)
                self.assertEqual(empty.jump_run(n), (0, 0))
                self.assertEqual(self.jumped(Uart(), n), (jumps, (0, 0)))
                self.assertEqual(self.jumped(waiting(0, 0), n), (jumps, (n, jumps)))

    def test_small_clocks(self):
        for divisor in range(5):
            for k in range(min(divisor, 1), divisor + 1):
                for n in range(20):
                    with self.subTest(divisor=divisor, k=k, n=n):
                        self.check_counted(waiting(divisor, k), n)

    def test_all_ticks_of_32_bits(self):
        for k, most in (1, 65538), (MOST_DIVISOR, 65537):
            ran = JumpRan(k + FRAME_PULSES * MOST_DIVISOR, 1 + FRAME_PULSES)
            self.assertEqual(self.jumped(waiting(MOST_DIVISOR, k), MOST_TICKS), (most, ran))

    def test_drawn_states(self):
        ends = Counter()
        for u, n, many in drawn(200):
            with self.subTest(baud=u.state.baud, n=n):
                used = self.check_counted(u, n)
                ends["none" if used == 0 else "some" if used < n else "all"] += 1
                self.jumped(u, many)
        self.assertTrue(all(ends[end] > 20 for end in ("none", "some", "all")), ends)

    def test_pieces_do_not_show(self):
        """Long work goes in pieces, which are cut at pulses."""
        for u, n, _ in drawn(100):
            for call in (Uart.tick, Uart.run, Uart.jump, Uart.jump_run):
                whole = after(call, u, n)
                for pulses in (1, 2, 7):
                    with self.subTest(baud=u.state.baud, n=n, call=call.__name__, pulses=pulses):
                        with mock.patch.object(uart, "_PULSES", pulses):
                            self.assertEqual(after(call, u, n), whole)

    def test_what_is_no_number_of_32_bits(self):
        u = waiting(5, 3)
        for given in (-1, 1 << 32, 9.0, "9"):
            error = ValueError if isinstance(given, int) else TypeError
            for call in (u.tick, u.run, u.jump, u.jump_run):
                with self.subTest(given=given, call=call.__name__):
                    self.assertRaisesRegex(error, "a number of ticks is a number", call, given)
        self.assertEqual(u, waiting(5, 3))

    def test_named(self):
        ran = waiting(5, 3).jump_run(9)
        self.assertEqual((ran.used, ran.jumps), (9, 3))
        self.assertEqual(repr(ran), "JumpRan(used=9, jumps=3)")
        self.assertEqual(pickle.loads(pickle.dumps(ran)), ran)


if __name__ == "__main__":
    unittest.main()
